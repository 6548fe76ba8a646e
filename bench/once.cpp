// Reads or writes a case so many times and does nothing else, for a tool that counts instructions:
//     once CASES NAME ours|rapidjson read|write|each TIMES
// each: one call that reads so many copies of the text, at most eleven, ours alone.
#include "../include/attrywind.h"
#include "bench.h"

#include <cstdio>
#include <cstdlib>

static const uint8_t *bytes(const std::string &s)
{
    return reinterpret_cast<const uint8_t *>(s.data());
}

static bool read_each(const Case &c, size_t times)
{
    // as much is made ready for one text as for the most
    const size_t most = 11;
    std::string texts;
    std::vector<uint64_t> ends, tells(most * ATTRYWIND_TOLD);
    for (size_t i = 0; i < most; i++) {
        texts += c.text;
        ends.push_back(texts.size());
    }
    std::vector<uint32_t> rows(c.rows.size() * most);
    std::vector<uint8_t> pool(c.pool.size() * most + 1);
    uint64_t amounts[2] = {0, 0};
    uint32_t number = attrywind_read_each(c.types.data(), c.types.size(), bytes(c.names), c.names.size(), bytes(texts),
                                          texts.size(), ends.data(), times, rows.data(), rows.size(), pool.data(),
                                          pool.size(), tells.data(), tells.size(), amounts, 2);
    return number == 0 && amounts[0] == times && tells[(times - 1) * ATTRYWIND_TOLD] == 0;
}

int main(int argc, char **argv)
{
    if (argc != 6) {
        std::fprintf(stderr, "once CASES NAME ours|rapidjson read|write|each TIMES\n");
        return 2;
    }
    Case c = load(argv[1], argv[2]);
    long times = std::atol(argv[5]);
    if (times < 1 || times > 11)
        return 2;
    std::string who = argv[3], call = argv[4];
    if (call == "each")
        return read_each(c, times) ? 0 : 1;
    std::unique_ptr<Contender> one = who == "ours" ? make_ours() : make_rapidjson();
    one->take(c);
    for (; times > 0; times--)
        call == "read" ? one->read() : one->write();
    return 0;
}
