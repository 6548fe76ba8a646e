#include "../include/attrywind.h"
#include "bench.h"

#include <stdexcept>

static const uint8_t *bytes(const std::string &s)
{
    return reinterpret_cast<const uint8_t *>(s.data());
}

// The library, with room lent once: reading stores rows and pool there, writing the text.
class Ours : public Contender {
    const Case *c = nullptr;
    std::vector<uint32_t> rows;
    std::vector<uint8_t> pool, text;
    uint64_t amounts[2] = {0, 0};

    void need(uint32_t number, bool good) const
    {
        if (number != 0 || !good)
            throw std::runtime_error("ours differs from the second program on " + c->name + ", number " +
                                     std::to_string(number));
    }

    uint32_t call_read()
    {
        return attrywind_read(c->types.data(), c->types.size(), bytes(c->names), c->names.size(), bytes(c->text),
                              c->text.size(), rows.data(), rows.size(), pool.data(), pool.size(), amounts, 2);
    }

    uint32_t call_write()
    {
        return attrywind_write(c->types.data(), c->types.size(), bytes(c->names), c->names.size(), c->rows.data(),
                               c->rows.size(), bytes(c->pool), c->pool.size(), text.data(), text.size(), amounts, 2);
    }

public:
    std::string name() const override { return "ours"; }
    std::string version() const override { return "libcapi.a"; }

    // Lends exactly the room needed, and a byte more for the pool, which may be empty: no pointer is null.
    void take(const Case &with) override
    {
        c = &with;
        rows.assign(c->rows.size(), 0);
        pool.assign(c->pool.size() + 1, 0);
        text.assign(c->written.size(), 0);
        uint32_t number = call_read();
        need(number, rows == c->rows && amounts[0] * ATTRYWIND_VALUE_FIELDS == rows.size() &&
                         amounts[1] == c->pool.size() && std::equal(pool.begin(), pool.end() - 1, bytes(c->pool)));
        number = call_write();
        need(number, amounts[0] == text.size() && std::equal(text.begin(), text.end(), bytes(c->written)));
    }

    size_t read() override
    {
        if (call_read() != 0)
            need(1, false);
        return c->text.size();
    }

    size_t write() override
    {
        if (call_write() != 0)
            need(1, false);
        return c->written.size();
    }
};

std::unique_ptr<Contender> make_ours()
{
    return std::make_unique<Ours>();
}

double judge_table(const Case &c, double seconds)
{
    uint64_t amounts[2];
    return best_seconds(
        [&] {
            attrywind_check_table(c.types.data(), c.types.size(), bytes(c.names), c.names.size(), amounts, 2);
        },
        seconds);
}
