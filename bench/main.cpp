// Times reading and writing, ours and peers, in one run.
//
//     bench FOLDER SECONDS      FOLDER has the cases of make.py; each figure takes about SECONDS
#include "bench.h"

#include <cstdio>
#include <cstdlib>
#include <exception>

using Contenders = std::vector<std::unique_ptr<Contender>>;

static const char *const cases[] = {"booking", "options", "manifest", "list-60000"};
static const char *const list_sizes[] = {"list-300", "list-1200", "list-4800", "list-19200", "list-60000"};

static Contenders all()
{
    Contenders out;
    out.push_back(make_ours());
    out.push_back(make_rapidjson());
#ifdef WITH_SIMDJSON
    out.push_back(make_simdjson());
#endif
#ifdef WITH_YAJL
    out.push_back(make_yajl());
#endif
    return out;
}

enum class Way { Read, Write };

static size_t once(Contender &by, Way way)
{
    return way == Way::Read ? by.read() : by.write();
}

// Bytes of text a second, each contender counting the text that it reads or writes.
static double rate(Contender &by, const Case &c, Way way, double seconds)
{
    by.take(c);
    size_t bytes = once(by, way);
    return bytes / best_seconds([&] { once(by, way); }, seconds);
}

static void show_rates(const Contenders &by, const std::vector<Case> &of, Way way, double seconds)
{
    std::printf("\n%s, million bytes of text a second; ratio: ours to the peer\n%-10s %7s",
                way == Way::Read ? "reading" : "writing", "", "bytes");
    for (size_t i = 0; i < by.size(); i++)
        std::printf(i == 0 ? " %10s" : " %10s  ratio", by[i]->name().c_str());
    for (const Case &c : of) {
        std::printf("\n%-10s %7zu", c.name.c_str(), way == Way::Read ? c.text.size() : c.written.size());
        double ours = 0;
        for (size_t i = 0; i < by.size(); i++) {
            double r = rate(*by[i], c, way, seconds);
            ours = i == 0 ? r : ours;
            std::printf(" %10.2f", r / 1e6);
            if (i != 0)
                std::printf(" %6.3f", ours / r);
            std::fflush(stdout);
        }
    }
    std::printf("\n");
}

static void show_growth(const Contenders &by, const std::vector<Case> &of, Way way, double seconds)
{
    std::vector<double> least(by.size());
    std::printf("\n%s lists, nanoseconds for each byte; growth: times that of the shortest\n%7s",
                way == Way::Read ? "reading" : "writing", "bytes");
    for (const auto &each : by)
        std::printf(" %10s growth", each->name().c_str());
    for (const Case &c : of) {
        std::printf("\n%7zu", c.text.size());
        for (size_t i = 0; i < by.size(); i++) {
            double cost = 1e9 / rate(*by[i], c, way, seconds);
            least[i] = &c == &of.front() ? cost : least[i];
            std::printf(" %10.3f %6.2f", cost, cost / least[i]);
            std::fflush(stdout);
        }
    }
    std::printf("\n");
}

template <size_t N> static std::vector<Case> load_all(const char *folder, const char *const (&names)[N])
{
    std::vector<Case> out;
    for (const char *name : names)
        out.push_back(load(folder, name));
    return out;
}

static void run(const char *folder, double seconds)
{
    Contenders by = all();
    std::vector<Case> main_cases = load_all(folder, cases), lists = load_all(folder, list_sizes);
    for (const auto &each : by) {
        std::printf("%s: %s\n", each->name().c_str(), each->version().c_str());
        // Wrong answers are found before anything is timed.
        for (const std::vector<Case> *some : {&main_cases, &lists})
            for (const Case &c : *some)
                each->take(c);
    }
    for (Way way : {Way::Read, Way::Write})
        show_rates(by, main_cases, way, seconds);
    std::printf("\njudging the type table, a part of each of our reads and writes, microseconds\n");
    for (const Case &c : main_cases)
        std::printf("%-10s %7zu rows %10.3f\n", c.name.c_str(), c.types.size() / 8, judge_table(c, seconds) * 1e6);
    for (Way way : {Way::Read, Way::Write})
        show_growth(by, lists, way, seconds);
}

int main(int argc, char **argv)
{
    if (argc != 3) {
        std::fprintf(stderr, "bench FOLDER SECONDS\n");
        return 2;
    }
    try {
        run(argv[1], std::atof(argv[2]));
    } catch (const std::exception &e) {
        std::fprintf(stderr, "%s\n", e.what());
        return 1;
    }
    return 0;
}
