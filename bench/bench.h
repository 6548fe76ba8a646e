// What is timed: a case, and those who read and write it.
#ifndef BENCH_H
#define BENCH_H

#include <cstddef>
#include <cstdint>
#include <memory>
#include <string>
#include <vector>

// An input with what the second program answers to it.
struct Case {
    std::string name;
    std::vector<uint32_t> types;
    std::string names, text;
    std::vector<uint32_t> rows;
    std::string pool, written;
};

Case load(const std::string &folder, const std::string &name);

// Reads texts to a form of its own and writes texts from it.
class Contender {
public:
    virtual ~Contender() = default;
    virtual std::string name() const = 0;
    virtual std::string version() const = 0;
    // Makes ready for a case; throws where the contender cannot read it, or answers wrongly.
    virtual void take(const Case &c) = 0;
    // Each does its work once and returns how many bytes of text were read or written.
    virtual size_t read() = 0;
    virtual size_t write() = 0;
};

std::unique_ptr<Contender> make_ours();
std::unique_ptr<Contender> make_rapidjson();
std::unique_ptr<Contender> make_simdjson();
std::unique_ptr<Contender> make_yajl();

// The seconds that judging the case's type table takes, which is part of each read and write.
double judge_table(const Case &c, double seconds);

// Calls again and again for about so many seconds, in five runs; the best run's seconds for one call.
template <class Call> double best_seconds(Call call, double seconds);

#include "timing.h"

#endif
