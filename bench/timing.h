// Included by bench.h.
#include <algorithm>
#include <chrono>

inline double now()
{
    using namespace std::chrono;
    return duration<double>(steady_clock::now().time_since_epoch()).count();
}

template <class Call> double seconds_of(Call call, size_t times)
{
    double start = now();
    for (size_t i = 0; i < times; i++)
        call();
    return now() - start;
}

template <class Call> double best_seconds(Call call, double seconds)
{
    const int runs = 5;
    size_t times = 1;
    double taken = seconds_of(call, times);
    // The number of calls in a run is found by doubling.
    while (taken < seconds / runs / 2) {
        times *= 2;
        taken = seconds_of(call, times);
    }
    for (int i = 1; i < runs; i++)
        taken = std::min(taken, seconds_of(call, times));
    return taken / times;
}
