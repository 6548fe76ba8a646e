// The stack that one call takes: stack CASES NAME... runs it on a stack of its own that was painted before, and finds the
// deepest byte that has lost the paint. What a call of an empty function takes there is subtracted.
#include "../include/attrywind.h"
#include "bench.h"

#include <algorithm>
#include <cstdio>
#include <cstring>
#include <ucontext.h>

static uint8_t stack[1 << 20];
static ucontext_t here, there;

static Case c;
static std::vector<uint32_t> rows;
static std::vector<uint8_t> pool, text;
static uint64_t amounts[2];

static const uint8_t *bytes(const std::string &s)
{
    return reinterpret_cast<const uint8_t *>(s.data());
}

static uint32_t no_read(const uint32_t *, size_t, const uint8_t *, size_t, const uint8_t *, size_t, uint32_t *, size_t, uint8_t *, size_t,
                        uint64_t *, size_t)
{
    return 0;
}

static uint32_t no_write(const uint32_t *, size_t, const uint8_t *, size_t, const uint32_t *, size_t, const uint8_t *, size_t, uint8_t *,
                         size_t, uint64_t *, size_t)
{
    return 0;
}

static auto *volatile reader = no_read;
static auto *volatile writer = no_write;

static void read_here()
{
    reader(c.types.data(), c.types.size(), bytes(c.names), c.names.size(), bytes(c.text), c.text.size(), rows.data(), rows.size(),
           pool.data(), pool.size(), amounts, 2);
}

static void write_here()
{
    writer(c.types.data(), c.types.size(), bytes(c.names), c.names.size(), c.rows.data(), c.rows.size(), bytes(c.pool), c.pool.size(),
           text.data(), text.size(), amounts, 2);
}

static void run_on_stack(void (*function)())
{
    getcontext(&there);
    there.uc_stack.ss_sp = stack;
    there.uc_stack.ss_size = sizeof stack;
    there.uc_link = &here;
    makecontext(&there, function, 0);
    swapcontext(&here, &there);
}

static size_t depth_with(uint8_t paint, void (*function)())
{
    std::memset(stack, paint, sizeof stack);
    run_on_stack(function);
    return std::end(stack) - std::find_if(std::begin(stack), std::end(stack), [=](uint8_t b) { return b != paint; });
}

// A byte that is written with the paint's own value is not seen: so two paints.
static size_t depth(void (*function)())
{
    return std::max(depth_with(0xA5, function), depth_with(0x5A, function));
}

int main(int argc, char **argv)
{
    size_t most_read = 0, most_write = 0, empty_read = depth(read_here), empty_write = depth(write_here);
    reader = attrywind_read;
    writer = attrywind_write;
    std::printf("%-12s %8s %8s\n", "case", "read", "write");
    for (int i = 2; i < argc; i++) {
        c = load(argv[1], argv[i]);
        make_ours()->take(c); // throws where the answers are not the second program's
        rows.assign(c.rows.size(), 0);
        pool.assign(c.pool.size() + 1, 0);
        text.assign(c.written.size(), 0);
        size_t read = depth(read_here) - empty_read, write = depth(write_here) - empty_write;
        most_read = std::max(most_read, read);
        most_write = std::max(most_write, write);
        std::printf("%-12s %8zu %8zu\n", c.name.c_str(), read, write);
    }
    std::printf("attrywind_read: %zu bytes of stack\nattrywind_write: %zu bytes of stack\n", most_read, most_write);
    return argc < 3 || most_read == 0;
}
