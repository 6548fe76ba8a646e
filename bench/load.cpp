#include "bench.h"

#include <fstream>
#include <stdexcept>

static std::string line(std::istream &in)
{
    std::string digits, bytes;
    if (!std::getline(in, digits) || digits.size() % 2 != 0)
        throw std::runtime_error("a case has a line missing, or an odd one");
    for (size_t i = 0; i < digits.size(); i += 2)
        bytes += static_cast<char>(std::stoi(digits.substr(i, 2), nullptr, 16));
    return bytes;
}

static std::vector<uint32_t> numbers(std::istream &in)
{
    std::string bytes = line(in);
    std::vector<uint32_t> out(bytes.size() / 4);
    for (size_t i = 0; i < out.size() * 4; i++)
        out[i / 4] = out[i / 4] << 8 | static_cast<uint8_t>(bytes[i]);
    return out;
}

Case load(const std::string &folder, const std::string &name)
{
    std::ifstream in(folder + "/" + name + ".case");
    Case c;
    c.name = name;
    c.types = numbers(in);
    c.names = line(in);
    c.text = line(in);
    c.rows = numbers(in);
    c.pool = line(in);
    c.written = line(in);
    return c;
}
