// rapidjson: Document::Parse to its DOM, Writer from it; its default flags, which do not check UTF-8.
#include "bench.h"

#include <rapidjson/document.h>
#include <rapidjson/stringbuffer.h>
#include <rapidjson/writer.h>
#include <stdexcept>

class Rapid : public Contender {
    const Case *c = nullptr;
    rapidjson::Document kept;
    rapidjson::StringBuffer out;

public:
    std::string name() const override { return "rapidjson"; }
    std::string version() const override { return RAPIDJSON_VERSION_STRING; }

    void take(const Case &with) override
    {
        c = &with;
        if (kept.Parse(c->text.data(), c->text.size()).HasParseError())
            throw std::runtime_error("rapidjson cannot read " + c->name);
    }

    size_t read() override
    {
        rapidjson::Document d;
        d.Parse(c->text.data(), c->text.size());
        return d.HasParseError() ? 0 : c->text.size();
    }

    size_t write() override
    {
        out.Clear();
        rapidjson::Writer<rapidjson::StringBuffer> writer(out);
        kept.Accept(writer);
        return out.GetSize();
    }
};

std::unique_ptr<Contender> make_rapidjson()
{
    return std::make_unique<Rapid>();
}
