// simdjson: its DOM parser, used again for each text as its makers advise, and to_string from the DOM.
#include "bench.h"

#include <simdjson.h>
#include <stdexcept>

#define TEXT_OF(x) #x
#define TEXT(x) TEXT_OF(x)

class Simd : public Contender {
    const Case *c = nullptr;
    simdjson::padded_string padded;
    simdjson::dom::parser parser, kept_parser;
    simdjson::dom::element kept;

public:
    std::string name() const override { return "simdjson"; }

    std::string version() const override
    {
        return std::string(TEXT(SIMDJSON_VERSION)) + " (" + simdjson::get_active_implementation()->name() + ")";
    }

    void take(const Case &with) override
    {
        c = &with;
        padded = simdjson::padded_string(c->text);
        if (kept_parser.parse(padded).get(kept))
            throw std::runtime_error("simdjson cannot read " + c->name);
    }

    size_t read() override
    {
        simdjson::dom::element read;
        return parser.parse(padded).get(read) ? 0 : c->text.size();
    }

    size_t write() override { return simdjson::to_string(kept).size(); }
};

std::unique_ptr<Contender> make_simdjson()
{
    return std::make_unique<Simd>();
}
