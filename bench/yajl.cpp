// yajl: yajl_tree_parse to its tree, yajl_gen by a walk of it.
#include "bench.h"

#include <cstring>
#include <stdexcept>
#include <yajl/yajl_gen.h>
#include <yajl/yajl_tree.h>
#include <yajl/yajl_version.h>

static const unsigned char *u(const char *s)
{
    return reinterpret_cast<const unsigned char *>(s);
}

static void generate(yajl_gen g, yajl_val v)
{
    switch (v->type) {
    case yajl_t_object:
        yajl_gen_map_open(g);
        for (size_t i = 0; i < v->u.object.len; i++) {
            yajl_gen_string(g, u(v->u.object.keys[i]), std::strlen(v->u.object.keys[i]));
            generate(g, v->u.object.values[i]);
        }
        yajl_gen_map_close(g);
        break;
    case yajl_t_array:
        yajl_gen_array_open(g);
        for (size_t i = 0; i < v->u.array.len; i++)
            generate(g, v->u.array.values[i]);
        yajl_gen_array_close(g);
        break;
    case yajl_t_string: yajl_gen_string(g, u(v->u.string), std::strlen(v->u.string)); break;
    case yajl_t_number: yajl_gen_number(g, v->u.number.r, std::strlen(v->u.number.r)); break;
    case yajl_t_null: yajl_gen_null(g); break;
    default: yajl_gen_bool(g, v->type == yajl_t_true);
    }
}

class Yajl : public Contender {
    const Case *c = nullptr;
    yajl_val kept = nullptr;

    yajl_val parse() const
    {
        char fault[256];
        return yajl_tree_parse(c->text.c_str(), fault, sizeof fault);
    }

public:
    ~Yajl() override { yajl_tree_free(kept); }
    std::string name() const override { return "yajl"; }

    std::string version() const override
    {
        return std::to_string(YAJL_MAJOR) + "." + std::to_string(YAJL_MINOR) + "." + std::to_string(YAJL_MICRO);
    }

    void take(const Case &with) override
    {
        c = &with;
        yajl_tree_free(kept);
        kept = parse();
        if (kept == nullptr)
            throw std::runtime_error("yajl cannot read " + c->name);
    }

    size_t read() override
    {
        yajl_val v = parse();
        yajl_tree_free(v);
        return v == nullptr ? 0 : c->text.size();
    }

    size_t write() override
    {
        yajl_gen g = yajl_gen_alloc(nullptr);
        const unsigned char *text;
        size_t length = 0;
        generate(g, kept);
        yajl_gen_get_buf(g, &text, &length);
        yajl_gen_free(g);
        return length;
    }
};

std::unique_ptr<Contender> make_yajl()
{
    return std::make_unique<Yajl>();
}
