#include "show.h"

#include <inttypes.h>
#include <stdio.h>

static const char *const kinds[] = {
    "BOOLEAN", "INTEGER", "ENUMERATED", "NULL", "OCTET STRING", "UTF8String", "SEQUENCE", "SEQUENCE OF", "CHOICE",
};

static const uint32_t *type_row(struct table t, uint32_t row)
{
    return t.types.start + (size_t)row * ATTRYWIND_TYPE_FIELDS;
}

static void show_name(struct table t, uint32_t member)
{
    const uint32_t *m = type_row(t, member);
    printf("%.*s", (int)m[4], (const char *)t.names.start + m[3]);
}

static void show_string(const uint8_t *s, size_t length)
{
    putchar('"');
    for (size_t i = 0; i < length; i++)
        putchar(s[i] < 0x20 || s[i] == 0x7F ? '.' : s[i]);
    putchar('"');
}

static void show_octets(const uint8_t *s, size_t length)
{
    for (size_t i = 0; i < length; i++)
        printf("%02X", s[i]);
}

/* What a row says beside its kind. */
static void show_content(struct table t, const uint32_t *type, const uint32_t *row, const uint8_t *pool)
{
    switch (type[0]) {
    case ATTRYWIND_BOOLEAN: printf(row[1] ? "true" : "false"); break;
    case ATTRYWIND_INTEGER: printf("%" PRId64, (int64_t)((uint64_t)row[2] << 32 | row[1])); break;
    case ATTRYWIND_NULL: printf("null"); break;
    case ATTRYWIND_OCTET_STRING: show_octets(pool + row[1], row[2]); break;
    case ATTRYWIND_UTF8_STRING: show_string(pool + row[1], row[2]); break;
    case ATTRYWIND_SEQUENCE: printf("%" PRIu32 " present", row[1]); break;
    case ATTRYWIND_SEQUENCE_OF: printf("%" PRIu32 " items", row[1]); break;
    default: show_name(t, type[2] + row[1]); /* ENUMERATED, CHOICE */
    }
    putchar('\n');
}

struct walk { struct table t; struct value v; size_t at; };

static const uint32_t *next_row(const struct walk *w)
{
    return w->v.rows + w->at * ATTRYWIND_VALUE_FIELDS;
}

/* The numbers of the row that comes next, and the space before its name. */
static void show_numbers(const struct walk *w, int depth)
{
    const uint32_t *row = next_row(w);
    printf("%4zu %5" PRIu32 " %8" PRIu32 " %8" PRIu32 " %5" PRIu32 "  %*s", w->at, row[0], row[1], row[2], row[3],
           2 * depth, "");
}

static void show_value(struct walk *w, uint32_t type_at, int depth);

static void show_member(struct walk *w, uint32_t member, int depth)
{
    show_numbers(w, depth);
    show_name(w->t, member);
    printf(": ");
    if (next_row(w)[0] != ATTRYWIND_ABSENT) {
        show_value(w, type_row(w->t, member)[2], depth);
        return;
    }
    printf("absent\n");
    w->at++;
}

static void show_item(struct walk *w, uint32_t position, uint32_t type_at, int depth)
{
    show_numbers(w, depth);
    printf("item %" PRIu32 ": ", position);
    show_value(w, type_at, depth);
}

/* The value of the next row, whose numbers and name are printed already, and its parts. */
static void show_value(struct walk *w, uint32_t type_at, int depth)
{
    const uint32_t *type = type_row(w->t, type_at), *row = next_row(w);
    w->at++;
    printf("%s ", kinds[type[0]]);
    show_content(w->t, type, row, w->v.pool);
    if (type[0] == ATTRYWIND_SEQUENCE)
        for (uint32_t i = 0; i < type[3]; i++)
            show_member(w, type[2] + i, depth + 1);
    else if (type[0] == ATTRYWIND_SEQUENCE_OF)
        for (uint32_t i = 0; i < row[1]; i++)
            show_item(w, i, type[2], depth + 1);
    else if (type[0] == ATTRYWIND_CHOICE)
        show_member(w, type[2] + row[1], depth + 1);
}

void show_rows(struct table t, struct value v)
{
    struct walk w = { t, v, 0 };
    printf(" row  kind        a        b  size\n");
    show_numbers(&w, 0);
    show_value(&w, 0, 0);
}
