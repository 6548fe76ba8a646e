#include "safe.h"

#include <stdbool.h>
#include <stdlib.h>

/* What lent memory must be: `align` bytes an element, `written` if the library may write there. */
struct lent { const void *start; size_t length, align; bool written; };

static bool fits(struct lent m)
{
    uintptr_t start = (uintptr_t)m.start;
    if (m.start == NULL)
        return m.length == 0;
    /* A slice is at most PTRDIFF_MAX bytes and does not run past the end of the addresses. */
    return start % m.align == 0 && m.length <= PTRDIFF_MAX / m.align && start <= UINTPTR_MAX - m.length * m.align;
}

static bool apart(struct lent m, struct lent n)
{
    uintptr_t a = (uintptr_t)m.start, b = (uintptr_t)n.start;
    if (m.length == 0 || n.length == 0)
        return true;
    return a + m.length * m.align <= b || b + n.length * n.align <= a;
}

static bool sound(const struct lent *all, size_t count)
{
    for (size_t i = 0; i < count; i++) {
        if (!fits(all[i]))
            return false;
        for (size_t j = 0; j < i; j++)
            if ((all[i].written || all[j].written) && !apart(all[i], all[j]))
                return false;
    }
    return true;
}

/* What stands in for a null start: never read or written, since its length is 0. */
static uint64_t nothing;

static const uint8_t *b(struct bytes m) { return m.start ? m.start : (const uint8_t *)&nothing; }
static const uint32_t *n(struct numbers m) { return m.start ? m.start : (const uint32_t *)&nothing; }
static uint8_t *rb(struct room_bytes m) { return m.start ? m.start : (uint8_t *)&nothing; }
static uint32_t *rn(struct room_numbers m) { return m.start ? m.start : (uint32_t *)&nothing; }
static const uint64_t *w(struct wide m) { return m.start ? m.start : &nothing; }
static uint64_t *rw(struct room_wide m) { return m.start ? m.start : &nothing; }

#define LENT(m, written) { (m).start, (m).length, sizeof *(m).start, written }
#define COUNT(a) (sizeof(a) / sizeof *(a))

static struct answer bad_call(void)
{
    return (struct answer){ BAD_CALL, 0, 0 };
}

struct answer check_table(struct table t)
{
    uint64_t amounts[2] = { 0, 0 };
    struct lent all[] = { LENT(t.types, false), LENT(t.names, false) };
    if (!sound(all, COUNT(all)))
        return bad_call();
    uint32_t number = attrywind_check_table(n(t.types), t.types.length, b(t.names), t.names.length, amounts, 2);
    return (struct answer){ number, amounts[0], amounts[1] };
}

struct answer read_text(struct table t, struct bytes text, struct room_numbers rows, struct room_bytes pool)
{
    uint64_t amounts[2] = { 0, 0 };
    struct lent all[] = { LENT(t.types, false), LENT(t.names, false), LENT(text, false), LENT(rows, true),
                          LENT(pool, true) };
    if (!sound(all, COUNT(all)))
        return bad_call();
    uint32_t number = attrywind_read(n(t.types), t.types.length, b(t.names), t.names.length, b(text), text.length,
                                     rn(rows), rows.length, rb(pool), pool.length, amounts, 2);
    return (struct answer){ number, amounts[0], amounts[1] };
}

struct answer read_each(struct table t, struct bytes texts, struct wide ends, struct room_numbers rows,
                        struct room_bytes pool, struct room_wide tells)
{
    uint64_t amounts[2] = { 0, 0 };
    struct lent all[] = { LENT(t.types, false), LENT(t.names, false), LENT(texts, false), LENT(ends, false),
                          LENT(rows, true), LENT(pool, true), LENT(tells, true) };
    if (!sound(all, COUNT(all)))
        return bad_call();
    uint32_t number = attrywind_read_each(n(t.types), t.types.length, b(t.names), t.names.length, b(texts),
                                          texts.length, w(ends), ends.length, rn(rows), rows.length, rb(pool),
                                          pool.length, rw(tells), tells.length, amounts, 2);
    return (struct answer){ number, amounts[0], amounts[1] };
}

struct answer write_value(struct table t, struct numbers values, struct bytes pool, struct room_bytes text)
{
    uint64_t amounts[2] = { 0, 0 };
    struct lent all[] = { LENT(t.types, false), LENT(t.names, false), LENT(values, false), LENT(pool, false),
                          LENT(text, true) };
    if (!sound(all, COUNT(all)))
        return bad_call();
    uint32_t number = attrywind_write(n(t.types), t.types.length, b(t.names), t.names.length, n(values),
                                      values.length, b(pool), pool.length, rb(text), text.length, amounts, 2);
    return (struct answer){ number, amounts[0], amounts[1] };
}

struct answer read_whole(struct table t, struct bytes text, struct value *v)
{
    *v = (struct value){ NULL, 0, NULL, 0 };
    struct answer needed = read_text(t, text, (struct room_numbers){ NULL, 0 }, (struct room_bytes){ NULL, 0 });
    if (needed.number != ATTRYWIND_LENT_ROOM)
        return needed;
    /* At most 130 rows for each byte of a text of at most 65,536: the product does not wrap. */
    v->numbers = (size_t)needed.first * ATTRYWIND_VALUE_FIELDS;
    v->pool_bytes = (size_t)needed.second;
    v->rows = malloc(v->numbers * sizeof *v->rows);
    v->pool = malloc(v->pool_bytes ? v->pool_bytes : 1);
    if (v->rows == NULL || v->pool == NULL) {
        free_value(v);
        return needed;
    }
    return read_text(t, text, (struct room_numbers){ v->rows, v->numbers },
                     (struct room_bytes){ v->pool, v->pool_bytes });
}

void free_value(struct value *v)
{
    free(v->rows);
    free(v->pool);
    *v = (struct value){ NULL, 0, NULL, 0 };
}
