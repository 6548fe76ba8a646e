/* Reads a booking from four senders, prints its rows, writes it again, and shows refusals in words.

       booking FOLDER      FOLDER is examples/booking */
#include "load.h"
#include "sentences.h"
#include "show.h"

#include <inttypes.h>
#include <stdbool.h>
#include <stdio.h>
#include <stdlib.h>
#include <string.h>

static const char *const senders[] = { "texts/agency.json", "texts/portal.json", "texts/broker.json",
                                       "texts/summer.json" };

static const char *const refused[] = {
    "refused/03-comma-lost.json",    "refused/04-too-many-brackets.json", "refused/05-age-as-string.json",
    "refused/06-half-a-berth.json",  "refused/07-unpadded-token.json",    "refused/08-cabin-colour.json",
    "refused/09-fare-twice.json",    "refused/10-no-passengers.json",     "refused/11-voucher-of-summer.json",
};

#define COUNT(a) (sizeof(a) / sizeof *(a))

static void report(const char *what, struct answer a, struct bytes text)
{
    printf("%s: ", what);
    if (a.number == 0)
        printf("no refusal\n");
    else if (a.number == BAD_CALL)
        printf("no call\n");
    else
        printf("refusal %" PRIu32 "\n", a.number);
    if (a.number != 0)
        say(a, text);
}

/* Ends the program where what must succeed is refused. */
static void need(const char *what, struct answer a, struct bytes text)
{
    if (a.number == 0)
        return;
    report(what, a, text);
    exit(1);
}

static bool same(struct value v, struct value w)
{
    return v.numbers == w.numbers && v.pool_bytes == w.pool_bytes &&
           memcmp(v.rows, w.rows, v.numbers * sizeof *v.rows) == 0 && memcmp(v.pool, w.pool, v.pool_bytes) == 0;
}

static struct value read_house(const char *folder, struct table spring)
{
    struct value v;
    struct bytes text = load_file(folder, "texts/house.json");
    need("texts/house.json", read_whole(spring, text, &v), text);
    printf("texts/house.json: %zu bytes, read as %zu rows and %zu pool bytes\n\n", text.length,
           v.numbers / ATTRYWIND_VALUE_FIELDS, v.pool_bytes);
    show_rows(spring, v);
    free((void *)text.start);
    return v;
}

static void read_senders(const char *folder, struct table spring, struct value house)
{
    printf("\nother senders, and the summer version's text by the spring table\n");
    for (size_t i = 0; i < COUNT(senders); i++) {
        struct value v;
        struct bytes text = load_file(folder, senders[i]);
        need(senders[i], read_whole(spring, text, &v), text);
        printf("%s: %zu bytes, %s\n", senders[i], text.length,
               same(house, v) ? "the same rows and pool" : "OTHER ROWS OR POOL");
        free_value(&v);
        free((void *)text.start);
    }
}

/* The senders' texts and a refused one between them, in one call, with room for `values` bookings. */
static void read_at_once(const char *folder, struct table spring, struct value house, size_t values)
{
    static uint8_t texts[8192], pool[4096];
    static uint32_t rows[4096];
    const char *const names[] = { senders[0], refused[5], senders[1], senders[2] };
    uint64_t ends[COUNT(names)], tells[COUNT(names) * ATTRYWIND_TOLD];
    size_t length = 0;
    for (size_t i = 0; i < COUNT(names); i++) {
        struct bytes text = load_file(folder, names[i]);
        memcpy(texts + length, text.start, text.length);
        length += text.length;
        ends[i] = length;
        free((void *)text.start);
    }
    struct answer a = read_each(spring, (struct bytes){ texts, length }, (struct wide){ ends, COUNT(ends) },
                                (struct room_numbers){ rows, values * house.numbers },
                                (struct room_bytes){ pool, sizeof pool }, (struct room_wide){ tells, COUNT(tells) });
    need("reading at once", a, (struct bytes){ NULL, 0 });
    printf("\nfour texts at once, with room for %zu bookings: %" PRIu64 " answered\n", values, a.first);
    uint64_t row = 0, byte = 0;
    for (size_t i = 0; i < a.first; i++) {
        const uint64_t *told = tells + i * ATTRYWIND_TOLD;
        struct value v = { rows + row * ATTRYWIND_VALUE_FIELDS, (told[3] - row) * ATTRYWIND_VALUE_FIELDS, pool + byte,
                           told[4] - byte };
        if (told[0] != 0)
            printf("%s: refusal %" PRIu64 "\n", names[i], told[0]);
        else
            printf("%s: %s\n", names[i], same(house, v) ? "the same rows and pool" : "OTHER ROWS OR POOL");
        row = told[3];
        byte = told[4];
    }
}

static void write_house(struct table spring, struct value v)
{
    static uint8_t text[65536];
    struct bytes none = { NULL, 0 };
    struct answer a = write_value(spring, (struct numbers){ v.rows, v.numbers }, (struct bytes){ v.pool, v.pool_bytes },
                                  (struct room_bytes){ text, sizeof text });
    need("writing", a, none);
    printf("\nwritten again: %" PRIu64 " bytes\n%.*s\n", a.first, (int)a.first, (const char *)text);
}

static void refuse_texts(const char *folder, struct table spring)
{
    printf("\nrefusals, as a partner desk reads them\n");
    for (size_t i = 0; i < COUNT(refused); i++) {
        struct value v;
        struct bytes text = load_file(folder, refused[i]);
        report(refused[i], read_whole(spring, text, &v), text);
        free_value(&v);
        free((void *)text.start);
    }
}

/* Refusals that come from our side of the call. */
static void refuse_calls(struct table spring, struct value house)
{
    static uint8_t long_text[65537], controls[11000], out[65536];
    uint32_t string_type[8] = { ATTRYWIND_UTF8_STRING };
    uint32_t string_row[4] = { ATTRYWIND_UTF8_STRING, 0, sizeof controls, 1 };
    struct table short_table = spring, string_table = { { string_type, 8 }, { NULL, 0 } };
    struct bytes pool = { house.pool, house.pool_bytes }, none = { NULL, 0 };
    struct numbers rows = { house.rows, house.numbers }, cut_rows = { house.rows, house.numbers - 4 };
    short_table.types.length -= 8;

    printf("\nrefusals of our own calls\n");
    report("a type table without its last row", check_table(short_table), none);
    memset(long_text, ' ', sizeof long_text);
    report("a text of 65,537 bytes", read_text(spring, (struct bytes){ long_text, sizeof long_text },
           (struct room_numbers){ NULL, 0 }, (struct room_bytes){ NULL, 0 }), none);
    report("a value table without its last row",
           write_value(spring, cut_rows, pool, (struct room_bytes){ out, sizeof out }), none);
    memset(controls, 1, sizeof controls);
    report("a string of 11,000 control characters", write_value(string_table, (struct numbers){ string_row, 4 },
           (struct bytes){ controls, sizeof controls }, (struct room_bytes){ out, sizeof out }), none);
    report("room for 100 bytes of text", write_value(spring, rows, pool, (struct room_bytes){ out, 100 }), none);
}

/* Room is painted before a call: where the paint still is, nothing was written. */
enum { PAINT = 0xA5 };

static bool painted(const void *start, size_t length)
{
    const uint8_t *byte = start;
    while (length > 0 && byte[length - 1] == PAINT)
        length--;
    return length == 0;
}

/* Four amounts, of which none, one and two are lent: the length counts numbers, and less than two are not stored. */
static void show_amounts(struct table spring, struct bytes text)
{
    uint32_t row = 0;
    uint8_t byte = 0;
    printf("\namounts lent and stored; - is as it was\n");
    for (size_t lent = 0; lent <= 2; lent++) {
        uint64_t amounts[4];
        memset(amounts, PAINT, sizeof amounts);
        attrywind_read(spring.types.start, spring.types.length, spring.names.start, spring.names.length, text.start,
                       text.length, &row, 0, &byte, 0, amounts, lent);
        printf("%zu lent:", lent);
        for (size_t i = 0; i < COUNT(amounts); i++)
            if (painted(&amounts[i], sizeof amounts[i]))
                printf(" -");
            else
                printf(" %" PRIu64, amounts[i]);
        printf("\n");
    }
}

/* Refused calls, with room that is painted: enough of it, and too little. */
static void leave_room(const char *folder, struct table spring, struct value house, struct bytes text)
{
    static uint32_t rows[400];
    static uint8_t pool[400], out[400];
    struct room_numbers all_rows = { rows, COUNT(rows) }, few_rows = { rows, house.numbers - 1 };
    struct room_bytes all_pool = { pool, sizeof pool }, few_pool = { pool, house.pool_bytes - 1 };
    struct bytes strings = { house.pool, house.pool_bytes };
    memset(rows, PAINT, sizeof rows);
    memset(pool, PAINT, sizeof pool);
    memset(out, PAINT, sizeof out);
    bool refusing = read_text(spring, text, few_rows, all_pool).number != 0 &&
                    read_text(spring, text, all_rows, few_pool).number != 0 &&
                    write_value(spring, (struct numbers){ house.rows, house.numbers - 1 }, strings,
                                (struct room_bytes){ out, sizeof out }).number != 0 &&
                    write_value(spring, (struct numbers){ house.rows, house.numbers }, strings,
                                (struct room_bytes){ out, 100 }).number != 0;
    for (size_t i = 0; i < COUNT(refused); i++) {
        struct bytes bad = load_file(folder, refused[i]);
        refusing = refusing && read_text(spring, bad, all_rows, all_pool).number != 0;
        free((void *)bad.start);
    }
    printf("%zu refused calls: %s\n", COUNT(refused) + 4,
           refusing && painted(rows, sizeof rows) && painted(pool, sizeof pool) && painted(out, sizeof out)
               ? "rows, pool and text as they were" : "ONE WAS TAKEN OR WROTE");
}

/* Calls that the wrappers must not make: overlapping, misaligned and null room. */
static void test_wrappers(struct table spring, struct value house)
{
    static uint8_t out[16];
    struct bytes pool = { house.pool, house.pool_bytes }, null_text = { NULL, 1 };
    struct numbers rows = { house.rows, house.numbers };
    struct numbers odd = { (const uint32_t *)(const void *)((const uint8_t *)house.rows + 1), 4 };
    struct room_bytes over_pool = { house.pool, 1 }, room = { out, sizeof out };
    if (write_value(spring, rows, pool, over_pool).number == BAD_CALL &&
        write_value(spring, odd, pool, room).number == BAD_CALL &&
        read_text(spring, null_text, (struct room_numbers){ NULL, 0 }, room).number == BAD_CALL)
        return;
    fprintf(stderr, "a wrapper made a call that it must not make\n");
    exit(1);
}

int main(int argc, char **argv)
{
    if (argc != 2) {
        fprintf(stderr, "booking FOLDER\n");
        return 2;
    }
    struct table spring = load_table(argv[1], "spring.hex");
    need("spring.hex", check_table(spring), (struct bytes){ NULL, 0 });
    printf("spring.hex: a good type table of %zu rows\n", spring.types.length / ATTRYWIND_TYPE_FIELDS);
    struct value house = read_house(argv[1], spring);
    read_senders(argv[1], spring, house);
    read_at_once(argv[1], spring, house, 3);
    read_at_once(argv[1], spring, house, 2);
    write_house(spring, house);
    refuse_texts(argv[1], spring);
    refuse_calls(spring, house);
    struct bytes text = load_file(argv[1], "texts/house.json");
    show_amounts(spring, text);
    leave_room(argv[1], spring, house, text);
    free((void *)text.start);
    test_wrappers(spring, house);
    free_value(&house);
    free((void *)spring.types.start);
    free((void *)spring.names.start);
    return 0;
}
