/* Attrywind: ASN.1 values in JSON (JER, X.697) as docs/document-01.md lays them down.
   The functions of target/staticlib/libcapi.a, for x86-64 Linux. `rt lib` in crates/capi_c makes it as out/libcapi_c.a;
   examples/run.sh does that and copies it.

   Each returns 0, or the number of document 01's refusal.

   What is lent. Every pointer comes with its length and is lent for the call alone; nothing is kept or allocated.
   A length counts elements of the pointer's type: for types, rows and values 32-bit numbers, for amounts, ends and
   tells 64-bit numbers, for names, text and pool bytes. The caller owes what a slice in Rust owes:
   - no pointer is null, also where its length is 0, and each is aligned for its type;
   - the memory is readable, and writable where the pointer is not const;
   - a buffer that is not const overlaps no other.
   examples/c/safe.c tests these before it calls.

   What is written. Success changes only the rows, pool bytes or text bytes used. A refusal writes in no lent buffer but
   `amounts`, which has room for two numbers (`amounts_len` is 2); with less room nothing is stored there, and behind the
   first two never:

     success of    first              second
     check_table   0                  0
     read          value rows         pool bytes
     read_each     texts answered     0
     write         text bytes         0
     a refusal     its place, row     its second amount,
                   or first amount    0 if it has none            */
#ifndef ATTRYWIND_H
#define ATTRYWIND_H

#include <stddef.h>
#include <stdint.h>

#ifdef __cplusplus
extern "C" {
#endif

/* Field 0 of a row: what kind of type or value it is. */
enum attrywind_kind {
    ATTRYWIND_BOOLEAN = 0,
    ATTRYWIND_INTEGER = 1,
    ATTRYWIND_ENUMERATED = 2,
    ATTRYWIND_NULL = 3,
    ATTRYWIND_OCTET_STRING = 4,
    ATTRYWIND_UTF8_STRING = 5,
    ATTRYWIND_SEQUENCE = 6,
    ATTRYWIND_SEQUENCE_OF = 7,
    ATTRYWIND_CHOICE = 8,
    ATTRYWIND_MEMBER = 9,  /* in type tables only */
    ATTRYWIND_ABSENT = 15  /* in value tables only */
};

/* 32-bit numbers to a row. */
enum { ATTRYWIND_TYPE_FIELDS = 8, ATTRYWIND_VALUE_FIELDS = 4 };

/* 64-bit numbers that attrywind_read_each tells of a text. */
enum { ATTRYWIND_TOLD = 5 };

/* Document 01's refusal numbers. */
enum attrywind_refusal {
    ATTRYWIND_TYPE_TABLE = 1,
    ATTRYWIND_TEXT_TOO_LONG = 2,
    ATTRYWIND_NOT_JSON = 3,
    ATTRYWIND_TOO_DEEP = 4,
    ATTRYWIND_OTHER_KIND = 5,
    ATTRYWIND_BAD_NUMBER = 6,
    ATTRYWIND_BAD_STRING = 7,
    ATTRYWIND_UNKNOWN_NAME = 8,
    ATTRYWIND_REPEATED_NAME = 9,
    ATTRYWIND_MEMBERS = 10,
    ATTRYWIND_UNKNOWN = 11,
    ATTRYWIND_VALUE_TABLE = 12,
    ATTRYWIND_WRITTEN_TOO_LONG = 13,
    ATTRYWIND_LENT_ROOM = 14
};

/* Judges a type table with its names: 0 or 1. */
uint32_t attrywind_check_table(const uint32_t *types, size_t types_len, const uint8_t *names, size_t names_len,
                               uint64_t *amounts, size_t amounts_len);

/* Reads a text at the type of row 0; the value's rows go to `rows`, its strings to `pool`.
   With no room at all it answers 14 and the amounts needed. */
uint32_t attrywind_read(const uint32_t *types, size_t types_len, const uint8_t *names, size_t names_len,
                        const uint8_t *text, size_t text_len, uint32_t *rows, size_t rows_len, uint8_t *pool,
                        size_t pool_len, uint64_t *amounts, size_t amounts_len);

/* Reads many texts by one type table, which is judged once. The texts stand one after another in `texts`; `ends` says where
   each ends, and it begins where the one before it ends. Their rows and their pool bytes are stored one after another in
   `rows` and `pool`; in each value table strings are counted from the start of its own part of the pool. Of each text five
   numbers are told in `tells`:

     0          0, or the number of its refusal
     1, 2       its two amounts, as attrywind_read gives them
     3          where its rows end, counted in rows: they begin where those of the text before it end
     4          where its pool bytes end

   Each text is answered as attrywind_read answers it, given the room that those before it leave. A refused text takes up
   no room, and the next one is read. One that finds no room (14) is the last: lend more and go on with it. So is the last
   one of which there is room to tell. Returns 0 and in the first amount how many texts are answered, or 1 with no text read. */
uint32_t attrywind_read_each(const uint32_t *types, size_t types_len, const uint8_t *names, size_t names_len,
                             const uint8_t *texts, size_t texts_len, const uint64_t *ends, size_t ends_len,
                             uint32_t *rows, size_t rows_len, uint8_t *pool, size_t pool_len, uint64_t *tells,
                             size_t tells_len, uint64_t *amounts, size_t amounts_len);

/* Writes the one text of a value table to `text`. */
uint32_t attrywind_write(const uint32_t *types, size_t types_len, const uint8_t *names, size_t names_len,
                         const uint32_t *values, size_t values_len, const uint8_t *pool, size_t pool_len,
                         uint8_t *text, size_t text_len, uint64_t *amounts, size_t amounts_len);

#ifdef __cplusplus
}
#endif

#endif
