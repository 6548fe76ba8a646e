/* Safe wrappers: what attrywind.h asks of a caller is tested here, and a call that would break it is not made. */
#ifndef SAFE_H
#define SAFE_H

#include "../../include/attrywind.h"

/* A number of the wrappers' own: the call was not made. No refusal has it. */
#define BAD_CALL UINT32_MAX

/* Room and its length; a null start is allowed where the length is 0. */
struct bytes { const uint8_t *start; size_t length; };
struct numbers { const uint32_t *start; size_t length; };
struct room_bytes { uint8_t *start; size_t length; };
struct room_numbers { uint32_t *start; size_t length; };

struct table { struct numbers types; struct bytes names; };

/* 0, a refusal number or BAD_CALL, with its amounts. */
struct answer { uint32_t number; uint64_t first, second; };

struct answer check_table(struct table t);
struct answer read_text(struct table t, struct bytes text, struct room_numbers rows, struct room_bytes pool);
/* Many texts, of which `ends` says where each ends; `tells` is room for ATTRYWIND_TOLD numbers for each. */
struct wide { const uint64_t *start; size_t length; };
struct room_wide { uint64_t *start; size_t length; };
struct answer read_each(struct table t, struct bytes texts, struct wide ends, struct room_numbers rows,
                        struct room_bytes pool, struct room_wide tells);

struct answer write_value(struct table t, struct numbers values, struct bytes pool, struct room_bytes text);

/* A value table with its own memory: made by read_whole, given back by free_value. */
struct value { uint32_t *rows; size_t numbers; uint8_t *pool; size_t pool_bytes; };

/* Asks how much room is needed, lends it, and reads. On a refusal, or where there is no memory, *v holds nothing. */
struct answer read_whole(struct table t, struct bytes text, struct value *v);
void free_value(struct value *v);

#endif
