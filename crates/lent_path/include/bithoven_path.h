/* A path of a listing in the caller's memory: its items are taken and handed on there.
 *
 * Link with liblent_path.a (x86-64; `tools/build lent_path` writes it to target/staticlib/).
 *
 * No function allocates, keeps state, or reads or writes anything but its arguments. No pointer may be null, not even with
 * length 0, and none may overlap another. */
#ifndef BITHOVEN_PATH_H
#define BITHOVEN_PATH_H

#include <stddef.h>
#include <stdint.h>

#ifdef __cplusplus
extern "C" {
#endif

/* An item: the number of its P line's row, which is its listing line less 1, and the listing line that took it. */
struct bithoven_place {
    uint16_t row;
    uint16_t line;
};

/* A path: `count` places from the stack's top, which is the last declared item; position k is taken if bit k of `taken` is
 * 1. Items are taken from the top down, so the taken positions run from position 0. The caller makes one with lines 0 and
 * `taken` 0. */
struct bithoven_path {
    struct bithoven_place places[32];
    uint32_t count;
    uint32_t taken;
};

/* 0 and four zeros, or the number of a refusal with its location. */
struct bithoven_answer {
    uint32_t number;
    uint32_t start;
    uint32_t end;
    uint32_t line;
    uint32_t column;
};

/* The rows of a listing, in `work`, of which there must be 16384 words: the table that the two functions below take.
 * Refuses with 1 to 5, as Check does; the first 16384 words are then zero (5: work is as it was). */
struct bithoven_answer bithoven_rows(const uint8_t *listing, size_t listing_len, uint32_t *work, size_t work_len);

/* The variable of row `row` (its listing line less 1) is taken from the path by that line. Refuses with 12, 13 or 15; and
 * with 3, nowhere, if `path` is no path of these rows (more than 32 places, one whose row is no P line, or a taken set that
 * does not run from position 0 or reaches past `count`) or the row is no variable's. A refusal leaves the path as it was. */
struct bithoven_answer bithoven_take(struct bithoven_path *path, const uint8_t *listing, size_t listing_len,
                                     const uint32_t *table, size_t table_len, size_t row);

/* What is taken in `from` is taken in `to` by the same lines, before the else-block of the if of row `row`. Refuses with 20
 * at that if; and with 3, nowhere, if one is no path of these rows or the row is no if's. A refusal leaves `to` as it was. */
struct bithoven_answer bithoven_transfer(struct bithoven_path *to, const uint8_t *listing, size_t listing_len,
                                         const uint32_t *table, size_t table_len, size_t row, struct bithoven_path from);

#ifdef __cplusplus
}
#endif

#endif
