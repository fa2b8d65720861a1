/* The Bithoven examiner: Check, Report and Name on a listing, and rehearsing a witness.
 *
 * Link with libbithoven_examiner.a (x86-64; `tools/build bithoven_examiner` writes it to target/staticlib/).
 *
 * STACK. A call takes up to 0.19 MB of stack, 64 KiB of it for work memory: make it on a thread that has 2 MB or more.
 * Nothing checks this at run time. docs/ARCHITECTURE.md says what was measured.
 *
 * No function allocates, keeps state, or reads or writes anything but its arguments; all may be called from several threads
 * at once. No pointer may be null, not even with length 0. `answer` must point to five words, `due` to four, `place` and
 * `rehearsal` to two; what the pointers of a call point to must not overlap, but that `name` may be a part of `listing`.
 */
#ifndef BITHOVEN_EXAMINER_H
#define BITHOVEN_EXAMINER_H

#include <stddef.h>
#include <stdint.h>

#if defined(__GNUC__) || defined(__clang__)
#define BITHOVEN_MUST_USE __attribute__((warn_unused_result))
#else
#define BITHOVEN_MUST_USE
#endif

#ifdef __cplusplus
extern "C" {
#endif

/* Check.
 *
 * listing, listing_len   the bytes of the listing
 * answer                 gets five numbers: 0 and four zeros if the listing is accepted; else the number of the refusal
 *                        (1 to 4, 11 to 22) with its location: start, end, line, column
 *
 * Returns answer[0]: 0 if and only if the listing is accepted. */
BITHOVEN_MUST_USE uint32_t bithoven_check(const uint8_t *listing, size_t listing_len, uint32_t answer[5]);

/* Report: as Check, and the text of the report in `output`.
 *
 * listing, listing_len   the bytes of the listing
 * output, output_len     gets the text; bytes past it are left as they were
 * answer                 as with bithoven_check; or 6 and four zeros if output is shorter than the text, which then is left
 *                        as it was
 *
 * Returns the length of the text, 0 with 6. A text opens with `A,` if the listing is accepted, else with `R,`. After the
 * lines of the paths an accepted listing's text has a line `W,listing line,number` for each wait, in the order of the
 * listing; the number is the one that the script will carry. 65536 bytes of output hold the text of every listing. */
BITHOVEN_MUST_USE size_t bithoven_report(const uint8_t *listing, size_t listing_len, uint8_t *output, size_t output_len,
                                         uint32_t answer[5]);

/* Name: where the listing holds the name of an item.
 *
 * listing, listing_len   the bytes of the listing
 * path                   the item's path, from 0
 * position               its position on the path's stack, 0 being the top
 * place                  gets two numbers: how many bytes of the listing precede the name, and how many it has; two zeros if
 *                        the listing is refused or has no such item (a name has at least one byte)
 *
 * Returns what bithoven_check returns: 0 if and only if the listing is accepted, be there such an item or not. */
BITHOVEN_MUST_USE uint32_t bithoven_name(const uint8_t *listing, size_t listing_len, uint32_t path, uint32_t position,
                                         uint32_t place[2]);

/* Rehearsing a witness: open on a listing and a path, then lay items and take them back until the path's items are laid.
 *
 * listing, listing_len   the bytes of the listing, the same with every call
 * rehearsal              two numbers: the path, and the position due, 0 being the top. Each call is handed them as the last one
 *                        left them; bithoven_rehearse_open writes the first ones
 * due                    gets four numbers: 1, how many bytes of the listing precede the name of the item due, how many bytes
 *                        the name has, and the item's type (0 signature, 1 number, 2 string, 3 boolean); four zeros if the
 *                        rehearsal has ended, that is, if the items laid are all of the path's
 * answer                 gets five numbers: zeros; or the number of a refusal and its location. A refusal leaves `rehearsal`
 *                        and `due` as they were, and the rehearsal can go on
 *
 * Each call looks at the listing anew, and any two numbers are a rehearsal that is answered: bithoven_check's refusal comes
 * first, then 31 if the listing has no such path, then, for bithoven_rehearse_lay only, 32. The last two are at 0,0,0,0.
 *
 * Each returns answer[0]: 0 unless the call is refused. */

/* Open: the rehearsal of a path at its beginning, and the item due there. */
BITHOVEN_MUST_USE uint32_t bithoven_rehearse_open(const uint8_t *listing, size_t listing_len, uint32_t path,
                                                  uint32_t rehearsal[2], uint32_t due[4], uint32_t answer[5]);

/* Lay: an item by its name and the number of its type. 32 unless an item is due and both are its; else the following item
 * is due. */
BITHOVEN_MUST_USE uint32_t bithoven_rehearse_lay(const uint8_t *listing, size_t listing_len, const uint8_t *name,
                                                 size_t name_len, uint32_t type, uint32_t rehearsal[2], uint32_t due[4],
                                                 uint32_t answer[5]);

/* Take back: the item laid last is due again. At the beginning nothing is altered, and that is no refusal. */
BITHOVEN_MUST_USE uint32_t bithoven_rehearse_take_back(const uint8_t *listing, size_t listing_len, uint32_t rehearsal[2],
                                                       uint32_t due[4], uint32_t answer[5]);

#ifdef __cplusplus
}
#endif

#endif
