// Fuzzing of the C exports with libFuzzer. What must hold of every input is in `examine`. The library has libFuzzer's counters
// on its own branches (harness/fuzz/library), so they guide the fuzzer.
#include "../../crates/bithoven_examiner/include/bithoven_examiner.h"
#include <stdint.h>
#include <stdio.h>
#include <stdlib.h>
#include <string.h>

#define ROOM 70000

// How much of an output is filled and looked at: a short listing has a short text, since each line of a text comes of a line
// of the listing and has at most three bytes more.
static size_t room_of(size_t n) { return n < 2500 ? 8192 : ROOM; }

size_t LLVMFuzzerMutate(uint8_t *data, size_t size, size_t max_size);

static void must(int holds, const char *what) {
    if (!holds) {
        fprintf(stderr, "does not hold: %s\n", what);
        abort();
    }
}

static int is_number(uint32_t n) { return n == 0 || (n >= 1 && n <= 4) || (n >= 11 && n <= 22); }

// All bytes of `out` from `from` on are as they were filled.
static int untouched(const uint8_t *out, size_t from, size_t all) {
    for (size_t i = from; i < all; i++)
        if (out[i] != 0xa5)
            return 0;
    return 1;
}

static size_t report(const uint8_t *in, size_t n, uint8_t *out, size_t room, uint32_t answer[5]) {
    memset(out, 0xa5, room_of(n));
    memset(answer, 0xff, 5 * sizeof answer[0]);
    return bithoven_report(in, n, out, room, answer);
}

// The text: its first bytes say the answer, its last byte is 10, and it says what `answer` says.
static void judge_text(const uint8_t *text, size_t n, const uint32_t answer[5]) {
    char due[80];
    must(n > 3 && text[n - 1] == 10, "a text ends in byte 10");
    must(memcmp(text, answer[0] == 0 ? "A," : "R,", 2) == 0, "a text opens with its answer");
    if (answer[0] == 0)
        return;
    int m = snprintf(due, sizeof due, "R,%u,%u,%u,%u,%u\n", answer[0], answer[1], answer[2], answer[3], answer[4]);
    must((size_t)m == n && memcmp(text, due, n) == 0, "a refusal's text is its answer");
}

static size_t line_end(const uint8_t *data, size_t size, size_t at) {
    while (at < size && data[at] != 10)
        at++;
    return at < size ? at + 1 : size;
}

// The `W` line that is due for a line of an accepted listing; nothing if it is no wait.
static int wait_due(const uint8_t *in, size_t n, unsigned number, char *due) {
    char line[80];
    unsigned op;
    unsigned long long operand;
    if (in[0] != 'L')
        return 0;
    must(n < sizeof line, "a wait within its bounds is short");
    memcpy(line, in, n);
    line[n] = 0;
    must(sscanf(line, "L,%*u,%*u,%*u,%*u,%u,%llu", &op, &operand) == 2 && op <= 2, "a wait has op 0, 1 or 2");
    must(operand <= (op == 0 ? 4294967295u : 65535u), "a wait is within its bounds");
    return sprintf(due, "W,%u,%llu\n", number, op == 2 ? 4194304 + operand : operand);
}

// The text of an acceptance: lines A, D and P, and then a line for each wait of the listing, in the order of its lines.
static void judge_waits(const uint8_t *in, size_t n, const uint8_t *text, size_t size) {
    static char due[20000];
    size_t all = 0, at = 0;
    for (unsigned number = 1; at < n; number++) {
        size_t end = line_end(in, n, at);
        all += (size_t)wait_due(in + at, end - at, number, due + all);
        at = end;
    }
    must(all <= size && memcmp(text + size - all, due, all) == 0, "the waits end a text, each with its line and number");
    for (at = 0; at < size - all; at = line_end(text, size, at))
        must(text[at] == 'A' || text[at] == 'D' || text[at] == 'P', "nothing but paths comes before the waits");
}

// Name on one item: Check's number; if there is a name, a part of the listing on a line that ends with it, else two zeros.
static void judge_name(const uint8_t *in, size_t n, uint32_t checked, uint32_t path, uint32_t position) {
    uint32_t place[2] = {0xffffffff, 0xffffffff};
    must(bithoven_name(in, n, path, position, place) == checked, "Name gives Check's number");
    if (checked != 0 || place[1] == 0) {
        must(place[0] == 0 && place[1] == 0, "no name has no place");
        return;
    }
    size_t end = (size_t)place[0] + place[1];
    must(place[0] > 0 && end < n && in[place[0] - 1] == ',' && in[end] == 10, "a name is the last field of a line");
}

// ---- rehearsals

// A listing, Check's answer, and how many paths its report has (0 if it is refused).
struct lent {
    const uint8_t *in;
    size_t n;
    uint32_t checked[5], paths;
};

// What a call of a rehearsal was handed, and what it was handed and wrote.
struct rehearsed {
    uint32_t state[2], rehearsal[2], due[4], answer[5];
};

static void hand(struct rehearsed *call, uint32_t path, uint32_t position) {
    call->state[0] = call->rehearsal[0] = path;
    call->state[1] = call->rehearsal[1] = position;
    memset(call->due, 0xa5, sizeof call->due);
    memset(call->answer, 0xff, sizeof call->answer);
}

// The item due is the one of Name, with a type, on a line that ends with its name; with nothing due four zeros.
static void judge_due(const struct lent *l, const struct rehearsed *call) {
    const uint32_t *due = call->due;
    uint32_t place[2];
    must(bithoven_name(l->in, l->n, call->rehearsal[0], call->rehearsal[1], place) == 0, "Name answers as Check");
    must(due[0] == (place[1] != 0) && due[1] == place[0] && due[2] == place[1], "the item due is the one of Name");
    must(due[0] ? due[3] <= 3 : due[3] == 0, "an item due has a type, and nothing due has none");
    size_t at = due[1], end = at + due[2];
    must(!due[0] || (at > 0 && end < l->n && l->in[at - 1] == ',' && l->in[end] == 10), "a name due is the last field of a line");
}

// What holds of each call on a path: Check's answer, then 31; a refusal leaves the words; otherwise an item is due or none is.
static uint32_t judge_call(const struct lent *l, uint32_t path, uint32_t r, const struct rehearsed *call) {
    static const uint32_t none[4];
    must(r == call->answer[0], "a rehearsal returns its answer");
    if (l->checked[0] != 0)
        must(memcmp(call->answer, l->checked, sizeof call->answer) == 0, "Check's answer comes first");
    else
        must((r == 31) == (path >= l->paths) && (r == 31 || r == 32 || r == 0), "31 exactly if the path does not exist");
    must(l->checked[0] != 0 || memcmp(call->answer + 1, none, sizeof none) == 0, "a rehearsal's own numbers have no place");
    if (r == 0) {
        judge_due(l, call);
        return r;
    }
    must(memcmp(call->rehearsal, call->state, sizeof call->state) == 0, "a refusal leaves the rehearsal");
    must(untouched((const uint8_t *)call->due, 0, sizeof call->due), "a refusal leaves what is due");
    return r;
}

static uint32_t open_at(const struct lent *l, uint32_t path, struct rehearsed *call) {
    hand(call, 0xa5a5a5a5, 0xa5a5a5a5);
    uint32_t r = bithoven_rehearse_open(l->in, l->n, path, call->rehearsal, call->due, call->answer);
    must(r != 0 || (call->rehearsal[0] == path && call->rehearsal[1] == 0), "an open begins at the top of its path");
    must(r != 32, "no open is 32");
    return judge_call(l, path, r, call);
}

// The name lies in an allocation of just its length.
static uint32_t lay_at(const struct lent *l, const uint32_t at[2], const uint8_t *name, size_t length, uint32_t type,
                       struct rehearsed *call) {
    uint8_t *lent = malloc(length ? length : 1);
    if (length)
        memcpy(lent, name, length);
    hand(call, at[0], at[1]);
    uint32_t r = bithoven_rehearse_lay(l->in, l->n, lent, length, type, call->rehearsal, call->due, call->answer);
    must(length == 0 || memcmp(lent, name, length) == 0, "the name is untouched");
    must(r != 0 || (call->rehearsal[0] == at[0] && call->rehearsal[1] == at[1] + 1), "a right item moves by one");
    must(r != 0 || (length > 0 && type <= 3), "a right item has a name and a type");
    free(lent);
    return judge_call(l, at[0], r, call);
}

static uint32_t back_at(const struct lent *l, const uint32_t at[2], struct rehearsed *call) {
    hand(call, at[0], at[1]);
    uint32_t r = bithoven_rehearse_take_back(l->in, l->n, call->rehearsal, call->due, call->answer);
    uint32_t lower = at[1] ? at[1] - 1 : 0;
    must(r != 0 || (call->rehearsal[0] == at[0] && call->rehearsal[1] == lower), "taking back lowers by one, not below 0");
    must(r != 32, "no taking back is 32");
    return judge_call(l, at[0], r, call);
}

// Lays what is due, takes it back and lays it again, after wrong items, up to so many items.
static void lay_in_order(const struct lent *l, struct rehearsed *at, uint32_t word, int most) {
    struct rehearsed next, back, wrong;
    for (; at->due[0] && most > 0; most--) {
        const uint8_t *name = l->in + at->due[1];
        uint32_t n = at->due[2], type = at->due[3];
        must(lay_at(l, at->rehearsal, name, n, type ^ (1 + word % 3), &wrong) == 32, "32 with another type");
        must(lay_at(l, at->rehearsal, name, n, type + (4u << word % 30), &wrong) == 32, "32 with a number that is no type");
        must(lay_at(l, at->rehearsal, name, n - 1, type, &wrong) == 32, "32 with a shorter name");
        must(lay_at(l, at->rehearsal, name, n + 1, type, &wrong) == 32, "32 with a longer name");
        must(lay_at(l, at->rehearsal, name, n, type, &next) == 0, "the item due is right");
        must(back_at(l, next.rehearsal, &back) == 0, "a laid item can be taken back");
        must(memcmp(back.rehearsal, at->rehearsal, sizeof back.rehearsal) == 0, "taking back undoes a lay");
        must(memcmp(back.due, at->due, sizeof back.due) == 0, "the item taken back is due again");
        *at = next;
    }
    if (!at->due[0])
        must(lay_at(l, at->rehearsal, l->in, 1, 3, &wrong) == 32, "32 after the end");
}

// Four bytes of the input as a number.
static uint32_t word_of(const uint8_t *in, size_t n, size_t at) {
    uint32_t word = 0;
    for (size_t i = 0; i < 4 && n > 0; i++)
        word = word << 8 | in[(at + i) % n];
    return word;
}

// A rehearsal of one path from its beginning, and the three calls on a state, a name and a type of the input's bytes.
static void judge_rehearsals(const struct lent *l) {
    struct rehearsed call;
    size_t at = l->n / 2, length = l->n - at;
    uint32_t word = word_of(l->in, l->n, at), state[2] = {word % (l->paths + 2), word / 3 % 5};
    if (word % 7 == 0)
        state[word % 2] = word_of(l->in, l->n, at + 4);
    if (open_at(l, state[0], &call) == 0)
        lay_in_order(l, &call, word, 3);
    if (length > word % 34)
        length = word % 34;
    lay_at(l, state, l->in + at, length, word / 64 % 2 ? word / 128 % 5 : word, &call);
    back_at(l, state, &call);
}

static void examine(const uint8_t *in, size_t n) {
    static uint8_t out[ROOM], again[ROOM];
    uint32_t checked[5], reported[5], short_of[5];
    memset(checked, 0xff, sizeof checked);
    uint32_t r = bithoven_check(in, n, checked);
    must(r == checked[0] && is_number(r), "Check gives a number of document 01");
    must(r != 0 || (checked[1] | checked[2] | checked[3] | checked[4]) == 0, "acceptance has no location");
    must((n > 32768) == (r == 1), "1 exactly if the listing is too long");
    size_t all = room_of(n), size = report(in, n, out, all, reported);
    must(memcmp(checked, reported, sizeof checked) == 0, "Report answers as Check");
    must(size > 0 && size <= all && untouched(out, size, all), "bytes past the text are untouched");
    judge_text(out, size, reported);
    if (r == 0)
        judge_waits(in, n, out, size);
    must(report(in, n, again, size, reported) == size && memcmp(out, again, all) == 0, "an exact output is enough");
    must(report(in, n, again, size - 1, short_of) == 0 && short_of[0] == 6 && untouched(again, 0, all), "6, and nothing written");
    judge_name(in, n, r, 0, 0);
    judge_name(in, n, r, n % 3, n % 7);
    struct lent lent = {in, n, {r, checked[1], checked[2], checked[3], checked[4]}, 0};
    if (r == 0)
        lent.paths = (uint32_t)strtoul((const char *)out + 2, NULL, 10);
    judge_rehearsals(&lent);
}

int LLVMFuzzerTestOneInput(const uint8_t *data, size_t size) {
    // an exact copy, so that a read past the end is one past the end of an allocation
    uint8_t *listing = malloc(size ? size : 1);
    if (size)
        memcpy(listing, data, size);
    examine(listing, size);
    must(size == 0 || memcmp(listing, data, size) == 0, "the listing is untouched");
    free(listing);
    return 0;
}

// ---- mutations of lines

static size_t line_at(const uint8_t *data, size_t size, size_t at) {
    while (at > 0 && data[at - 1] != 10)
        at--;
    (void)size;
    return at;
}

static size_t drop_line(uint8_t *data, size_t size, size_t at) {
    size_t a = line_at(data, size, at), e = line_end(data, size, at);
    memmove(data + a, data + e, size - e);
    return size - (e - a);
}

static size_t double_line(uint8_t *data, size_t size, size_t max, size_t at) {
    size_t a = line_at(data, size, at), e = line_end(data, size, at), n = e - a;
    if (size + n > max)
        return size;
    memmove(data + e, data + a, size - a);
    return size + n;
}

// Another digit in place of one: small numbers count, say types and positions.
static size_t other_digit(uint8_t *data, size_t size, size_t at, unsigned seed) {
    for (size_t i = 0; i < size; i++) {
        size_t k = (at + i) % size;
        if (data[k] >= '0' && data[k] <= '9') {
            data[k] = (uint8_t)('0' + seed % 10);
            break;
        }
    }
    return size;
}

static size_t other_letter(uint8_t *data, size_t size, size_t at, unsigned seed) {
    static const char letters[] = "TDPBILVEvnbslcmuhzgSM";
    data[line_at(data, size, at)] = (uint8_t)letters[seed % (sizeof letters - 1)];
    return size;
}

size_t LLVMFuzzerCustomMutator(uint8_t *data, size_t size, size_t max, unsigned seed) {
    if (size == 0 || seed % 4 == 0)
        return LLVMFuzzerMutate(data, size, max);
    size_t at = (seed >> 8) % size;
    switch ((seed >> 4) % 4) {
    case 0: return drop_line(data, size, at);
    case 1: return double_line(data, size, max, at);
    case 2: return other_letter(data, size, at, seed >> 16);
    default: return other_digit(data, size, at, seed >> 16);
    }
}
