// Check, Report, Name and a rehearsal of every path, through the C exports, on each file named. Run under valgrind by
// harness/fuzz/memcheck.
#include "../../crates/bithoven_examiner/include/bithoven_examiner.h"
#include <stdio.h>
#include <stdlib.h>

#define MOST 70000

// The bytes of a file in an allocation of just their length, so that a read past the end is seen.
static uint8_t *read_all(const char *name, size_t *size) {
    static uint8_t buffer[MOST];
    FILE *file = fopen(name, "rb");
    if (!file) {
        perror(name);
        exit(2);
    }
    *size = fread(buffer, 1, MOST, file);
    fclose(file);
    uint8_t *bytes = malloc(*size ? *size : 1);
    for (size_t i = 0; i < *size; i++)
        bytes[i] = buffer[i];
    return bytes;
}

// So many words in an allocation of just their length, so that a write past the end is seen.
static uint32_t *words(size_t count) { return malloc(count * sizeof(uint32_t)); }

static int opens(const uint8_t *listing, size_t size, uint32_t path, uint32_t *rehearsal, uint32_t *due, uint32_t *answer) {
    uint32_t r = bithoven_rehearse_open(listing, size, path, rehearsal, due, answer);
    if (r != answer[0] || (r == 0 && (rehearsal[0] != path || rehearsal[1] != 0)))
        puts("an open that does not begin at the top of its path");
    return r == 0;
}

// Lays the item due. The name lies in an allocation of just its length.
static void lay_due(const uint8_t *listing, size_t size, uint32_t *rehearsal, uint32_t *due, uint32_t *answer) {
    uint32_t position = rehearsal[1], length = due[2], type = due[3];
    uint8_t *name = malloc(length);
    for (uint32_t i = 0; i < length; i++)
        name[i] = listing[due[1] + i];
    if (listing[due[1] + length] != 10)
        puts("a name due that does not end its line");
    if (bithoven_rehearse_lay(listing, size, name, length, (type + 1) % 4, rehearsal, due, answer) != 32 ||
        rehearsal[1] != position || due[0] != 1 || due[2] != length || due[3] != type)
        puts("an item of another type that is no 32 or changes something");
    if (bithoven_rehearse_lay(listing, size, name, length, type, rehearsal, due, answer) != 0 || rehearsal[1] != position + 1)
        puts("an item due that is not right");
    if (bithoven_rehearse_take_back(listing, size, rehearsal, due, answer) != 0 || rehearsal[1] != position || due[3] != type)
        puts("an item taken back that is not due again");
    if (bithoven_rehearse_lay(listing, size, name, length, type, rehearsal, due, answer) != 0 || rehearsal[1] != position + 1)
        puts("an item that is not right once it was taken back");
    free(name);
}

// A rehearsal of a path to its end; and the calls on a path and a position that are not there. Returns whether it ended.
static int rehearse(const uint8_t *listing, size_t size, uint32_t path, uint32_t checked) {
    uint32_t *rehearsal = words(2), *due = words(4), *answer = words(5);
    uint8_t *name = malloc(1);
    int opened = opens(listing, size, path, rehearsal, due, answer);
    if (opened) {
        uint32_t first = due[1], place[2];
        if (bithoven_rehearse_take_back(listing, size, rehearsal, due, answer) != 0 || rehearsal[1] != 0 || due[1] != first)
            puts("taking back at the beginning changes something");
        for (int i = 0; i < 32 && due[0] != 0; i++)
            lay_due(listing, size, rehearsal, due, answer);
        if (due[0] != 0 || bithoven_name(listing, size, path, rehearsal[1], place) != 0 || place[1] != 0)
            puts("an end that is not the path's");
        *name = 'a';
        if (bithoven_rehearse_lay(listing, size, name, 1, 3, rehearsal, due, answer) != 32)
            puts("an item after the end");
    }
    rehearsal[0] = rehearsal[1] = UINT32_MAX;
    uint32_t none = checked != 0 ? checked : 31;
    if (bithoven_rehearse_open(listing, size, UINT32_MAX, rehearsal, due, answer) != none ||
        bithoven_rehearse_lay(listing, size, name, 0, UINT32_MAX, rehearsal, due, answer) != none ||
        bithoven_rehearse_take_back(listing, size, rehearsal, due, answer) != none || answer[0] != none)
        puts("a path that does not exist");
    free(rehearsal), free(due), free(answer), free(name);
    return opened;
}

int main(int count, char **names) {
    unsigned long accepted = 0, refused = 0, rehearsed = 0;
    for (int i = 1; i < count; i++) {
        size_t size;
        uint32_t answer[5];
        uint8_t *listing = read_all(names[i], &size), *text = malloc(MOST);
        uint32_t checked = bithoven_check(listing, size, answer);
        if (checked == 0)
            accepted++;
        else
            refused++;
        size_t n = bithoven_report(listing, size, text, MOST, answer);
        // each byte of the text is looked at: one that was not written would be told
        for (size_t k = 0; k < n; k++)
            if (text[k] == 0)
                puts("a zero byte in a text");
        if (bithoven_report(listing, size, text, n - 1, answer) != 0)
            puts("a text in an output that is too short");
        uint32_t place[2];
        if (bithoven_name(listing, size, 0, 0, place) == 0 && place[1] != 0 && listing[place[0] + place[1]] != 10)
            puts("a name that does not end its line");
        for (uint32_t path = 0; path < 32 && rehearse(listing, size, path, checked); path++)
            rehearsed++;
        free(listing);
        free(text);
    }
    printf("%lu accepted, %lu refused, %lu paths rehearsed\n", accepted, refused, rehearsed);
    return 0;
}
