// How much stack each C export takes on each file named, or on each record of a file after --records: a thread runs the call on a stack that was painted before, and the bytes
// whose paint is gone are counted, the thread's own and the caller's frame among them. Run by harness/stack/run.
#include "../../crates/bithoven_examiner/include/bithoven_examiner.h"
#include <pthread.h>
#include <stdio.h>
#include <stdlib.h>
#include <string.h>
#include <sys/mman.h>

#define STACK (4u << 20)
#define PAINT 0xa5
#define MOST 70000

static uint8_t listing[MOST], output[MOST];
static size_t size;
static uint32_t answer[5], place[2], rehearsal[2], due[4];
static volatile uint32_t kept;

static void *check(void *none) { return kept = bithoven_check(listing, size, answer), none; }
static void *report(void *none) { return kept = bithoven_report(listing, size, output, sizeof output, answer), none; }
static void *name(void *none) { return kept = bithoven_name(listing, size, 0, 0, place), none; }
static void *rehearse_open(void *none) { return kept = bithoven_rehearse_open(listing, size, 0, rehearsal, due, answer), none; }
static void *lay(void *none) {
    return kept = bithoven_rehearse_lay(listing, size, listing + due[1], due[2], due[3], rehearsal, due, answer), none;
}
static void *take_back(void *none) { return kept = bithoven_rehearse_take_back(listing, size, rehearsal, due, answer), none; }

static const struct {
    const char *name;
    void *(*call)(void *);
} calls[] = {{"check", check},        {"report", report}, {"name", name},
             {"open", rehearse_open}, {"lay", lay},       {"take_back", take_back}};

static void fail(const char *what) {
    perror(what);
    exit(2);
}

// The bytes of stack that a call took.
static size_t taken(void *(*call)(void *)) {
    uint8_t *stack = mmap(0, STACK, PROT_READ | PROT_WRITE, MAP_PRIVATE | MAP_ANONYMOUS, -1, 0);
    pthread_attr_t attributes;
    pthread_t thread;
    if (stack == MAP_FAILED)
        fail("mmap");
    memset(stack, PAINT, STACK);
    pthread_attr_init(&attributes);
    if (pthread_attr_setstack(&attributes, stack, STACK) || pthread_create(&thread, &attributes, call, 0))
        fail("pthread_create");
    pthread_join(thread, 0);
    size_t left = 0;
    while (left < STACK && stack[left] == PAINT)
        left++;
    munmap(stack, STACK);
    return STACK - left;
}

// A line with what each call took on the listing that was read.
static void measure(const char *what, int index) {
    memset(due, 0, sizeof due);
    printf("%s", what);
    if (index >= 0)
        printf(" %d", index);
    printf(":");
    for (size_t k = 0; k < sizeof calls / sizeof *calls; k++)
        printf(" %s %zu", calls[k].name, taken(calls[k].call));
    printf(", answer %u\n", answer[0]);
}

static FILE *opened(const char *name) {
    FILE *file = fopen(name, "rb");
    if (!file)
        fail(name);
    return file;
}

// Each record of a file: its length in five digits, byte 10, its bytes, byte 10.
static void records(const char *name) {
    FILE *file = opened(name);
    for (int index = 0; fscanf(file, "%5zu", &size) == 1 && fgetc(file) == 10 && size <= MOST; index++) {
        if (fread(listing, 1, size, file) < size || fgetc(file) != 10)
            fail(name);
        measure(name, index);
    }
    fclose(file);
}

int main(int count, char **names) {
    if (count == 3 && strcmp(names[1], "--records") == 0) {
        records(names[2]);
        return 0;
    }
    for (int i = 1; i < count; i++) {
        FILE *file = opened(names[i]);
        size = fread(listing, 1, MOST, file);
        fclose(file);
        measure(names[i], -1);
    }
    return 0;
}
