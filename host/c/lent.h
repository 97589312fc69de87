/* What is lent to a call: bytes with a guard around them, and what must stand in them afterwards.
 *
 * Each slice that is lent lies in a mapping of its own, whose other bytes are guard bytes, between two that cannot be touched.
 * A run goes over all calls in three ways: with guard bytes on both sides of each slice, with each slice ending where the
 * mapping ends, and with each beginning where it begins. So a byte that is written outside a slice is seen, and one that is
 * read next to it ends the program. */
#ifndef LENT_H
#define LENT_H

#include <inttypes.h>
#include <signal.h>
#include <stdint.h>
#include <stdio.h>
#include <stdlib.h>
#include <string.h>
#include <sys/mman.h>

enum { BETWEEN_GUARDS, AT_THE_END, AT_THE_BEGINNING, WAYS };
static const char *const WAY[WAYS] = {"between guards", "at the end", "at the beginning"};

/* A multiple of any page; the longest slice. */
#define MAPPED 131072
#define MOST 70000
#define SLICES 12
#define GUARD 0xE7
#define FILL 0xA5

static struct slice {
    uint8_t *mapping, *at;
    size_t len;
    uint8_t due[MOST];
} slices[SLICES];

static size_t lent;
static int way;
static const char *call;
static unsigned passed, failed;

/* A byte beyond a mapping was touched. */
static void touched(int number) {
    (void)number;
    printf("%s, %s: a byte outside what was lent was touched\n", call, WAY[way]);
    fflush(stdout);
    _Exit(1);
}

static void map_slices(void) {
    for (size_t i = 0; i < SLICES; i++) {
        uint8_t *all = mmap(NULL, 3 * MAPPED, PROT_NONE, MAP_PRIVATE | MAP_ANONYMOUS, -1, 0);
        if (all == MAP_FAILED || mprotect(all + MAPPED, MAPPED, PROT_READ | PROT_WRITE) != 0) {
            perror("every_call: no memory to lend");
            exit(2);
        }
        slices[i].mapping = all + MAPPED;
    }
    signal(SIGSEGV, touched);
}

/* Lends a copy of the bytes, of which the first must become others. */
static void *lend_changed(const void *bytes, size_t len, const void *changed, size_t changed_len) {
    struct slice *slice = &slices[lent++];
    size_t middle = (MAPPED - len) / 32 * 16; /* where numbers may lie too */
    size_t place = way == BETWEEN_GUARDS ? middle : way == AT_THE_END ? MAPPED - len : 0;
    if (lent > SLICES || len > MOST || changed_len > len) {
        fprintf(stderr, "every_call: %s lends more than there is room for\n", call);
        exit(2);
    }
    memset(slice->mapping, GUARD, MAPPED);
    slice->at = slice->mapping + place;
    slice->len = len;
    memcpy(slice->at, bytes, len);
    memcpy(slice->due, bytes, len);
    memcpy(slice->due, changed, changed_len);
    return slice->at;
}

/* Lends a copy of the bytes, which must stay as they are. */
static void *lend(const void *bytes, size_t len) { return lend_changed(bytes, len, bytes, len); }

/* Lends room for an answer: filled, with the bytes that must come to stand at its start. */
static void *room(size_t len, const void *answer, size_t answer_len) {
    uint8_t filled[MOST];
    memset(filled, FILL, sizeof filled);
    return lend_changed(filled, len, answer, answer_len);
}

static void begin(const char *what) {
    call = what;
    lent = 0;
}

/* The first byte of a mapping that is not as it must be, or none. */
static unsigned amiss(const struct slice *slice, size_t number) {
    size_t from = (size_t)(slice->at - slice->mapping);
    for (size_t i = 0; i < MAPPED; i++) {
        int inside = i >= from && i < from + slice->len;
        unsigned due = inside ? slice->due[i - from] : GUARD;
        if (slice->mapping[i] != due) {
            printf("%s, %s: slice %zu, byte %td is %02x, due is %02x\n", call, WAY[way], number, (ptrdiff_t)(i - from),
                   (unsigned)slice->mapping[i], due);
            return 1;
        }
    }
    return 0;
}

/* One call: its answer, and every byte that was lent, in the order of lending. */
static void ended(uint64_t answer, uint64_t due) {
    unsigned wrong = answer != due;
    if (wrong) printf("%s, %s: answered %" PRIx64 ", due is %" PRIx64 "\n", call, WAY[way], answer, due);
    for (size_t i = 0; i < lent; i++) wrong += amiss(&slices[i], i);
    if (wrong) failed++;
    else passed++;
    lent = 0;
}

#endif
