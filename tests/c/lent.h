/* Calls any export with arbitrary contents: the memory is between pages that must not be touched, with canaries around
 * it; what is only read is write-protected. Afterwards every byte is compared. If the call is refused, all lent memory
 * must be unchanged. The choices come from `choose`, which the including program defines: at random, or from a
 * fuzzer. */
#ifndef LENT_H
#define LENT_H

#include "mooringeye.h"

#include <inttypes.h>
#include <stdio.h>
#include <stdlib.h>
#include <string.h>
#include <sys/mman.h>

enum {
    MOST_PARAMETERS = 19,
    PAGE = 4096,
    ROOM = 5 * PAGE /* of one parameter */
};

enum kind {
    NUMBER, /* by value */
    LENGTH, /* of the slice before it */
    SLICE,
    ARRAY
};

struct parameter {
    const char *name;
    enum kind kind;
    size_t width; /* of an element */
    size_t count; /* of an array */
    bool is_read; /* not changed */
};

typedef uint64_t (*call)(uint64_t, uint64_t, uint64_t, uint64_t, uint64_t, uint64_t, uint64_t, uint64_t, uint64_t,
                         uint64_t, uint64_t, uint64_t, uint64_t, uint64_t, uint64_t, uint64_t, uint64_t, uint64_t,
                         uint64_t);

struct export {
    const char *name;
    call function;
    size_t width;     /* of the answer */
    bool has_numbers; /* the answer contains 0 or a refusal */
    unsigned shift;   /* from this bit on */
    size_t count;
    struct parameter parameters[MOST_PARAMETERS];
    int refusals[9];
};

#include "exports.h"

enum {
    EXPORTS = sizeof exports / sizeof *exports
};

/* A number below `limit`; and whether something happens that happens once in n times. */
static uint32_t choose(uint32_t limit);
static inline bool once_in(uint32_t times) {
    return choose(times) == 0;
}

/* Reports what is wrong with this answer. */
static void wrong(const struct export *e, uint8_t number, const char *what);

/* The memory of each parameter, and what was there before the call. */
static uint8_t *rooms[MOST_PARAMETERS];
static uint8_t before[MOST_PARAMETERS][ROOM];
static uint64_t words[MOST_PARAMETERS];
static size_t starts[MOST_PARAMETERS];
static size_t sizes[MOST_PARAMETERS];

static void start_states(void);

static void open_rooms(void) {
    for (size_t i = 0; i < MOST_PARAMETERS; i++) {
        uint8_t *base = mmap(NULL, ROOM + 2 * PAGE, PROT_NONE, MAP_PRIVATE | MAP_ANONYMOUS, -1, 0);
        if (base == MAP_FAILED || mprotect(base + PAGE, ROOM, PROT_READ | PROT_WRITE) != 0) {
            perror("lent");
            exit(2);
        }
        rooms[i] = base + PAGE;
    }
    start_states();
}

#include "material.h"

/* Lends bytes or numbers at one end of the memory, next to the page that must not be touched, with canaries in the
 * rest. An empty slice is sometimes NULL. */
static void lend(const struct export *e, size_t i, size_t size) {
    const struct parameter *p = &e->parameters[i];
    bool at_end = choose(2) == 0;
    size_t start = at_end ? (ROOM - size) / p->width * p->width : 0;
    mprotect(rooms[i], ROOM, PROT_READ | PROT_WRITE);
    memset(rooms[i], 0xC5 + (int)i, ROOM);
    fill(e, i, rooms[i] + start, size);
    memcpy(before[i], rooms[i], ROOM);
    if (p->is_read) mprotect(rooms[i], ROOM, PROT_READ);
    starts[i] = start;
    sizes[i] = size;
    words[i] = size == 0 && choose(2) == 0 ? 0 : (uint64_t)(uintptr_t)(rooms[i] + start);
}

/* Every parameter of a call. */
static void lend_all(const struct export *e) {
    start_material(e);
    for (size_t i = 0; i < e->count; i++) {
        const struct parameter *p = &e->parameters[i];
        size_t elements;
        switch (p->kind) {
        case NUMBER: words[i] = number_of(e, i); break;
        case LENGTH: words[i] = sizes[i - 1] / e->parameters[i - 1].width; break;
        case ARRAY: lend(e, i, p->width * p->count); break;
        case SLICE:
            elements = length_of(e, i);
            lend(e, i, elements * p->width < ROOM ? elements * p->width : ROOM / p->width * p->width);
            break;
        }
    }
}

/* The calls that take one reception. */
static bool takes(const struct export *e) {
    return strcmp(e->name, "mooringeye_collector_take") == 0 ||
           strcmp(e->name, "mooringeye_collector_take_tested") == 0;
}

/* What may change with a refusal: the position that goes with it, the position of a row that the check refuses, and the
 * counters of a collector that takes a damaged or late reception. */
static bool may_change(const struct export *e, const char *parameter, uint8_t number) {
    bool is_check = number == 1 || number == 2 || number == 3 || number == 13;
    if (strcmp(parameter, "position") == 0) {
        return number == 12 || (is_check && strcmp(e->name, "mooringeye_archive_put_rows") == 0);
    }
    return takes(e) && strcmp(parameter, "numbers") == 0 && (is_check || number == 7);
}

/* The first parameter with a changed byte that should be unchanged; NULL for none. */
static const char *changed(const struct export *e, uint8_t number) {
    for (size_t i = 0; i < e->count; i++) {
        const struct parameter *p = &e->parameters[i];
        if (p->kind != SLICE && p->kind != ARRAY) continue;
        size_t start = starts[i], end = starts[i] + sizes[i];
        bool around =
            memcmp(rooms[i], before[i], start) == 0 && memcmp(rooms[i] + end, before[i] + end, ROOM - end) == 0;
        bool inside = memcmp(rooms[i] + start, before[i] + start, sizes[i]) == 0;
        if (!around || (p->is_read && !inside)) return p->name;
        if (number != 0 && !inside && !may_change(e, p->name, number)) return p->name;
    }
    return NULL;
}

/* A call that was refused and counted: one more received, one more damaged or late, and no other change. */
static bool counted(const struct export *e, uint8_t number) {
    if (!takes(e) || number == 0 || number == 8 || number == 11) return true;
    const uint64_t *then = (const uint64_t *)(const void *)(before[4] + starts[4]);
    const uint64_t *now = (const uint64_t *)(const void *)(rooms[4] + starts[4]);
    for (size_t i = 0; i < MOORINGEYE_COLLECTOR_NUMBERS; i++) {
        bool rises = i == 2 || i == (number == 7 ? 7 : 6);
        if (now[i] != then[i] + (rises ? 1 : 0)) return false;
    }
    return true;
}

/* After success, the bytes of `out` after the returned length are unchanged. */
static bool is_rest_left(const struct export *e) {
    for (size_t i = 0; i + 2 < e->count; i++) {
        if (strcmp(e->parameters[i].name, "out") != 0 || strcmp(e->parameters[i + 2].name, "out_length") != 0) continue;
        size_t length;
        memcpy(&length, rooms[i + 2] + starts[i + 2], sizeof length);
        if (length > sizes[i]) return false;
        size_t from = starts[i] + length;
        return memcmp(rooms[i] + from, before[i] + from, sizes[i] - length) == 0;
    }
    return true;
}

static bool is_named(const struct export *e, uint8_t number) {
    for (size_t i = 0; i < sizeof e->refusals / sizeof *e->refusals; i++) {
        if (e->refusals[i] == number) return true;
    }
    return false;
}

/* The call itself; a program may wrap it. */
static uint64_t invoke(call function, const uint64_t *w);

#define INVOKE(function, w)                                                                                      \
    (function)((w)[0], (w)[1], (w)[2], (w)[3], (w)[4], (w)[5], (w)[6], (w)[7], (w)[8], (w)[9], (w)[10], (w)[11], \
               (w)[12], (w)[13], (w)[14], (w)[15], (w)[16], (w)[17], (w)[18])

/* Makes one call and compares; returns the number of its answer. */
static uint8_t make_call(const struct export *e) {
    lend_all(e);
    uint64_t answer = invoke(e->function, words);
    uint8_t number = e->has_numbers ? (uint8_t)(answer >> e->shift) : 0;
    const char *parameter = changed(e, number);
    if (parameter != NULL) wrong(e, number, parameter);
    if (!counted(e, number)) wrong(e, number, "counters");
    if (number == 0 && e->has_numbers && !is_rest_left(e)) wrong(e, number, "out, behind the result");
    if (!is_named(e, number)) wrong(e, number, "a refusal that the header does not name");
    keep_material(e, number);
    return number;
}

#endif
