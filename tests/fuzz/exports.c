/* A fuzzer over every export: its bytes decide which calls are made and with what. See ../c/lent.h for what is
 * compared. */
#include "lent.h"

static const uint8_t *data;
static size_t left;
static uint64_t rest; /* behind the last byte, choices follow from those before */

static uint32_t choose(uint32_t limit) {
    rest = rest * 6364136223846793005u + 1442695040888963407u;
    if (left > 0) {
        rest ^= (uint64_t)*data++ << 32;
        left--;
    }
    return limit == 0 ? 0 : (uint32_t)((rest >> 33) % limit);
}

static uint64_t invoke(call function, const uint64_t *w) {
    return INVOKE(function, w);
}

static void wrong(const struct export *e, uint8_t number, const char *what) {
    fprintf(stderr, "fuzz: %s beside %d: %s\n", e->name, number, what);
    abort();
}

int LLVMFuzzerTestOneInput(const uint8_t *bytes, size_t size);

int LLVMFuzzerTestOneInput(const uint8_t *bytes, size_t size) {
    if (rooms[0] == NULL) open_rooms();
    data = bytes;
    left = size;
    rest = size;
    do {
        make_call(&exports[choose(EXPORTS)]);
    } while (left > 0);
    return 0;
}
