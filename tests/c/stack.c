/* How much stack each export uses: the stack below a call is filled with a pattern, and what has changed afterwards was
 * used. Ends with status 1 if it is more than the header says.
 *
 *   stack [CALLS] */
#include "lent.h"
#include "random.h"

enum {
    DEPTH = 256 * 1024,
    PAINT = 0xA5,
    REPORTS_KIB = 96, /* as the header has them */
    OTHERS_KIB = 32
};

static size_t used;

static void wrong(const struct export *e, uint8_t number, const char *what) {
    (void)e, (void)number, (void)what; /* every.c reports it */
}

__attribute__((noinline)) static void paint(void) {
    uint8_t area[DEPTH];
    memset(area, PAINT, sizeof area);
    __asm__ volatile("" ::"r"(area) : "memory");
}

__attribute__((noinline)) static size_t painted(void) {
    uint8_t area[DEPTH];
    size_t n = 0;
    __asm__ volatile("" : "+m"(area));
    while (n < sizeof area && area[n] == PAINT) n++;
    return n;
}

__attribute__((noinline)) static uint64_t invoke(call function, const uint64_t *w) {
    paint();
    uint64_t answer = INVOKE(function, w);
    used = DEPTH - painted();
    return answer;
}

int main(int argc, char **argv) {
    unsigned long calls = argc > 1 ? strtoul(argv[1], NULL, 10) : 20000;
    static size_t most[EXPORTS];
    int status = EXIT_SUCCESS;
    open_rooms();
    for (unsigned long i = 0; i < calls; i++) {
        size_t k = choose(EXPORTS);
        make_call(&exports[k]);
        if (used > most[k]) most[k] = used;
    }
    for (size_t k = 0; k < EXPORTS; k++) {
        size_t limit = (size_t)(starts_with(exports[k].name, "mooringeye_report_") ? REPORTS_KIB : OTHERS_KIB) * 1024;
        printf("stack: %6zu %s\n", most[k], exports[k].name);
        if (most[k] > limit) status = EXIT_FAILURE;
    }
    return status;
}
