/* Every export with arbitrary contents: see lent.h. Prints what was not as it should be, and which refusals were not
 * seen.
 *
 *   every [CALLS [SEED]] */
#include "lent.h"

#include "random.h"

static unsigned long seen[EXPORTS][256];
static unsigned long wrongs;

static uint64_t invoke(call function, const uint64_t *w) {
    return INVOKE(function, w);
}

/* Reported once for each export, number and parameter. */
static void wrong(const struct export *e, uint8_t number, const char *what) {
    static const char *told[1000];
    static const struct export *of[1000];
    static uint8_t beside[1000];
    for (unsigned long i = 0; i < wrongs; i++) {
        if (of[i] == e && beside[i] == number && strcmp(told[i], what) == 0) return;
    }
    if (wrongs < 1000) {
        told[wrongs] = what;
        of[wrongs] = e;
        beside[wrongs] = number;
        wrongs++;
    }
    printf("every: %s beside %d: %s\n", e->name, number, what);
}

/* Every refusal of the header was seen, and success. */
static unsigned long unseen(void) {
    unsigned long missing = 0;
    for (size_t k = 0; k < EXPORTS; k++) {
        for (size_t i = 0; i < sizeof exports[k].refusals / sizeof *exports[k].refusals; i++) {
            int number = exports[k].refusals[i];
            if (seen[k][number] == 0) printf("every: %s was never answered %d\n", exports[k].name, number);
            missing += seen[k][number] == 0;
            if (number == 0) break;
        }
    }
    return missing;
}

int main(int argc, char **argv) {
    unsigned long calls = argc > 1 ? strtoul(argv[1], NULL, 10) : 500000;
    if (argc > 2) random_state = strtoull(argv[2], NULL, 10);
    open_rooms();
    for (unsigned long i = 0; i < calls; i++) {
        size_t k = choose(EXPORTS);
        seen[k][make_call(&exports[k])]++;
    }
    unsigned long missing = unseen();
    printf("every: %lu calls of %d exports, %lu wrong, %lu refusals not seen\n", calls, (int)EXPORTS, wrongs, missing);
    return wrongs == 0 && missing == 0 ? EXIT_SUCCESS : EXIT_FAILURE;
}
