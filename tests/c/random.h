/* Choices at random, the same in every run with the same seed: xorshift64*. */
#ifndef RANDOM_H
#define RANDOM_H

#include <stdint.h>

static uint64_t random_state = 88172645463325252u;

static uint32_t choose(uint32_t limit) {
    random_state ^= random_state >> 12;
    random_state ^= random_state << 25;
    random_state ^= random_state >> 27;
    return limit == 0 ? 0 : (uint32_t)((random_state * 0x2545F4914F6CDD1Du >> 33) % limit);
}

#endif
