/* Several rows put into one block: the result is that of mooringeye_archive_put_row one after the other, or a refusal
 * and an unchanged block. Ends with status 0 if everything is right, else it prints the line that was wrong. */
#include "mooringeye.h"
#include "should.h"

#include <string.h>

enum {
    MOST = 16 /* one row more than a block holds */
};

static const uint8_t press[8] = {0xD5, 0x09, 1, 2, 3, 4, 0, 0xE8};
static uint64_t times[MOST];
static mooringeye_row rows[MOST];
static uint8_t block[MOORINGEYE_BLOCK];
static uint8_t before[MOORINGEYE_BLOCK];
static size_t position;

/* Puts rows n to n + count - 1, and returns the number; a refusal leaves the block unchanged. */
static uint8_t put(size_t n, size_t count) {
    memcpy(before, block, sizeof block);
    position = 7;
    uint8_t number =
        mooringeye_archive_put_rows(block, sizeof block, n, times, count, rows, count * sizeof *rows, &position);
    SHOULD(number == MOORINGEYE_DONE || memcmp(block, before, sizeof block) == 0);
    return number;
}

/* A block of the rows from 15 on, up to row n. */
static void fill(size_t n) {
    memset(block, 0, sizeof block);
    for (size_t i = 15; i < n; i++) {
        SHOULD(mooringeye_archive_put_row(block, sizeof block, i, press, sizeof press, 1000 + i, i % 2 == 0,
                                          &position) == MOORINGEYE_DONE);
    }
}

int main(void) {
    static uint8_t same[MOORINGEYE_BLOCK];
    for (size_t i = 0; i < MOST; i++) {
        times[i] = UINT64_MAX - i;
        rows[i].loose = (uint8_t)(i * 5 % 3); /* 0, and two bytes that are LOOSE */
        rows[i].frame.length = sizeof press;
        memset(rows[i].frame.bytes, 0xEE, sizeof rows[i].frame.bytes); /* what comes after the bytes does not count */
        memcpy(rows[i].frame.bytes, press, sizeof press);
    }
    for (size_t n = 15; n < 30; n++) {
        for (size_t count = 0; count <= 30 - n; count++) {
            fill(n);
            memcpy(same, block, sizeof block);
            for (size_t i = 0; i < count; i++) {
                uint8_t number = mooringeye_archive_put_row(same, sizeof same, n + i, press, sizeof press, times[i],
                                                            rows[i].loose != 0, &position);
                SHOULD(number == MOORINGEYE_DONE);
            }
            SHOULD(put(n, count) == MOORINGEYE_DONE && position == 7);
            SHOULD(memcmp(block, same, sizeof block) == 0);
        }
        fill(n);
        SHOULD(put(n, 31 - n) == 6 && position == 7);
        SHOULD(put(n + 1, 1) == 12 && position == (n + 1) / 15);
        rows[29 - n].frame.length = 22;
        SHOULD(put(n, 31 - n) == 1 && position == 29 - n);
        rows[29 - n].frame.length = sizeof press;
    }
    SHOULD(put((size_t)15 << 32, 1) == 16 && position == 7);
    SHOULD(mooringeye_archive_put_rows(block, sizeof block - 1, 15, times, 1, rows, sizeof *rows, &position) == 16);
    SHOULD(mooringeye_archive_put_rows(block, sizeof block, 15, times, 2, rows, sizeof *rows, &position) == 16);
    SHOULD(memcmp(block, before, sizeof block) == 0);
    return EXIT_SUCCESS;
}
