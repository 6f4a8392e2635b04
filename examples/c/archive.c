/* An archive in C over libmooringeye: appends rows to an archive file, and prints all that it has.
 *
 *   archive FILE < ROWS
 *
 * A line of ROWS is a time, KEPT or LOOSE, and the bytes of a subtelegram in hexadecimal digits. For a refused row it prints the number.
 * FILE is created with room for 960 rows if it does not exist. */
#include "mooringeye.h"

#include <inttypes.h>
#include <stdio.h>
#include <stdlib.h>
#include <string.h>

enum {
    SIZE = 64 * MOORINGEYE_BLOCK,
    LINE = 200
};

/* The bytes of pairs of hexadecimal digits, at most `most`. Returns how many there are. */
static size_t parse_hex(const char *text, uint8_t *bytes, size_t most)
{
    size_t n = 0;
    unsigned byte;
    while (n < most && sscanf(text + 2 * n, "%2x", &byte) == 1) {
        bytes[n++] = (uint8_t)byte;
    }
    return n;
}

/* Appends the rows of standard input to an archive of `rows` rows. Returns how many it has then. */
static size_t append_all(uint8_t *buffer, size_t rows)
{
    char line[LINE];
    while (fgets(line, sizeof line, stdin) != NULL) {
        uint64_t time;
        char word[8];
        char digits[LINE];
        uint8_t bytes[64];
        size_t position;
        if (sscanf(line, "%" SCNu64 " %7s %199s", &time, word, digits) != 3) {
            puts("BAD");
            continue;
        }
        size_t length = parse_hex(digits, bytes, sizeof bytes);
        uint8_t number = mooringeye_archive_append_at(buffer, SIZE, rows, bytes, length, time, strcmp(word, "LOOSE") == 0, &position);
        if (number != MOORINGEYE_DONE) {
            printf("%" PRIu64 " REFUSED %d\n", time, number);
        } else {
            rows++;
        }
    }
    return rows;
}

static void print_all(const uint8_t *buffer, size_t rows)
{
    for (size_t i = 0; i < rows; i++) {
        mooringeye_row row;
        uint64_t time;
        mooringeye_archive_row(buffer, SIZE, i, &row, sizeof row, &time);
        printf("%" PRIu64 " %s ", time, row.loose ? "LOOSE" : "KEPT");
        for (size_t k = 0; k < row.frame.length; k++) {
            printf("%02X", row.frame.bytes[k]);
        }
        printf("\n");
    }
}

static bool save(const uint8_t *buffer, const char *path)
{
    FILE *file = fopen(path, "wb");
    if (file == NULL) {
        return false;
    }
    bool written = fwrite(buffer, 1, SIZE, file) == SIZE;
    return fclose(file) == 0 && written;
}

int main(int argc, char **argv)
{
    static uint8_t buffer[SIZE];
    size_t rows;
    size_t position = 0;
    if (argc != 2) {
        fprintf(stderr, "usage: archive FILE < ROWS\n");
        return 2;
    }
    FILE *file = fopen(argv[1], "rb");
    if (file != NULL) {
        size_t size = fread(buffer, 1, SIZE, file);
        fclose(file);
        if (size != SIZE) {
            fprintf(stderr, "%s: another size than this program makes\n", argv[1]);
            return 1;
        }
    }
    uint8_t number = mooringeye_archive_verify(buffer, SIZE, &rows, &position);
    if (number != MOORINGEYE_DONE) {
        fprintf(stderr, "%s: refused with %d, block %zu\n", argv[1], number, position);
        return 1;
    }
    rows = append_all(buffer, rows);
    print_all(buffer, rows);
    if (!save(buffer, argv[1])) {
        fprintf(stderr, "%s: could not be written\n", argv[1]);
        return 1;
    }
    return EXIT_SUCCESS;
}
