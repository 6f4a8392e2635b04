/* A collector in C over libmooringeye: reads the lines of `collect`, and prints what it prints.
 *
 *   collect [STATE] < LINES > ROWS
 *
 * The state is restored from the file STATE, if there is one, and stored there at the end, so the next call continues from it. Ends with status 0,
 * or with 1 if something could not be read or written, or a state was not accepted; then the file is unchanged. */
#define _POSIX_C_SOURCE 200809L
#include "mooringeye.h"

#include <errno.h>
#include <fcntl.h>
#include <inttypes.h>
#include <stdio.h>
#include <stdlib.h>
#include <string.h>
#include <unistd.h>

/* ---- lines and rows */

/* The next line with its newline, which the last one may not have. Returns its length, 0 at the end of the input. */
static size_t next_line(char **line, size_t *size)
{
    ssize_t n = getline(line, size, stdin);
    if (n <= 0) {
        return 0;
    }
    if ((*line)[n - 1] != '\n') {
        (*line)[n++] = '\n'; /* over the terminating zero */
    }
    return (size_t)n;
}

/* Takes a line, and prints its row. */
static void print_row(mooringeye_collector *c, uint8_t level, const char *line, size_t length)
{
    uint8_t text[MOORINGEYE_LONGEST_ROW];
    mooringeye_row row;
    uint64_t moment;
    uint64_t done[MOORINGEYE_LINES_DONE] = {0};
    mooringeye_lines(c, level, (const uint8_t *)line, length, 1, text, sizeof text, &moment, &row, 1, done);
    fwrite(text, 1, (size_t)done[1], stdout);
}

static void print_totals(const mooringeye_collector *c)
{
    uint64_t t[MOORINGEYE_TOTALS] = {0};
    mooringeye_totals(c, t);
    printf("RECEIVED %" PRIu64 " KEPT %" PRIu64 " COPIES %" PRIu64, t[0], t[1], t[2]);
    printf(" LOOSE %" PRIu64 " DAMAGED %" PRIu64 " LATE %" PRIu64 "\n", t[3], t[4], t[5]);
}

/* Takes all lines of standard input. False if the first is not right, and then nothing was taken. */
static bool collect(mooringeye_collector *c)
{
    char *line = NULL;
    size_t size = 0;
    uint64_t used;
    size_t length = next_line(&line, &size);
    uint8_t level = mooringeye_first_line((const uint8_t *)line, length, &used);
    if (level > 2 && !ferror(stdin)) {
        puts("BAD");
    }
    while (level <= 2 && (length = next_line(&line, &size)) > 0) {
        print_row(c, level, line, length);
    }
    free(line);
    return level <= 2;
}

/* ---- the state file */

/* Restores a state into a fresh collector, which is unchanged if there is no file. One byte more than an image has is read, so a longer file is not
 * accepted. */
static bool restore(mooringeye_collector *c, const char *path)
{
    uint8_t image[MOORINGEYE_IMAGE + 1];
    FILE *file = fopen(path, "rb");
    if (file == NULL) {
        return errno == ENOENT;
    }
    size_t size = fread(image, 1, sizeof image, file);
    bool failed = ferror(file) != 0;
    fclose(file);
    return !failed && mooringeye_restore(c, image, size) == MOORINGEYE_DONE;
}

/* Writes all bytes, and syncs them to disk. */
static bool write_all(int file, const uint8_t *bytes, size_t size)
{
    while (size > 0) {
        ssize_t n = write(file, bytes, size);
        if (n < 0 && errno != EINTR) {
            return false;
        }
        if (n > 0) {
            bytes += n;
            size -= (size_t)n;
        }
    }
    return fsync(file) == 0;
}

/* Writes to another file, which is then renamed: at every moment the complete old state or the complete new one is there. */
static bool store(const mooringeye_collector *c, const char *path)
{
    uint8_t image[MOORINGEYE_IMAGE];
    size_t size = strlen(path) + sizeof ".new";
    char *fresh = malloc(size);
    if (fresh == NULL || mooringeye_checkpoint(c, image, sizeof image) != MOORINGEYE_DONE) {
        free(fresh);
        return false;
    }
    snprintf(fresh, size, "%s.new", path);
    int file = open(fresh, O_WRONLY | O_CREAT | O_TRUNC, 0644);
    bool stored = file >= 0 && write_all(file, image, sizeof image);
    stored = (file < 0 || close(file) == 0) && stored && rename(fresh, path) == 0;
    if (file >= 0 && !stored) {
        unlink(fresh);
    }
    free(fresh);
    return stored;
}

static int failed(const char *what)
{
    fprintf(stderr, "collect: %s\n", what);
    return EXIT_FAILURE;
}

int main(int argc, char **argv)
{
    mooringeye_collector c;
    const char *state = argc == 2 ? argv[1] : NULL;
    if (argc > 2) {
        fprintf(stderr, "usage: collect [STATE] < LINES > ROWS\n");
        return 2;
    }
    mooringeye_fresh(&c);
    if (state != NULL && !restore(&c, state)) {
        return failed("the state cannot be read, or is not accepted");
    }
    bool taken = collect(&c);
    if (ferror(stdin)) {
        return failed("cannot read standard input");
    }
    if (taken) {
        print_totals(&c);
    }
    if (fflush(stdout) != 0 || ferror(stdout)) {
        return failed("cannot write standard output");
    }
    if (taken && state != NULL && !store(&c, state)) {
        return failed("cannot write the state");
    }
    return EXIT_SUCCESS;
}
