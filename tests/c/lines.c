/* The lines of a log as rows in a format, by calls of mooringeye_lines_as with pieces, most lines and buffers of random
 * sizes. What closes goes to CLOSED, opened, bytes and copies; the rows for an archive to ROWS.
 *
 *   lines FORMAT SEED CLOSED ROWS < LOG > OUT */
#include "mooringeye.h"
#include "random.h"
#include "should.h"

#include <inttypes.h>

enum {
    PIECE = 5000,
    LINES = 40,
    CLOSINGS = 3 * MOORINGEYE_CAPACITY
};

static FILE *closed_file, *rows_file;

static void print_bytes(FILE *file, const mooringeye_frame *frame) {
    for (size_t i = 0; i < frame->length; i++) fprintf(file, "%02X", frame->bytes[i]);
}

/* Lends buffers of random sizes, at least what one line needs. Returns how many bytes of the text were used. */
static size_t take(mooringeye_collector *c, uint8_t setting, uint8_t format, const uint8_t *text, size_t length) {
    static uint8_t out[LINES * MOORINGEYE_LONGEST_ROW_AS];
    static uint64_t moments[LINES];
    static mooringeye_row rows[LINES];
    static mooringeye_closing closed[CLOSINGS];
    uint64_t done[MOORINGEYE_LINES_AS_DONE];
    size_t size = MOORINGEYE_LONGEST_ROW_AS + choose(sizeof out - MOORINGEYE_LONGEST_ROW_AS);
    size_t places = 1 + choose(LINES - 1), closings = MOORINGEYE_CAPACITY + choose(CLOSINGS - MOORINGEYE_CAPACITY);
    SHOULD(mooringeye_lines_as(c, setting, format, text, length, 1 + choose(LINES), out, size, moments, rows, places,
                               closed, closings, done) == MOORINGEYE_DONE);
    fwrite(out, 1, (size_t)done[1], stdout);
    for (size_t i = 0; i < done[2]; i++) {
        fprintf(rows_file, "%" PRIu64 " %s ", moments[i], rows[i].loose != 0 ? "LOOSE" : "KEPT");
        print_bytes(rows_file, &rows[i].frame);
        fputc('\n', rows_file);
    }
    for (size_t i = 0; i < done[4]; i++) {
        fprintf(closed_file, "%" PRIu64 " ", mooringeye_closing_opened(&closed[i]));
        print_bytes(closed_file, &closed[i].frame);
        fprintf(closed_file, " %d\n", mooringeye_closing_copies(&closed[i]));
    }
    return (size_t)done[0];
}

int main(int argc, char **argv) {
    static uint8_t text[MOORINGEYE_LINE_LIMIT + PIECE];
    mooringeye_collector c;
    uint64_t used;
    size_t there = 0, n;
    uint8_t setting = 4;
    SHOULD(argc == 5 && (closed_file = fopen(argv[3], "w")) != NULL && (rows_file = fopen(argv[4], "w")) != NULL);
    uint8_t format = (uint8_t)atoi(argv[1]);
    random_state = strtoull(argv[2], NULL, 10);
    mooringeye_fresh(&c);
    while ((n = fread(text + there, 1, 1 + choose(choose(4) == 0 ? PIECE : 60), stdin)) > 0) {
        size_t at = 0;
        there += n;
        if (setting > 2) {
            setting = mooringeye_first_line(text, there, &used);
            SHOULD(setting != 3);
            at = (size_t)used;
        }
        while (setting <= 2 && (n = take(&c, setting, format, text + at, there - at)) > 0) at += n;
        there = there - at < MOORINGEYE_LINE_LIMIT ? there - at : MOORINGEYE_LINE_LIMIT;
        memmove(text, text + at, there);
    }
    return fclose(closed_file) == 0 && fclose(rows_file) == 0 ? EXIT_SUCCESS : EXIT_FAILURE;
}
