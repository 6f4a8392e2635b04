/* Collects lines of a time and a reception in hexadecimal digits: twenty lines, written from the header alone. */
#define _POSIX_C_SOURCE 200809L
#include "mooringeye.h"
#include <stdio.h>

int main(void) {
    mooringeye_collector collector;
    mooringeye_row row;
    uint64_t moment, done[MOORINGEYE_LINES_DONE];
    uint8_t text[MOORINGEYE_LONGEST_ROW];
    char *line = NULL;
    size_t size = 0;
    mooringeye_fresh(&collector);
    for (ssize_t n; (n = getline(&line, &size, stdin)) > 0;) {
        if (line[n - 1] != '\n') line[n++] = '\n'; /* over the terminating zero */
        mooringeye_lines(&collector, 0, (uint8_t *)line, (size_t)n, 1, text, sizeof text, &moment, &row, 1, done);
        fwrite(text, 1, (size_t)done[1], stdout);
    }
}
