/* Mooringeye 1.0.0: a proved EnOcean collector, for C11 and C++17.
 *
 * What the caller guarantees, of every call:
 *   - a pointer is valid for its length (of elements, not of bytes) or its fixed size; with length 0 it may be NULL;
 *   - a pointer is aligned as its type requires. Bytes, and structs of bytes alone, need no alignment;
 *   - memory that a call changes overlaps nothing else that is lent to the same call;
 *   - one thread at a time uses one collector, report, scan, packer or buffer. No call allocates or has other state;
 *   - a `bool` is 0 or 1;
 *   - enough stack is left: 96 KiB for a call on reports, 32 KiB for every other call.
 * No other precondition: every call returns for any memory contents.
 *
 * Answers. A call that returns `uint8_t` returns a number: 0 for done, a refusal of mooringeye_refusal, or
 * MOORINGEYE_WRONG_SIZE for a slice that does not have the size that the call asks for. mooringeye_take, the slot plans
 * and the site answer more than a number: use their constants, accessors and structs, and do not take their bytes
 * apart. mooringeye_first_line, mooringeye_read_line and mooringeye_journal_judge refuse nothing: their numbers say
 * what a line or a block is. Refusals are tested in the order in which a function lists them.
 *
 * After a refusal all lent memory is as it was, result pointers included. There are two exceptions: the position that
 * goes with a refusal where a function says so, and the counters of a collector that takes a DAMAGED or LATE reception.
 * `position` is written only with such a refusal, and not with 0. After success, the bytes of an output after the
 * result are as they were. Positions and indices count from 0. Times are in milliseconds.
 *
 * Versions. The library has the version MAJOR.MINOR.PATCH of this header, and so have the tool, the Rust crate and the
 * Python module. MAJOR, which is also that of the shared object's name, rises when a function, a struct or a constant
 * changes or goes; MINOR when some are added; PATCH with everything else. A program that was linked with a library of
 * one MINOR runs with every later one of the same MAJOR. include/mooringeye.abi lists all of them, with the version in
 * which each came; the tests compare it with this header and with the library.
 *
 * Each function is proved to do what docs/API.md says of it, for every input. The functions with a body here, which
 * call those, are C: they are tested. */
#ifndef MOORINGEYE_H
#define MOORINGEYE_H

#include <stdbool.h>
#include <stddef.h>
#include <stdint.h>
#include <string.h>

#ifdef __cplusplus
extern "C" {
#endif

#define MOORINGEYE_VERSION_MAJOR 1
#define MOORINGEYE_VERSION_MINOR 0
#define MOORINGEYE_VERSION_PATCH 0
#define MOORINGEYE_VERSION_TEXT "1.0.0"
#define MOORINGEYE_VERSION_OF(major, minor, patch) ((major)*65536u + (minor)*256u + (patch))
#define MOORINGEYE_VERSION \
    MOORINGEYE_VERSION_OF(MOORINGEYE_VERSION_MAJOR, MOORINGEYE_VERSION_MINOR, MOORINGEYE_VERSION_PATCH)

/* The version of the library, as MOORINGEYE_VERSION is that of this header. */
uint32_t mooringeye_version(void);

/* Whether the library that runs has all that this header declares. */
static inline bool mooringeye_is_compatible(void) {
    uint32_t version = mooringeye_version();
    return version / 65536u == MOORINGEYE_VERSION_MAJOR && version / 256u >= MOORINGEYE_VERSION / 256u;
}

/* ---- numbers */

/* Every number: its name, the number, and what it says. */
#define MOORINGEYE_NUMBERS(X)                                                      \
    X(DONE, 0, "done")                                                             \
    X(LENGTH, 1, "the length is wrong")                                            \
    X(SUM, 2, "HASH is wrong, the sum")                                            \
    X(NESTED, 3, "addressed inside addressed, or encapsulating an addressed one")  \
    X(NOT_ADDRESSED, 4, "removal asked of a plain telegram")                       \
    X(TOO_LONG, 5, "an addressed telegram of over 21 bytes")                       \
    X(SHORT_OUTPUT, 6, "the output is too short for the result")                   \
    X(LATE, 7, "the clock went back")                                              \
    X(FULL, 8, "2^64 - 1 receptions are counted")                                  \
    X(NO_PLAN, 9, "no lawful plan")                                                \
    X(ARGUMENT, 10, "an argument is out of its range")                             \
    X(NOT_ACCEPTED, 11, "the state or the image is not accepted")                  \
    X(MISMATCH, 12, "a block of an archive does not match")                        \
    X(CRC, 13, "HASH is wrong, the CRC")                                           \
    X(RESERVED_ADDRESS, 14, "the address control of an ERP2 telegram is reserved") \
    X(MISFIT, 15, "the fields of an ERP2 telegram do not fit its length")          \
    X(SIZE, 16, "not whole blocks, or over 2^32 of them")                          \
    X(TRANSMITTERS, 17, "a 257th transmitter of a report")                         \
    X(UNLAWFUL, 18, "the slot plan of a repeater of a site is not lawful")         \
    X(OVERLAP, 19, "transmissions of two repeaters of a site overlap")             \
    X(WRONG_SIZE, 255, "a slice does not have the size that the call asks for")

/* MOORINGEYE_DONE and the refusals. 1 to 19 are the papers' numbers, 255 is this interface's own. */
enum mooringeye_refusal {
#define MOORINGEYE_X(name, number, text) MOORINGEYE_##name = number,
    MOORINGEYE_NUMBERS(MOORINGEYE_X)
#undef MOORINGEYE_X
};

/* "LENGTH" for 1, and so on; "UNKNOWN" for a number that no call answers. */
static inline const char *mooringeye_refusal_name(uint8_t number) {
    switch (number) {
#define MOORINGEYE_X(name, number, text) \
    case number: return #name;
        MOORINGEYE_NUMBERS(MOORINGEYE_X)
#undef MOORINGEYE_X
    default: return "UNKNOWN";
    }
}

/* What a number says, in English. */
static inline const char *mooringeye_refusal_text(uint8_t number) {
    switch (number) {
#define MOORINGEYE_X(name, number, text) \
    case number: return text;
        MOORINGEYE_NUMBERS(MOORINGEYE_X)
#undef MOORINGEYE_X
    default: return "a number that no call answers";
    }
}

/* ---- subtelegrams */

enum {
    MOORINGEYE_MAX_TELEGRAM = 21,
    MOORINGEYE_MAX_DATA = 14
};

/* The fields of a subtelegram. RORG is the inner one where it is addressed; IDs are in the order of transmission. Any
 * other number than 0 in `addressed` says yes; reading gives 1. A plain telegram's DESTID reads zero. */
typedef struct mooringeye_fields {
    uint8_t rorg;
    uint8_t length; /* of DATA */
    uint8_t addressed;
    uint8_t status;
    uint8_t destid[4];
    uint8_t txid[4];
    uint8_t data[MOORINGEYE_MAX_DATA];
} mooringeye_fields;

/* Up to 21 bytes with their length, 0 for none, zero filled. */
typedef struct mooringeye_frame {
    uint8_t length;
    uint8_t bytes[MOORINGEYE_MAX_TELEGRAM];
} mooringeye_frame;

/* CRC-8 with x^8 + x^2 + x + 1 from 0; 0 for no bytes. */
uint8_t mooringeye_crc8(const uint8_t *bytes, size_t length);

/* The check of a subtelegram: 1, 2 or 13, 3. */
uint8_t mooringeye_check(const uint8_t *bytes, size_t length);

/* Whether two subtelegrams are the same telegram: equal but for HASH and the level. */
bool mooringeye_same(const uint8_t *a, size_t a_length, const uint8_t *b, size_t b_length);

/* Reads a subtelegram. `fields_size` is sizeof(mooringeye_fields). Refused: 255, the check's own. */
uint8_t mooringeye_read(const uint8_t *bytes, size_t length, mooringeye_fields *fields, size_t fields_size);

/* Builds a subtelegram into the front of `out`, and its length into `out_length`.
 * Refused: 255, 10 DATA not 1 to 14 bytes or RORG 0xA6, 5, 6. */
uint8_t mooringeye_build(const mooringeye_fields *fields, size_t fields_size, uint8_t *out, size_t out_size,
                         size_t *out_length);

/* Encapsulates a plain subtelegram for a DESTID, its first byte the highest: STATUS is kept and HASH renewed.
 * Refused: the check's own, 3, 5, 6. */
uint8_t mooringeye_encapsulate(const uint8_t *bytes, size_t length, uint32_t destid, uint8_t *out, size_t out_size,
                               size_t *out_length);

/* Removes the encapsulation of an addressed one. Refused: the check's own, 4, 6. */
uint8_t mooringeye_decapsulate(const uint8_t *bytes, size_t length, uint8_t *out, size_t out_size, size_t *out_length);

/* What a repeater set to 0 (off), 1 or 2 sends for a telegram; length 0 for nothing. It knows no history: ask it for
 * receptions that were KEPT. `sent_size` is sizeof(mooringeye_frame). Refused: 255, 10 a setting over 2, the check's
 * own. */
uint8_t mooringeye_repeat(uint8_t setting, const uint8_t *bytes, size_t length, mooringeye_frame *sent,
                          size_t sent_size);

/* ---- the collector */

enum {
    MOORINGEYE_CAPACITY = 64,          /* telegrams that can be open */
    MOORINGEYE_COLLECTOR_BYTES = 1344, /* 21 for each of them */
    MOORINGEYE_COLLECTOR_NUMBERS = 8,
    MOORINGEYE_TOTALS = 6,
    MOORINGEYE_IMAGE = 2560,    /* bytes of a checkpoint */
    MOORINGEYE_MAX_BURST = 256, /* receptions of a burst */
    MOORINGEYE_REPLY = 24       /* sizeof(mooringeye_reply) */
};

/* What mooringeye_take answers where it does not refuse: the whole answer, so that `answer == MOORINGEYE_COPY` is
 * right. */
enum mooringeye_answer {
    MOORINGEYE_KEPT = 0,
    MOORINGEYE_COPY = 256,
    MOORINGEYE_LOOSE = 512
};

/* The kind in one byte, as a reply of a burst has it. */
enum mooringeye_kind {
    MOORINGEYE_KIND_KEPT = 0,
    MOORINGEYE_KIND_COPY = 1,
    MOORINGEYE_KIND_LOOSE = 2
};

/* The number of an answer of mooringeye_take: MOORINGEYE_DONE or a refusal. */
static inline uint8_t mooringeye_answer_number(uint16_t answer) {
    return (uint8_t)(answer % 256u);
}

/* Its kind, of mooringeye_kind; KEPT with a refusal. */
static inline uint8_t mooringeye_answer_kind(uint16_t answer) {
    return (uint8_t)(answer / 256u);
}

/* A collector, changed in place. Of each open telegram, in opening order: when it was opened, how often it was heard
 * again, its length, and its bytes, 21 each; elements after the open ones mean nothing. The numbers: telegrams open,
 * latest time, received, kept, copies, loose, damaged, late. Every call but mooringeye_collector_fresh and
 * mooringeye_collector_take_tested answers 11 to a state that no receptions and no accepted image give, and does not
 * change it. The struct may be copied. */
typedef struct mooringeye_collector {
    uint64_t times[MOORINGEYE_CAPACITY];
    uint64_t numbers[MOORINGEYE_COLLECTOR_NUMBERS];
    uint16_t copies[MOORINGEYE_CAPACITY];
    uint8_t lengths[MOORINGEYE_CAPACITY];
    uint8_t bytes[MOORINGEYE_COLLECTOR_BYTES];
} mooringeye_collector;

/* The reply to a reception of a burst: the kind (0 with a refusal), the number, and what a repeater at the burst's
 * setting sends, of length 0 for nothing. */
typedef struct mooringeye_reply {
    uint8_t kind;
    uint8_t number;
    mooringeye_frame sent;
} mooringeye_reply;

/* A reply as mooringeye_take would have answered it. */
static inline uint16_t mooringeye_reply_answer(const mooringeye_reply *reply) {
    return (uint16_t)(reply->kind * 256 + reply->number);
}

/* These calls take the five arrays of a collector one by one; the functions after them take the struct, and answer the
 * same. */

/* No telegram open, nothing counted: every number of the five arrays is zero. */
void mooringeye_collector_fresh(uint64_t times[MOORINGEYE_CAPACITY], uint8_t lengths[MOORINGEYE_CAPACITY],
                                uint8_t bytes[MOORINGEYE_COLLECTOR_BYTES], uint16_t copies[MOORINGEYE_CAPACITY],
                                uint64_t numbers[MOORINGEYE_COLLECTOR_NUMBERS]);

/* Takes one reception: its bytes and the moment they were complete. Answers MOORINGEYE_KEPT, COPY, LOOSE, or a refusal.
 * Refused: 11, 8; the check's own 1, 2 or 13, 3, counted DAMAGED; 7 a time before the latest, counted LATE. */
uint16_t mooringeye_collector_take(uint64_t times[MOORINGEYE_CAPACITY], uint8_t lengths[MOORINGEYE_CAPACITY],
                                   uint8_t bytes[MOORINGEYE_COLLECTOR_BYTES], uint16_t copies[MOORINGEYE_CAPACITY],
                                   uint64_t numbers[MOORINGEYE_COLLECTOR_NUMBERS], const uint8_t *received,
                                   size_t received_length, uint64_t time);

/* The same for a state that is known to be accepted: it is not tested. The test takes most of the time of
 * mooringeye_collector_take. A state is accepted after mooringeye_collector_fresh, after a call of this header that
 * tests it and does not answer 11, and after this call at such a state. For any other state: 11 for more than 64 open
 * telegrams or totals that do not add up; a refusal changes only `numbers`; a later call may answer 11. */
uint16_t mooringeye_collector_take_tested(uint64_t times[MOORINGEYE_CAPACITY], uint8_t lengths[MOORINGEYE_CAPACITY],
                                          uint8_t bytes[MOORINGEYE_COLLECTOR_BYTES],
                                          uint16_t copies[MOORINGEYE_CAPACITY],
                                          uint64_t numbers[MOORINGEYE_COLLECTOR_NUMBERS], const uint8_t *received,
                                          size_t received_length, uint64_t time);

/* Received, kept, copies, loose, damaged, late. Refused: 11. */
uint8_t
mooringeye_collector_totals(const uint64_t times[MOORINGEYE_CAPACITY], const uint8_t lengths[MOORINGEYE_CAPACITY],
                            const uint8_t bytes[MOORINGEYE_COLLECTOR_BYTES], const uint16_t copies[MOORINGEYE_CAPACITY],
                            const uint64_t numbers[MOORINGEYE_COLLECTOR_NUMBERS], uint64_t totals[MOORINGEYE_TOTALS]);

/* How often the open telegram `index`, in opening order, was heard again. Refused: 11, 10 no such telegram. */
uint8_t
mooringeye_collector_copies(const uint64_t times[MOORINGEYE_CAPACITY], const uint8_t lengths[MOORINGEYE_CAPACITY],
                            const uint8_t bytes[MOORINGEYE_COLLECTOR_BYTES], const uint16_t copies[MOORINGEYE_CAPACITY],
                            const uint64_t numbers[MOORINGEYE_COLLECTOR_NUMBERS], size_t index, uint64_t *heard);

/* The image of the state, into the first 2,560 bytes of `out`. Refused: 11, 6. */
uint8_t mooringeye_collector_checkpoint(const uint64_t times[MOORINGEYE_CAPACITY],
                                        const uint8_t lengths[MOORINGEYE_CAPACITY],
                                        const uint8_t bytes[MOORINGEYE_COLLECTOR_BYTES],
                                        const uint16_t copies[MOORINGEYE_CAPACITY],
                                        const uint64_t numbers[MOORINGEYE_COLLECTOR_NUMBERS], uint8_t *out,
                                        size_t out_size);

/* The state that an image of 2,560 bytes holds. Refused: 11 the state or the image is not accepted. */
uint8_t mooringeye_collector_restore(uint64_t times[MOORINGEYE_CAPACITY], uint8_t lengths[MOORINGEYE_CAPACITY],
                                     uint8_t bytes[MOORINGEYE_COLLECTOR_BYTES], uint16_t copies[MOORINGEYE_CAPACITY],
                                     uint64_t numbers[MOORINGEYE_COLLECTOR_NUMBERS], const uint8_t *image,
                                     size_t image_size);

/* Takes up to 256 receptions, one by one: each has its moment and a record of 22 bytes; a length over 21 is answered
 * with 1. Reply i is the answer to reception i; replies after them are untouched, and a part of a reply is not used.
 * Refused: 11, 255 where `records_size` is not 22 bytes for each moment, 6 fewer replies than moments, 10 more than 256
 * moments or a setting over 2. */
uint8_t mooringeye_collector_burst(uint64_t times[MOORINGEYE_CAPACITY], uint8_t lengths[MOORINGEYE_CAPACITY],
                                   uint8_t bytes[MOORINGEYE_COLLECTOR_BYTES], uint16_t copies[MOORINGEYE_CAPACITY],
                                   uint64_t numbers[MOORINGEYE_COLLECTOR_NUMBERS], uint8_t setting,
                                   const uint64_t *moments, size_t moments_length, const mooringeye_frame *records,
                                   size_t records_size, mooringeye_reply *replies, size_t replies_size);

/* ---- lines of text */

enum {
    MOORINGEYE_LONGEST_ROW = 92, /* bytes of the longest text of a line */
    MOORINGEYE_LINE_LIMIT = 150, /* a line this long is BAD, so no more of it need be kept */
    MOORINGEYE_LINES_DONE = 4,
    MOORINGEYE_LINES_SKIPPED = 2,
    MOORINGEYE_LONGEST_ROW_AS = 333, /* bytes of the longest row of a line in any format */
    MOORINGEYE_LINES_AS_DONE = 5,
    MOORINGEYE_LINE_BYTES = 64, /* the most bytes that a line says */
    MOORINGEYE_LINE_READ = 3
};

/* The formats of rows. */
enum mooringeye_format {
    MOORINGEYE_FORMAT_TEXT = 0, /* as `collect` prints them */
    MOORINGEYE_FORMAT_CSV = 1,  /* comma-separated */
    MOORINGEYE_FORMAT_JSON = 2  /* an object on each line */
};

/* The line that a file of comma-separated rows starts with. */
#define MOORINGEYE_CSV_HEADING "time,answer,refusal,telegram,send,txid,rorg,level\n"

/* A row of an archive but its time: 1 for LOOSE, and the bytes as received, zero filled, with their length. */
typedef struct mooringeye_row {
    uint8_t loose;
    mooringeye_frame frame;
} mooringeye_row;

/* Takes whole lines from the start of `input`, which starts with a line after the first: each is the time, a space, the
 * bytes in hexadecimal, and a newline. The front of `out` gets what `collect` prints for them at the setting. The
 * fronts of `moments` and `rows` get the rows that are KEPT or LOOSE, as mooringeye_archive_put_rows takes them. `done`
 * gets four numbers: the bytes of `input` that were used, the bytes of text, the rows, and the lines. The call stops
 * after `most` lines, where no further row fits, where less than 92 bytes of `out` are left, or where no further line
 * has ended: then hand over the rest, at most 150 bytes of it, before the bytes that come next. Refused: 11, 255 where
 * `rows_size` is not 23 bytes for each moment, 10 a setting over 2. */
uint8_t mooringeye_collector_lines(uint64_t times[MOORINGEYE_CAPACITY], uint8_t lengths[MOORINGEYE_CAPACITY],
                                   uint8_t bytes[MOORINGEYE_COLLECTOR_BYTES], uint16_t copies[MOORINGEYE_CAPACITY],
                                   uint64_t numbers[MOORINGEYE_COLLECTOR_NUMBERS], uint8_t setting,
                                   const uint8_t *input, size_t input_length, size_t most, uint8_t *out,
                                   size_t out_size, uint64_t *moments, size_t moments_length, mooringeye_row *rows,
                                   size_t rows_size, uint64_t done[MOORINGEYE_LINES_DONE]);

/* A telegram that closed, as an entry of a checkpoint: when it was opened and how often it was heard again, both
 * big-endian, and its bytes as first received, zero filled, with their length. */
typedef struct mooringeye_closing {
    uint8_t opened[8];
    mooringeye_frame frame;
    uint8_t copies[2];
} mooringeye_closing;

/* When it was opened. */
static inline uint64_t mooringeye_closing_opened(const mooringeye_closing *closing) {
    uint64_t opened = 0;
    for (size_t i = 0; i < sizeof closing->opened; i++) opened = opened * 256u + closing->opened[i];
    return opened;
}

/* How often it was heard again, up to 65,535. */
static inline uint16_t mooringeye_closing_copies(const mooringeye_closing *closing) {
    return (uint16_t)(closing->copies[0] * 256 + closing->copies[1]);
}

/* Takes lines as mooringeye_collector_lines does, and writes their rows in a format of mooringeye_format, without a
 * heading. If `closed_size` is not 0, the front of `closed` gets each telegram that closes with these lines, in the
 * order of their openings: a telegram closes with the first KEPT, COPY or LOOSE reception more than 100 ms after its
 * opening. A telegram that is still open at the end of a log has not closed. `done` gets five numbers: the bytes of
 * `input` that were used, the bytes of rows, the rows for an archive, the lines, and the closings. The call stops where
 * mooringeye_collector_lines stops, but with less than 333 bytes of `out` left; and, if `closed_size` is not 0, with
 * less than 64 closings, 2,048 bytes, left. Refused: 11, 255 where `rows_size` is not 23 bytes for each moment, 10 a
 * setting or a format over 2. */
uint8_t mooringeye_collector_lines_as(uint64_t times[MOORINGEYE_CAPACITY], uint8_t lengths[MOORINGEYE_CAPACITY],
                                      uint8_t bytes[MOORINGEYE_COLLECTOR_BYTES], uint16_t copies[MOORINGEYE_CAPACITY],
                                      uint64_t numbers[MOORINGEYE_COLLECTOR_NUMBERS], uint8_t setting, uint8_t format,
                                      const uint8_t *input, size_t input_length, size_t most, uint8_t *out,
                                      size_t out_size, uint64_t *moments, size_t moments_length, mooringeye_row *rows,
                                      size_t rows_size, mooringeye_closing *closed, size_t closed_size,
                                      uint64_t done[MOORINGEYE_LINES_AS_DONE]);

/* The setting that the first line of a text says: 0, 1 or 2 for `level 0`, `level 1` or `level 2`; 3 for any other
 * line; 4 where no newline ends it. `used` gets the bytes of the line with its newline, 0 where there is none. */
uint8_t mooringeye_first_line(const uint8_t *input, size_t input_length, uint64_t *used);

/* What the line at the start of `input` says, if it is not the first of its text: 0 for a reception, 3 for any other
 * line, 4 where no newline ends it. `done` gets three numbers: the time, how many bytes, and the bytes of the line with
 * its newline, 0 where there is none. `bytes` gets the bytes that the digits say, zero filled. With 3 and 4, time and
 * bytes are 0. */
uint8_t mooringeye_read_line(const uint8_t *input, size_t input_length, uint8_t bytes[MOORINGEYE_LINE_BYTES],
                             uint64_t done[MOORINGEYE_LINE_READ]);

/* Passes over whole lines at the start of `input`, at most `most`. `done` gets two numbers: their bytes, and how many
 * they are. */
void mooringeye_skip_lines(const uint8_t *input, size_t input_length, size_t most,
                           uint64_t done[MOORINGEYE_LINES_SKIPPED]);

static inline void mooringeye_fresh(mooringeye_collector *c) {
    mooringeye_collector_fresh(c->times, c->lengths, c->bytes, c->copies, c->numbers);
}

/* Copies the bytes of a reception, of which at most 21 can be a telegram; answers their number, at most 22. */
static inline size_t mooringeye_own(uint8_t own[MOORINGEYE_MAX_TELEGRAM + 1], const uint8_t *received,
                                    size_t received_length) {
    if (received_length > MOORINGEYE_MAX_TELEGRAM) return MOORINGEYE_MAX_TELEGRAM + 1;
    if (received_length > 0) memcpy(own, received, received_length);
    return received_length;
}

/* The bytes may lie anywhere, in the collector too: they are copied first, and of more than 21 bytes only their number
 * counts. */
static inline uint16_t mooringeye_take(mooringeye_collector *c, const uint8_t *received, size_t received_length,
                                       uint64_t time) {
    uint8_t own[MOORINGEYE_MAX_TELEGRAM + 1] = {0};
    size_t length = mooringeye_own(own, received, received_length);
    return mooringeye_collector_take(c->times, c->lengths, c->bytes, c->copies, c->numbers, own, length, time);
}

static inline uint16_t mooringeye_take_tested(mooringeye_collector *c, const uint8_t *received, size_t received_length,
                                              uint64_t time) {
    uint8_t own[MOORINGEYE_MAX_TELEGRAM + 1] = {0};
    size_t length = mooringeye_own(own, received, received_length);
    return mooringeye_collector_take_tested(c->times, c->lengths, c->bytes, c->copies, c->numbers, own, length, time);
}

static inline uint8_t mooringeye_totals(const mooringeye_collector *c, uint64_t totals[MOORINGEYE_TOTALS]) {
    return mooringeye_collector_totals(c->times, c->lengths, c->bytes, c->copies, c->numbers, totals);
}

static inline uint8_t mooringeye_copies(const mooringeye_collector *c, size_t index, uint64_t *heard) {
    return mooringeye_collector_copies(c->times, c->lengths, c->bytes, c->copies, c->numbers, index, heard);
}

static inline uint8_t mooringeye_checkpoint(const mooringeye_collector *c, uint8_t *out, size_t out_size) {
    return mooringeye_collector_checkpoint(c->times, c->lengths, c->bytes, c->copies, c->numbers, out, out_size);
}

static inline uint8_t mooringeye_restore(mooringeye_collector *c, const uint8_t *image, size_t image_size) {
    return mooringeye_collector_restore(c->times, c->lengths, c->bytes, c->copies, c->numbers, image, image_size);
}

/* `n` moments with their records; `places` is how many replies fit. */
static inline uint8_t mooringeye_burst(mooringeye_collector *c, uint8_t setting, const uint64_t *moments,
                                       const mooringeye_frame *records, size_t n, mooringeye_reply *replies,
                                       size_t places) {
    return mooringeye_collector_burst(c->times, c->lengths, c->bytes, c->copies, c->numbers, setting, moments, n,
                                      records, n * sizeof *records, replies, places * sizeof *replies);
}

/* `places` is how many moments and rows fit. */
static inline uint8_t mooringeye_lines(mooringeye_collector *c, uint8_t setting, const uint8_t *input,
                                       size_t input_length, size_t most, uint8_t *out, size_t out_size,
                                       uint64_t *moments, mooringeye_row *rows, size_t places,
                                       uint64_t done[MOORINGEYE_LINES_DONE]) {
    return mooringeye_collector_lines(c->times, c->lengths, c->bytes, c->copies, c->numbers, setting, input,
                                      input_length, most, out, out_size, moments, places, rows, places * sizeof *rows,
                                      done);
}

/* `places` is how many moments and rows fit, `closings` how many closings fit into `closed`: 0, or 64 and more. */
static inline uint8_t mooringeye_lines_as(mooringeye_collector *c, uint8_t setting, uint8_t format,
                                          const uint8_t *input, size_t input_length, size_t most, uint8_t *out,
                                          size_t out_size, uint64_t *moments, mooringeye_row *rows, size_t places,
                                          mooringeye_closing *closed, size_t closings,
                                          uint64_t done[MOORINGEYE_LINES_AS_DONE]) {
    return mooringeye_collector_lines_as(c->times, c->lengths, c->bytes, c->copies, c->numbers, setting, format, input,
                                         input_length, most, out, out_size, moments, places, rows,
                                         places * sizeof *rows, closed, closings * sizeof *closed, done);
}

/* ---- ERP2 telegrams */

/* The fields of an ERP2 telegram except its IDs. Where a flag is not set its values mean nothing, and the header of a
 * short form means nothing: reading gives zeros there. */
typedef struct mooringeye_erp2 {
    uint8_t form;     /* the Length of a short form, 1 to 6; 0 for a long form */
    uint8_t control;  /* address control */
    uint8_t extended; /* an extended header is available */
    uint8_t kind;     /* telegram type */
    uint8_t has_extension;
    uint8_t hops;      /* repeater count */
    uint8_t announced; /* length of optional data */
    uint8_t has_subtype;
    uint8_t subtype; /* extended telegram type */
    uint8_t has_destination;
    uint8_t length; /* of data */
    uint8_t data[250];
    uint8_t optional[15];
} mooringeye_erp2;

/* Reads a length byte and Data_PL. `fields_size` is sizeof(mooringeye_erp2). Refused: 255, 1, of a long form 13,
 * 14, 15. */
uint8_t mooringeye_erp2_read(const uint8_t *bytes, size_t length, mooringeye_erp2 *fields, size_t fields_size,
                             uint64_t *originator, uint32_t *destination);

/* Builds an ERP2 telegram, the length byte first, into the front of `out`. Refused: 255, 10 a value that its bits can't
 * hold or a flag against the header, 14, 15 fields that do not fit the length, 6. */
uint8_t mooringeye_erp2_build(const mooringeye_erp2 *fields, size_t fields_size, uint64_t originator,
                              uint32_t destination, uint8_t *out, size_t out_size, size_t *out_length);

/* ---- slot plans: rule 0 is the standard one, 1 the compressed one, 2 the one with a pause; slot 255 is none */

/* A plan under the standard rule, as one number: the answer's number, and the first, second and third slot, a byte each
 * from the highest. `duration` is in microseconds, 1 to 65,535. Refused: 10, 9. */
uint32_t mooringeye_plan(uint8_t level, uint32_t duration, uint64_t draw);

/* The same under a named rule, for two or three transmissions. */
uint32_t mooringeye_plan_by(uint8_t rule, uint8_t level, uint8_t transmissions, uint32_t duration, uint64_t draw);

/* A plan by its parts. With a refusal the slots are 0. */
typedef struct mooringeye_slots {
    uint8_t number; /* MOORINGEYE_DONE or a refusal */
    uint8_t first;
    uint8_t second;
    uint8_t third;
} mooringeye_slots;

/* What mooringeye_plan_by answers, by its parts. */
static inline mooringeye_slots mooringeye_draw_slots(uint8_t rule, uint8_t level, uint8_t transmissions,
                                                     uint32_t duration, uint64_t draw) {
    uint32_t answer = mooringeye_plan_by(rule, level, transmissions, duration, draw);
    mooringeye_slots slots = {(uint8_t)(answer >> 24), (uint8_t)(answer >> 16), (uint8_t)(answer >> 8),
                              (uint8_t)answer};
    return slots;
}

/* Whether a plan is lawful under a rule. The plan has two transmissions where the third slot is 255, else three; the
 * rule must have that number at this level. */
bool mooringeye_is_lawful(uint8_t rule, uint8_t level, uint32_t duration, uint8_t first, uint8_t second, uint8_t third);

/* What one repeater of a site sends. */
typedef struct mooringeye_repeater {
    uint8_t rule;
    uint8_t level;
    uint8_t duration[4]; /* big-endian, in microseconds */
    uint8_t slots[3];
} mooringeye_repeater;

/* The check of up to 32 repeaters, as one number: answer x 65,536 + repeater x 256 + other. `repeaters_size` is that of
 * all repeaters, in bytes. Refused: 10 naming none (a size of no whole repeaters included), 18 with the first unlawful
 * one, 19 with the first pair that overlaps. */
uint32_t mooringeye_site(const mooringeye_repeater *repeaters, size_t repeaters_size);

/* The check of a site by its parts: which repeaters go with the number, 0 for none. */
typedef struct mooringeye_site_check {
    uint8_t number; /* MOORINGEYE_DONE or a refusal */
    uint8_t repeater;
    uint8_t other;
} mooringeye_site_check;

/* What mooringeye_site answers for `count` repeaters, by its parts. */
static inline mooringeye_site_check mooringeye_check_site(const mooringeye_repeater *repeaters, size_t count) {
    uint32_t answer = mooringeye_site(repeaters, count * sizeof *repeaters);
    mooringeye_site_check check = {(uint8_t)(answer >> 16), (uint8_t)(answer >> 8), (uint8_t)answer};
    return check;
}

/* ---- archive block files, in lent buffers */

enum {
    MOORINGEYE_BLOCK = 512,
    MOORINGEYE_ROWS_PER_BLOCK = 15,
    MOORINGEYE_MAX_IDENTITIES = 32,
    MOORINGEYE_SCAN_NUMBERS = 4,
    MOORINGEYE_PACKER_NUMBERS = 2,
    MOORINGEYE_PACKER_BYTES = 960
};

/* How many rows an archive has. Refused: 16, 12 with the position of the first block that does not match. */
uint8_t mooringeye_archive_verify(const uint8_t *buffer, size_t size, size_t *rows, size_t *position);

/* Appends a row, KEPT or LOOSE, and looks at every block. Refused: 16, 12 with the position, the check's for the row, 6
 * the buffer has no further block. */
uint8_t mooringeye_archive_append(uint8_t *buffer, size_t size, const uint8_t *bytes, size_t length, uint64_t time,
                                  bool loose, size_t *position);

/* The same for an archive of `rows` rows, as mooringeye_archive_verify said and the caller has counted since: it looks
 * at one block. Refused: 16, 12 with the position of the block that does not say that this row is next, the check's, 6.
 */
uint8_t mooringeye_archive_append_at(uint8_t *buffer, size_t size, size_t rows, const uint8_t *bytes, size_t length,
                                     uint64_t time, bool loose, size_t *position);

/* The same where the caller holds only the 512 bytes of that block. Refused: 16 another size or a row that no archive
 * has, 12 with the position, the check's. */
uint8_t mooringeye_archive_put_row(uint8_t *block, size_t size, size_t rows, const uint8_t *bytes, size_t length,
                                   uint64_t time, bool loose, size_t *position);

/* Puts rows `rows`, rows + 1 and so on into the 512 bytes of their block, all or none, with one CRC: the block is then
 * what mooringeye_archive_put_row makes of it for one row after the other. Each row has its time and a record, which is
 * LOOSE where `loose` is not 0, and whose length is answered with 1 where it is over 21. `records_size` is 23 for each
 * time, in bytes. Refused: 16 another size or a row that no archive has, 12 with the position, the check's with the
 * index of the first such row among these as position, 6 where the block cannot take all of them. */
uint8_t mooringeye_archive_put_rows(uint8_t *block, size_t size, size_t rows, const uint64_t *times,
                                    size_t times_length, const mooringeye_row *records, size_t records_size,
                                    size_t *position);

/* Row `index` as it is. `row_size` is sizeof(mooringeye_row). Refused: 255, 16, 10 no such row, 12 a row whose
 * length is over 21, as in no archive; its block is index / 15. */
uint8_t mooringeye_archive_row(const uint8_t *buffer, size_t size, size_t index, mooringeye_row *row, size_t row_size,
                               uint64_t *time);

/* Packs the sound blocks of a damaged archive into `out`, with zeros after them up to the buffer's size, and writes the
 * positions of the blocks that were dropped into the front of `positions`. Refused: 16, 6 an output shorter than the
 * buffer or a list shorter than the positions. */
uint8_t mooringeye_archive_salvage(const uint8_t *buffer, size_t size, uint8_t *out, size_t out_size,
                                   uint64_t *positions, size_t positions_length, size_t *dropped, size_t *rows);

/* Removes the rows of up to 32 transmitters in the archive's own buffer: the others are packed and renumbered, and
 * blocks no longer needed are zero filled; `freed` says how many. A transmitter is its TXID, the first byte the
 * highest. Refused: 16, 12 with the position, 10 more than 32. */
uint8_t mooringeye_archive_remove(uint8_t *buffer, size_t size, const uint32_t *identities, size_t identities_length,
                                  size_t *freed, size_t *position);

/* Takes rows back: the first `rows` rows stay, in the archive's own buffer. The block where they end is rewritten, with
 * zeros after it; no block before it is touched. Refused: 16, 12 with the position, 10 where the archive has fewer
 * rows. */
uint8_t mooringeye_archive_cut(uint8_t *buffer, size_t size, size_t rows, size_t *position);

/* The same of one block, which becomes that of its first `rows` rows, all zero for none. To cut an archive in a file at
 * m rows, write zeros over the blocks after block m / 15, from the last one on, then cut that block at m % 15.
 * Refused: 16 another size, 12 a block that isn't sound or has fewer rows. */
uint8_t mooringeye_archive_cut_block(uint8_t *block, size_t size, size_t rows);

/* ---- archives in pieces: whole blocks in the order of the file, any number in a piece. However an archive is divided,
 * the answer for all pieces is that for the whole archive. What is known between two pieces is in lent arrays; the
 * functions on structs after them answer the same. */

/* The next piece of an archive that is verified. `numbers` are the blocks passed, their rows, the stage (0 every block
 * is full, 1 the last one is short, 2 an all-zero one was passed, any other: a block does not match), and the position
 * of that block; four zeros before the first piece. Refused: 11 numbers that no pieces give, 16 a piece that isn't
 * whole blocks, or more than 2^32 of them in all. */
uint8_t mooringeye_scan_feed(uint64_t numbers[MOORINGEYE_SCAN_NUMBERS], const uint8_t *piece, size_t size);

/* What mooringeye_archive_verify answers for all pieces together. Refused: 11, 12 with the position. */
uint8_t mooringeye_scan_end(const uint64_t numbers[MOORINGEYE_SCAN_NUMBERS], size_t *rows, size_t *position);

/* The next piece of an archive that is packed again: rows of sound blocks stay, except those of up to 32 transmitters.
 * Rows that wait for a full block lie in `waiting`, 960 bytes; `numbers` are how many wait, and how many blocks were
 * written; two zeros before the first piece. Blocks go into the front of `out`, 512 bytes for each by which the second
 * number rises, and the positions of dropped blocks, from the first block of the piece, into the front of `positions`.
 * Refused: 11 numbers that no pieces give, 16 a piece that isn't whole blocks or whose rows could need more than 2^32
 * blocks with those before, 10 more than 32 transmitters, 6 an output shorter than the piece or a list shorter than the
 * positions. */
uint8_t mooringeye_pack_feed(uint64_t numbers[MOORINGEYE_PACKER_NUMBERS], uint8_t waiting[MOORINGEYE_PACKER_BYTES],
                             const uint8_t *piece, size_t size, const uint32_t *identities, size_t identities_length,
                             uint8_t *out, size_t out_size, uint64_t *positions, size_t positions_length,
                             size_t *dropped);

/* After the last piece: the last block, where rows wait, in the front of `out`; `out_length` is 512 or 0. Refused:
 * 11, 6. */
uint8_t mooringeye_pack_end(const uint64_t numbers[MOORINGEYE_PACKER_NUMBERS],
                            const uint8_t waiting[MOORINGEYE_PACKER_BYTES], uint8_t *out, size_t out_size,
                            size_t *out_length);

/* A scan: all zero before the first piece. */
typedef struct mooringeye_scan {
    uint64_t numbers[MOORINGEYE_SCAN_NUMBERS];
} mooringeye_scan;

/* A packer: all zero before the first piece. */
typedef struct mooringeye_packer {
    uint64_t numbers[MOORINGEYE_PACKER_NUMBERS];
    uint8_t waiting[MOORINGEYE_PACKER_BYTES];
} mooringeye_packer;

static inline void mooringeye_start_scan(mooringeye_scan *scan) {
    memset(scan, 0, sizeof *scan);
}

static inline uint8_t mooringeye_feed_scan(mooringeye_scan *scan, const uint8_t *piece, size_t size) {
    return mooringeye_scan_feed(scan->numbers, piece, size);
}

static inline uint8_t mooringeye_end_scan(const mooringeye_scan *scan, size_t *rows, size_t *position) {
    return mooringeye_scan_end(scan->numbers, rows, position);
}

static inline void mooringeye_start_packer(mooringeye_packer *packer) {
    memset(packer, 0, sizeof *packer);
}

static inline uint8_t mooringeye_feed_packer(mooringeye_packer *packer, const uint8_t *piece, size_t size,
                                             const uint32_t *identities, size_t identities_length, uint8_t *out,
                                             size_t out_size, uint64_t *positions, size_t positions_length,
                                             size_t *dropped) {
    return mooringeye_pack_feed(packer->numbers, packer->waiting, piece, size, identities, identities_length, out,
                                out_size, positions, positions_length, dropped);
}

static inline uint8_t mooringeye_end_packer(const mooringeye_packer *packer, uint8_t *out, size_t out_size,
                                            size_t *out_length) {
    return mooringeye_pack_end(packer->numbers, packer->waiting, out, out_size, out_length);
}

/* ---- the journal of `mooringeye collect`: its state file, and what a start and a batch decide */

enum {
    MOORINGEYE_STATE_NUMBERS = 14,
    MOORINGEYE_STATE_NAME = 255, /* bytes of the archive's name, zero filled */
    MOORINGEYE_STATE_TAIL = 512, /* bytes of the log before the offset, zero filled */
    MOORINGEYE_STATE = 4096,     /* bytes of a state file */
    MOORINGEYE_RUN_NUMBERS = 5
};

/* Writes a state file. `numbers` are lines taken; rows that were counted when the archive's file began, rows that it
 * had then, its number; the length of its name; 1 where the position in the log is known, its offset, device, inode,
 * and how many bytes are kept of it; 1 where rows go to a file too, its length, device, inode. `last` is a copy of the
 * block with the last row that is counted. Refused: 11 a state that is not lawful (docs/FORMATS.md). */
uint8_t mooringeye_state_write(const uint64_t numbers[MOORINGEYE_STATE_NUMBERS],
                               const uint8_t name[MOORINGEYE_STATE_NAME], const uint8_t last[MOORINGEYE_BLOCK],
                               const uint8_t image[MOORINGEYE_IMAGE], const uint8_t tail[MOORINGEYE_STATE_TAIL],
                               uint8_t out[MOORINGEYE_STATE]);

/* Reads a state file, of 4,096 bytes or, in version 1, of 3,584. Refused: 16 another size, 11 a file that is not byte
 * for byte what is written of a lawful state. */
uint8_t mooringeye_state_accept(const uint8_t *bytes, size_t size, uint64_t numbers[MOORINGEYE_STATE_NUMBERS],
                                uint8_t name[MOORINGEYE_STATE_NAME], uint8_t last[MOORINGEYE_BLOCK],
                                uint8_t image[MOORINGEYE_IMAGE], uint8_t tail[MOORINGEYE_STATE_TAIL]);

/* What the block with the last row that a state counts is: 0 the state's copy `last`, of which `rows` rows are counted;
 * 1 the copy with more rows after it; 2 a torn write: put `last` there; 3 another archive's block. */
uint8_t mooringeye_journal_judge(const uint8_t *last, size_t last_size, size_t rows, const uint8_t *block,
                                 size_t block_size);

/* Compares rows that come with leftovers, each a time and 23 bytes, as mooringeye_archive_put_rows takes them. `agreed`
 * is how many agree, from the first on; `going` how many leftovers, the last ones, are put aside: 0 where all that come
 * agree. Refused: 16 rows that are not 23 bytes for each time. */
uint8_t mooringeye_journal_compare(const uint64_t *times, size_t times_length, const uint8_t *rows, size_t rows_size,
                                   const uint64_t *moments, size_t moments_length, const uint8_t *left,
                                   size_t left_size, size_t *agreed, size_t *going);

/* The next piece of the blocks from the one with the last counted row on. `numbers` are the blocks of a file, the
 * number that the next block must have, the blocks that belong to the archive so far, their rows, and 1 where a block
 * does not belong to it. Refused: 11 numbers that no blocks give, 16 a piece that isn't whole blocks or more than 2^32
 * of them. */
uint8_t mooringeye_journal_scan(uint64_t numbers[MOORINGEYE_RUN_NUMBERS], const uint8_t *piece, size_t size);

/* ---- reports over archives */

enum {
    MOORINGEYE_MAX_ARCHIVES = 64,
    MOORINGEYE_MAX_LINES = 256,
    MOORINGEYE_REPORT_NUMBERS = 4,
    MOORINGEYE_LINE_NUMBERS = 5,
    MOORINGEYE_REPORT_LINES = 1280, /* five numbers for each line */
    MOORINGEYE_ADDING_NUMBERS = 8
};

/* A report: archives added, lines, KEPT rows, LOOSE rows; and the lines, five numbers each: identity, KEPT rows, LOOSE
 * rows, earliest and latest time. */
typedef struct mooringeye_report {
    uint64_t numbers[MOORINGEYE_REPORT_NUMBERS];
    uint64_t lines[MOORINGEYE_REPORT_LINES];
} mooringeye_report;

/* A report of no archive. */
void mooringeye_report_empty(uint64_t numbers[MOORINGEYE_REPORT_NUMBERS], uint64_t lines[MOORINGEYE_REPORT_LINES]);

/* Adds the rows of an archive. Refused: 11 a report that no archives give, 16, 12 with the position, 10 a 65th archive,
 * 17. */
uint8_t mooringeye_report_add(uint64_t numbers[MOORINGEYE_REPORT_NUMBERS], uint64_t lines[MOORINGEYE_REPORT_LINES],
                              const uint8_t *buffer, size_t size, size_t *position);

/* Line `index`, five numbers. Refused: 11, 10 no such line. */
uint8_t mooringeye_report_line(const uint64_t numbers[MOORINGEYE_REPORT_NUMBERS],
                               const uint64_t lines[MOORINGEYE_REPORT_LINES], size_t index,
                               uint64_t line[MOORINGEYE_LINE_NUMBERS]);

/* The share of its rows in receptions, in whole thousandths rounded down. Refused: 11, 10 a figure of 0 or less than
 * the rows. */
uint8_t mooringeye_report_share(const uint64_t numbers[MOORINGEYE_REPORT_NUMBERS],
                                const uint64_t lines[MOORINGEYE_REPORT_LINES], uint64_t received,
                                uint64_t *thousandths);

/* An archive that is added in pieces: `adding` and `tally` are what is known after some pieces, while the report stays
 * as it is until the end. `adding` is the four numbers of a scan, how many lines there are, KEPT rows, LOOSE rows, and
 * whether a transmitter was one too many; `tally` is the lines. */
void mooringeye_report_start(const uint64_t numbers[MOORINGEYE_REPORT_NUMBERS],
                             const uint64_t lines[MOORINGEYE_REPORT_LINES], uint64_t adding[MOORINGEYE_ADDING_NUMBERS],
                             uint64_t tally[MOORINGEYE_REPORT_LINES]);

/* The next piece. Refused: 11 a report that no archives give, or numbers that no pieces give with it, as far as they
 * tell; 16 as in a scan. */
uint8_t mooringeye_report_feed(const uint64_t numbers[MOORINGEYE_REPORT_NUMBERS],
                               const uint64_t lines[MOORINGEYE_REPORT_LINES],
                               uint64_t adding[MOORINGEYE_ADDING_NUMBERS], uint64_t tally[MOORINGEYE_REPORT_LINES],
                               const uint8_t *piece, size_t size);

/* After the last piece: what mooringeye_report_add answers for all pieces together. Refused: 11, 12 with the position,
 * 10, 17. */
uint8_t mooringeye_report_end(uint64_t numbers[MOORINGEYE_REPORT_NUMBERS], uint64_t lines[MOORINGEYE_REPORT_LINES],
                              const uint64_t adding[MOORINGEYE_ADDING_NUMBERS],
                              const uint64_t tally[MOORINGEYE_REPORT_LINES], size_t *position);

/* A line of a report. */
typedef struct mooringeye_line {
    uint64_t identity; /* the transmitter: its TXID, the first byte the highest */
    uint64_t kept;
    uint64_t loose;
    uint64_t earliest;
    uint64_t latest;
} mooringeye_line;

/* What is known of an archive that is added in pieces. */
typedef struct mooringeye_adding {
    uint64_t numbers[MOORINGEYE_ADDING_NUMBERS];
    uint64_t lines[MOORINGEYE_REPORT_LINES];
} mooringeye_adding;

static inline void mooringeye_clear_report(mooringeye_report *report) {
    mooringeye_report_empty(report->numbers, report->lines);
}

static inline uint8_t mooringeye_add_archive(mooringeye_report *report, const uint8_t *buffer, size_t size,
                                             size_t *position) {
    return mooringeye_report_add(report->numbers, report->lines, buffer, size, position);
}

static inline uint8_t mooringeye_get_line(const mooringeye_report *report, size_t index, mooringeye_line *line) {
    uint64_t five[MOORINGEYE_LINE_NUMBERS];
    uint8_t number = mooringeye_report_line(report->numbers, report->lines, index, five);
    if (number == MOORINGEYE_DONE) memcpy(line, five, sizeof five);
    return number;
}

static inline uint8_t mooringeye_get_share(const mooringeye_report *report, uint64_t received, uint64_t *thousandths) {
    return mooringeye_report_share(report->numbers, report->lines, received, thousandths);
}

/* The report that is handed to these three is the same one, and is changed by the last alone. */
static inline void mooringeye_start_adding(mooringeye_adding *adding, const mooringeye_report *report) {
    mooringeye_report_start(report->numbers, report->lines, adding->numbers, adding->lines);
}

static inline uint8_t mooringeye_feed_adding(mooringeye_adding *adding, const mooringeye_report *report,
                                             const uint8_t *piece, size_t size) {
    return mooringeye_report_feed(report->numbers, report->lines, adding->numbers, adding->lines, piece, size);
}

static inline uint8_t mooringeye_end_adding(const mooringeye_adding *adding, mooringeye_report *report,
                                            size_t *position) {
    return mooringeye_report_end(report->numbers, report->lines, adding->numbers, adding->lines, position);
}

#ifdef __cplusplus
}
#endif

#endif
