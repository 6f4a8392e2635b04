/* What users of the header had trouble with: whole answers, names of refusals, bytes that are inside the state, structs
 * for reports, scans and packers, NULL with length 0. */
#include "mooringeye.h"
#include "random.h"
#include "should.h"

#include <string.h>

static const uint8_t press[8] = {0xD5, 0x09, 1, 2, 3, 4, 0, 0xE8};

/* An answer is compared with a constant as a whole. */
static void whole_answers(void) {
    mooringeye_collector c;
    mooringeye_fresh(&c);
    SHOULD(mooringeye_take(&c, press, sizeof press, 1000) == MOORINGEYE_KEPT);
    SHOULD(mooringeye_take(&c, press, sizeof press, 1012) == MOORINGEYE_COPY);
    SHOULD(mooringeye_take(&c, press, 7, 1013) == MOORINGEYE_LENGTH);
    SHOULD(mooringeye_take(&c, press, 7, 1013) != MOORINGEYE_COPY);
    SHOULD(mooringeye_take(&c, press, sizeof press, 1011) == MOORINGEYE_LATE);
    for (uint8_t i = 0; i < 64; i++) {
        uint8_t other[8] = {0xF6, 0x50, 0, 0, 0, i, 0x30, (uint8_t)(0xF6 + 0x50 + i + 0x30)};
        uint16_t answer = mooringeye_take(&c, other, sizeof other, 1014);
        SHOULD(answer == (i < 63 ? MOORINGEYE_KEPT : MOORINGEYE_LOOSE));
    }
    mooringeye_frame record = {8, {0xD5, 0x09, 1, 2, 3, 4, 0, 0xE8}};
    mooringeye_reply reply;
    uint64_t moment = 1015;
    SHOULD(mooringeye_burst(&c, 1, &moment, &record, 1, &reply, 1) == MOORINGEYE_DONE);
    SHOULD(mooringeye_reply_answer(&reply) == MOORINGEYE_COPY && reply.kind == MOORINGEYE_KIND_COPY);
}

/* Plans and sites by their parts. */
static void parts(void) {
    mooringeye_slots plan = mooringeye_draw_slots(0, 0, 3, 1000, 7);
    SHOULD(plan.number == MOORINGEYE_DONE && plan.first == 0 && plan.second == 1 && plan.third == 27);
    SHOULD(mooringeye_plan(0, 1000, 7) == mooringeye_plan_by(0, 0, 3, 1000, 7));
    SHOULD(mooringeye_plan(0, 1000, 7) ==
           (0u << 24 | 0u << 16 | 1u << 8 | 27u)); /* as programs have read it before 1.0 */
    plan = mooringeye_draw_slots(0, 0, 3, 9001, 7);
    SHOULD(plan.number == MOORINGEYE_NO_PLAN && plan.first == 0 && plan.second == 0 && plan.third == 0);
    mooringeye_repeater site[2] = {{0, 1, {0, 0, 0x07, 0xCF}, {10, 20, 255}},
                                   {0, 1, {0, 0, 0x07, 0xCF}, {11, 22, 255}}};
    mooringeye_site_check check = mooringeye_check_site(site, 2);
    SHOULD(check.number == MOORINGEYE_OVERLAP && check.repeater == 0 && check.other == 1);
    SHOULD(mooringeye_site(site, sizeof site) == (19u << 16 | 1u));
    site[1].slots[0] = 10;
    site[1].slots[1] = 30;
    check = mooringeye_check_site(site, 2);
    SHOULD(check.number == MOORINGEYE_UNLAWFUL && check.repeater == 1 && check.other == 0);
    SHOULD(mooringeye_check_site(NULL, 0).number == MOORINGEYE_DONE);
    SHOULD(mooringeye_site(site, 1) >> 16 == MOORINGEYE_ARGUMENT);
}

static void names(void) {
    SHOULD(strcmp(mooringeye_refusal_name(0), "DONE") == 0);
    SHOULD(strcmp(mooringeye_refusal_name(MOORINGEYE_NOT_ACCEPTED), "NOT_ACCEPTED") == 0);
    SHOULD(strcmp(mooringeye_refusal_name(255), "WRONG_SIZE") == 0);
    SHOULD(strcmp(mooringeye_refusal_name(20), "UNKNOWN") == 0);
    SHOULD(strcmp(mooringeye_refusal_text(7), "the clock went back") == 0);
    for (int n = 0; n < 256; n++) {
        bool is_known = n < 20 || n == 255;
        SHOULD((strcmp(mooringeye_refusal_name((uint8_t)n), "UNKNOWN") != 0) == is_known);
        SHOULD(strlen(mooringeye_refusal_text((uint8_t)n)) > 3);
    }
}

static void versions(void) {
    SHOULD(mooringeye_version() == MOORINGEYE_VERSION && mooringeye_is_compatible());
    char text[32];
    snprintf(text, sizeof text, "%d.%d.%d", MOORINGEYE_VERSION_MAJOR, MOORINGEYE_VERSION_MINOR,
             MOORINGEYE_VERSION_PATCH);
    SHOULD(strcmp(text, MOORINGEYE_VERSION_TEXT) == 0);
}

/* Receptions whose bytes are inside the collector that takes them get the answers that copies of these bytes get. */
static void overlaps(void) {
    mooringeye_collector c, same;
    uint64_t time = 0;
    mooringeye_fresh(&c);
    for (int i = 0; i < 200000; i++) {
        uint8_t own[40];
        const uint8_t *in = (const uint8_t *)&c;
        size_t at = choose(3) == 0 ? choose(sizeof c - 40) : offsetof(mooringeye_collector, bytes) + 21 * choose(60);
        size_t length = choose(4) == 0 ? choose(40) : 8 + choose(5);
        if (choose(4) == 0) {
            uint8_t fresh[8] = {0xF6, 0x50, 0, 0, 0, (uint8_t)choose(90), 0x30, 0};
            for (int k = 0; k < 7; k++) fresh[7] = (uint8_t)(fresh[7] + fresh[k]);
            mooringeye_take(&c, fresh, sizeof fresh, time);
        }
        memcpy(own, in + at, length);
        memcpy(&same, &c, sizeof c);
        time += choose(30);
        uint16_t answer = mooringeye_take(&same, own, length, time);
        SHOULD(mooringeye_take(&c, in + at, length, time) == answer);
        SHOULD(memcmp(&c, &same, sizeof c) == 0);
    }
}

/* For an accepted state, the call that does not test it leaves what the one that tests leaves, byte for byte. */
static void tested_states(void) {
    mooringeye_collector c, same;
    uint64_t time = 0;
    mooringeye_fresh(&c);
    memcpy(&same, &c, sizeof c);
    for (int i = 0; i < 200000; i++) {
        uint8_t one[8] = {0xF6, 0x50, 0, 0, 0, (uint8_t)choose(90), (uint8_t)choose(3), 0};
        for (int k = 0; k < 7; k++) one[7] = (uint8_t)(one[7] + one[k]);
        if (choose(9) == 0) one[choose(8)] = (uint8_t)choose(256);
        time = choose(20) == 0 && time > 50 ? time - choose(50) : time + choose(9);
        size_t length = choose(30) == 0 ? choose(30) : sizeof one;
        uint8_t heard[30] = {0};
        memcpy(heard, one, sizeof one);
        uint16_t answer = mooringeye_take(&c, heard, length, time);
        SHOULD(mooringeye_take_tested(&same, heard, length, time) == answer);
        SHOULD(memcmp(&c, &same, sizeof c) == 0);
    }
}

/* For a state that is not accepted, here with an entry that is no longer open, a refused reception is counted, and the
 * entries are unchanged; more entries than there can be are refused with 11. */
static void untested_states(void) {
    mooringeye_collector c, before;
    mooringeye_fresh(&c);
    SHOULD(mooringeye_take(&c, press, sizeof press, 1000) == MOORINGEYE_KEPT);
    c.times[0] = 1;
    memcpy(&before, &c, sizeof c);
    SHOULD(mooringeye_take(&c, press, sizeof press, 999) == MOORINGEYE_NOT_ACCEPTED);
    SHOULD(memcmp(&c, &before, sizeof c) == 0);
    SHOULD(mooringeye_take_tested(&c, press, sizeof press, 999) == MOORINGEYE_LATE);
    before.numbers[2]++;
    before.numbers[7]++;
    SHOULD(memcmp(&c, &before, sizeof c) == 0);
    c.numbers[0] = 65;
    memcpy(&before, &c, sizeof c);
    SHOULD(mooringeye_take_tested(&c, press, sizeof press, 1001) == MOORINGEYE_NOT_ACCEPTED);
    SHOULD(memcmp(&c, &before, sizeof c) == 0);
}

/* Length 0 with NULL, as with an empty std::vector. Long bytes are only counted. */
static void nothing(void) {
    mooringeye_collector c;
    static uint8_t zeros[1 << 16];
    size_t rows = 7, position = 7, dropped = 7;
    mooringeye_fresh(&c);
    SHOULD(mooringeye_take(&c, NULL, 0, 1000) == MOORINGEYE_LENGTH);
    SHOULD(mooringeye_take(&c, zeros, 22, 1000) == MOORINGEYE_LENGTH);
    SHOULD(mooringeye_take(&c, zeros, sizeof zeros, 1000) == MOORINGEYE_LENGTH);
    SHOULD(mooringeye_burst(&c, 0, NULL, NULL, 0, NULL, 0) == MOORINGEYE_DONE);
    SHOULD(mooringeye_crc8(NULL, 0) == 0 && mooringeye_check(NULL, 0) == MOORINGEYE_LENGTH);
    SHOULD(mooringeye_archive_verify(NULL, 0, &rows, &position) == MOORINGEYE_DONE && rows == 0);
    SHOULD(mooringeye_archive_salvage(NULL, 0, NULL, 0, NULL, 0, &dropped, &rows) == MOORINGEYE_DONE && dropped == 0);
}

/* A report, a scan and a packer as structs. */
static void structs(void) {
    static uint8_t archive[3 * MOORINGEYE_BLOCK], packed[3 * MOORINGEYE_BLOCK];
    size_t position = 0, rows = 0, dropped = 0, length = 0;
    uint64_t positions[3], share = 0;
    for (size_t i = 0; i < 20; i++) {
        SHOULD(mooringeye_archive_append_at(archive, sizeof archive, i, press, sizeof press, i, i % 2, &position) == 0);
    }
    mooringeye_scan scan;
    mooringeye_packer packer;
    static mooringeye_report report;
    static mooringeye_adding adding;
    mooringeye_line line;
    mooringeye_start_scan(&scan);
    mooringeye_start_packer(&packer);
    mooringeye_clear_report(&report);
    mooringeye_start_adding(&adding, &report);
    size_t written = 0;
    for (size_t at = 0; at < sizeof archive; at += MOORINGEYE_BLOCK) {
        SHOULD(mooringeye_feed_scan(&scan, archive + at, MOORINGEYE_BLOCK) == MOORINGEYE_DONE);
        SHOULD(mooringeye_feed_adding(&adding, &report, archive + at, MOORINGEYE_BLOCK) == MOORINGEYE_DONE);
        SHOULD(mooringeye_feed_packer(&packer, archive + at, MOORINGEYE_BLOCK, NULL, 0, packed + written,
                                      sizeof packed - written, positions, 3, &dropped) == MOORINGEYE_DONE);
        written = (size_t)packer.numbers[1] * MOORINGEYE_BLOCK;
    }
    SHOULD(mooringeye_end_scan(&scan, &rows, &position) == MOORINGEYE_DONE && rows == 20);
    SHOULD(mooringeye_end_packer(&packer, packed + written, sizeof packed - written, &length) == MOORINGEYE_DONE);
    SHOULD(length == MOORINGEYE_BLOCK && memcmp(packed, archive, sizeof archive) == 0);
    SHOULD(mooringeye_end_adding(&adding, &report, &position) == MOORINGEYE_DONE);
    SHOULD(mooringeye_add_archive(&report, archive, sizeof archive, &position) == MOORINGEYE_DONE);
    SHOULD(mooringeye_get_line(&report, 0, &line) == MOORINGEYE_DONE && line.kept == 20 && line.loose == 20);
    SHOULD(line.identity == 0x01020304 && line.earliest == 0 && line.latest == 19);
    SHOULD(mooringeye_get_line(&report, 1, &line) == MOORINGEYE_ARGUMENT && line.kept == 20);
    SHOULD(mooringeye_get_share(&report, 80, &share) == MOORINGEYE_DONE && share == 500);
}

/* Rows in a format, and what closes, by the struct. */
static void formats(void) {
    static const char text[] = "1000 D5090102030400E8\n1012 D5090102030401E9\nx\n1101 D5090102030400E8\n";
    static const char csv[] = "1000,KEPT,,D5090102030400E8,,01020304,D5,0\n1012,COPY,,D5090102030401E9,,01020304,D5,1\n"
                              ",BAD,,,,,,\n1101,KEPT,,D5090102030400E8,,01020304,D5,0\n";
    mooringeye_collector c;
    uint8_t out[4 * MOORINGEYE_LONGEST_ROW_AS];
    uint64_t moments[4], done[MOORINGEYE_LINES_AS_DONE];
    mooringeye_row rows[4];
    mooringeye_closing closed[MOORINGEYE_CAPACITY + 4];
    mooringeye_fresh(&c);
    SHOULD(mooringeye_lines_as(&c, 0, MOORINGEYE_FORMAT_CSV, (const uint8_t *)text, sizeof text - 1, 9, out, sizeof out,
                               moments, rows, 4, closed, MOORINGEYE_CAPACITY + 4, done) == MOORINGEYE_DONE);
    SHOULD(done[0] == sizeof text - 1 && done[1] == sizeof csv - 1 && memcmp(out, csv, sizeof csv - 1) == 0);
    SHOULD(done[2] == 2 && moments[0] == 1000 && moments[1] == 1101 && done[3] == 4 && done[4] == 1);
    SHOULD(mooringeye_closing_opened(&closed[0]) == 1000 && mooringeye_closing_copies(&closed[0]) == 1);
    SHOULD(closed[0].frame.length == 8 && memcmp(closed[0].frame.bytes, press, 8) == 0);
    SHOULD(mooringeye_lines_as(&c, 0, MOORINGEYE_FORMAT_JSON, (const uint8_t *)"2000 \n", 6, 9, out, sizeof out,
                               moments, rows, 4, NULL, 0, done) == MOORINGEYE_DONE);
    SHOULD(done[3] == 1 && done[4] == 0 &&
           strncmp((const char *)out, "{\"time\":2000,\"answer\":\"REFUSED\"", 31) == 0);
    SHOULD(mooringeye_lines_as(&c, 0, 3, NULL, 0, 9, out, sizeof out, moments, rows, 4, NULL, 0, done) ==
           MOORINGEYE_ARGUMENT);
    SHOULD(strlen(MOORINGEYE_CSV_HEADING) == 50);
    uint8_t bytes[MOORINGEYE_LINE_BYTES];
    SHOULD(mooringeye_read_line((const uint8_t *)"7 D509\nx", 8, bytes, done) == 0);
    SHOULD(done[0] == 7 && done[1] == 2 && done[2] == 7 && bytes[0] == 0xD5 && bytes[1] == 9 && bytes[63] == 0);
    SHOULD(mooringeye_read_line((const uint8_t *)"x\n", 2, bytes, done) == 3 && done[2] == 2 && bytes[0] == 0);
    SHOULD(mooringeye_read_line(NULL, 0, bytes, done) == 4 && done[2] == 0);
}

int main(void) {
    whole_answers();
    formats();
    parts();
    names();
    versions();
    overlaps();
    tested_states();
    untested_states();
    nothing();
    structs();
    return EXIT_SUCCESS;
}
