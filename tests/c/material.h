/* Contents for the calls of lent.h. States are those that earlier calls left, so calls are accepted; there are also
 * damaged ones, zeros and random ones. A parameter is known by its name; an unknown one gets random bytes. */
#ifndef MATERIAL_H
#define MATERIAL_H

enum {
    BLOCKS = 8,
    ARCHIVE = BLOCKS * MOORINGEYE_BLOCK,
    REPORTS = 3 /* one that grows, one of 256 transmitters, one of 64 archives */
};

enum spoil {
    AS_IT_IS,
    ONE_BYTE, /* turned over, of some parameters */
    ZEROS,
    RANDOM
};

static mooringeye_collector collector;
static mooringeye_report reports[REPORTS];
static mooringeye_adding addings[REPORTS];
static mooringeye_scan scanned;
static mooringeye_packer packing;
static uint64_t running[MOORINGEYE_RUN_NUMBERS];
static size_t judged; /* how many rows of a block are counted */
static uint8_t archive[ARCHIVE];
static size_t archive_rows;

/* The values of this call. */
static enum spoil spoil;
static mooringeye_collector state;
static size_t report;
static uint8_t telegram[MOORINGEYE_MAX_TELEGRAM];
static size_t telegram_length;
static uint8_t erp2[256];
static size_t erp2_length;

static bool is(const char *a, const char *b) {
    return strcmp(a, b) == 0;
}

static bool starts_with(const char *text, const char *start) {
    return strncmp(text, start, strlen(start)) == 0;
}

static uint64_t any_number(void) {
    uint64_t n = (uint64_t)choose(65536) << 48 | (uint64_t)choose(65536) << 32 | choose(65536) << 16 | choose(65536);
    return n >> choose(64);
}

static void any_bytes(uint8_t *at, size_t size) {
    for (size_t i = 0; i < size; i++) at[i] = (uint8_t)choose(256);
}

/* A telegram of one of fifty transmitters, usually valid. */
static size_t make_telegram(uint8_t *out) {
    mooringeye_fields f = {0};
    size_t length = 0;
    f.rorg = once_in(20) ? 0xA6 : (uint8_t)(0xD0 + choose(4));
    f.length = (uint8_t)(1 + choose(once_in(3) ? 14 : 3));
    f.addressed = once_in(4);
    f.status = (uint8_t)(choose(3) + (once_in(2) ? 0x80 : 0));
    f.txid[2] = once_in(8) ? 4 : 0;
    f.txid[3] = (uint8_t)choose(40);
    for (size_t i = 0; i < f.length; i++) f.data[i] = (uint8_t)choose(3);
    if (mooringeye_build(&f, sizeof f, out, MOORINGEYE_MAX_TELEGRAM, &length) != MOORINGEYE_DONE) length = choose(22);
    if (length > 0 && once_in(5)) out[choose((uint32_t)length)] ^= (uint8_t)(1 + choose(255));
    if (once_in(30) && length >= 8) { /* nested, and the sum is right */
        out[0] = out[1] = 0xA6;
        out[length - 2] = 0;
        out[length - 1] = 0;
        for (size_t i = 0; i + 1 < length; i++) out[length - 1] = (uint8_t)(out[length - 1] + out[i]);
    }
    return once_in(20) ? choose(22) : length;
}

static size_t make_erp2(uint8_t *out) {
    size_t length = 1 + (once_in(2) ? choose(7) : choose(60));
    any_bytes(out, length + 1);
    out[0] = (uint8_t)(length + (once_in(10) ? 1 : 0));
    if (length > 6) {
        out[1] = (uint8_t)(choose(4) << 5 | choose(16) | (once_in(4) ? 16 : 0) | (once_in(8) ? 128 : 0));
        out[length] = once_in(8) ? 0 : mooringeye_crc8(out + 1, length - 1);
    }
    return length + 1;
}

static void make_row(mooringeye_row *row) {
    row->loose = (uint8_t)choose(3);
    any_bytes(row->frame.bytes, sizeof row->frame.bytes);
    row->frame.length = (uint8_t)make_telegram(row->frame.bytes);
    if (once_in(40)) row->frame.length = (uint8_t)choose(256);
}

/* An archive of some rows, and the states made from it. */
static void make_archive(size_t rows) {
    memset(archive, 0, sizeof archive);
    archive_rows = 0;
    while (archive_rows < rows) {
        size_t position = 0;
        uint8_t number = mooringeye_archive_append_at(archive, sizeof archive, archive_rows, telegram,
                                                      make_telegram(telegram), choose(100000), once_in(3), &position);
        if (number == MOORINGEYE_DONE) archive_rows++;
        if (number == MOORINGEYE_SHORT_OUTPUT) break;
    }
}

static void make_reports(void) {
    static uint8_t many[18 * MOORINGEYE_BLOCK];
    mooringeye_fields f = {0xF6, 1, 0, 0x30, {0}, {0}, {0x50}};
    uint8_t bytes[MOORINGEYE_MAX_TELEGRAM];
    size_t length = 0, position = 0;
    for (size_t i = 0; i < 256; i++) {
        f.txid[3] = (uint8_t)i;
        mooringeye_build(&f, sizeof f, bytes, sizeof bytes, &length);
        mooringeye_archive_append_at(many, sizeof many, i, bytes, length, i, false, &position);
    }
    for (size_t i = 0; i < REPORTS; i++) mooringeye_clear_report(&reports[i]);
    mooringeye_add_archive(&reports[1], many, sizeof many, &position);
    for (size_t i = 0; i < 64; i++) mooringeye_add_archive(&reports[2], NULL, 0, &position);
    for (size_t i = 0; i < REPORTS; i++) mooringeye_start_adding(&addings[i], &reports[i]);
}

static void start_states(void) {
    mooringeye_fresh(&collector);
    make_reports();
}

/* Sometimes starts again: a collector, an archive, reports, a scan and a packer. */
static void start_over(void) {
    if (once_in(300)) mooringeye_fresh(&collector);
    if (once_in(200)) make_archive(choose(140));
    if (once_in(300)) make_reports();
    if (once_in(20)) mooringeye_start_scan(&scanned);
    if (once_in(20)) mooringeye_start_packer(&packing);
    if (once_in(20)) memset(running, 0, sizeof running), running[0] = once_in(2) ? 1 + choose(4) : (uint64_t)1 << 32;
    judged = choose(17);
    if (once_in(20)) mooringeye_start_adding(&addings[report], &reports[report]);
}

static void start_material(const struct export *e) {
    (void)e;
    uint32_t how = choose(16);
    spoil = how < 11 ? AS_IT_IS : how < 14 ? ONE_BYTE : how < 15 ? ZEROS : RANDOM;
    report = once_in(2) ? 0 : choose(REPORTS);
    start_over();
    telegram_length = make_telegram(telegram);
    erp2_length = make_erp2(erp2);
    state = collector;
    if (once_in(25)) { /* as many receptions as can be counted; the rest of them are damaged */
        uint64_t *n = state.numbers;
        n[6] += UINT64_MAX - n[2];
        n[2] = UINT64_MAX;
    }
}

/* ---- numbers and lengths */

static uint64_t time_now(void) {
    return once_in(40) ? any_number() : collector.numbers[1] + choose(30) - (collector.numbers[1] > 2 ? choose(3) : 0);
}

static uint64_t number_of(const struct export *e, size_t i) {
    const struct parameter *p = &e->parameters[i];
    uint64_t most = p->width == 8 ? UINT64_MAX : ((uint64_t)1 << 8 * p->width) - 1;
    static const uint32_t durations[] = {0, 1, 700, 1999, 2000, 9001, 65535, 65536};
    if (is(p->name, "loose")) return choose(2);
    if (once_in(20)) return any_number() & most;
    if (is(p->name, "setting") || is(p->name, "level") || is(p->name, "rule")) return choose(4);
    if (is(p->name, "format")) return choose(4);
    if (is(p->name, "transmissions")) return 1 + choose(3);
    if (is(p->name, "duration")) return durations[choose(8)];
    if (is(p->name, "time")) return time_now();
    if (is(p->name, "index")) return choose(20);
    if (is(p->name, "rows") && is(e->name, "mooringeye_archive_cut_block")) return choose(17);
    if (is(p->name, "rows") && is(e->name, "mooringeye_journal_judge")) return judged;
    if (is(p->name, "rows")) return once_in(6) ? choose(150) : archive_rows;
    if (is(p->name, "received")) return choose(400);
    return any_number() & most;
}

/* A length that is usually right. */
static size_t about(size_t right) {
    if (!once_in(8)) return right;
    return once_in(2) ? choose((uint32_t)right + 40) : right + choose(3) - (right > 0 ? 1 : 0);
}

static size_t fixed_size(const char *export) {
    return is(export, "mooringeye_erp2_read") || is(export, "mooringeye_erp2_build") ? sizeof(mooringeye_erp2)
                                                                                     : sizeof(mooringeye_fields);
}

static size_t out_size(const struct export *e, size_t i) {
    if (starts_with(e->name, "mooringeye_erp2")) return about(once_in(2) ? 256 : 30);
    if (is(e->name, "mooringeye_collector_checkpoint")) return about(MOORINGEYE_IMAGE);
    if (is(e->name, "mooringeye_collector_lines")) return choose(600);
    if (is(e->name, "mooringeye_collector_lines_as")) return choose(2000);
    if (is(e->name, "mooringeye_pack_end")) return about(MOORINGEYE_BLOCK);
    if (is(e->name, "mooringeye_archive_salvage")) return about(sizes[0]);
    if (is(e->name, "mooringeye_pack_feed")) return about(sizes[2]);
    (void)i;
    return once_in(2) ? MOORINGEYE_MAX_TELEGRAM : choose(30);
}

/* The elements of a slice. */
static size_t length_of(const struct export *e, size_t i) {
    const char *name = e->parameters[i].name;
    if (is(name, "out")) return out_size(e, i);
    if (is(e->name, "mooringeye_erp2_read") && is(name, "bytes")) return about(erp2_length);
    if (is(name, "buffer")) return once_in(4) ? about(choose(BLOCKS) * MOORINGEYE_BLOCK) : ARCHIVE;
    if (is(name, "block") || is(name, "last")) return about(MOORINGEYE_BLOCK);
    if (is(e->name, "mooringeye_state_accept")) return about(once_in(4) ? 3584 : MOORINGEYE_STATE);
    if (is(name, "left")) return about(sizes[i - 2] / 8 * sizeof(mooringeye_row));
    if (is(name, "piece")) return about(choose(4) * MOORINGEYE_BLOCK);
    if (is(name, "image")) return about(MOORINGEYE_IMAGE);
    if (is(name, "fields")) return about(fixed_size(e->name));
    if (is(name, "sent")) return about(sizeof(mooringeye_frame));
    if (is(name, "row")) return about(sizeof(mooringeye_row));
    if (is(name, "moments")) return once_in(10) ? 250 + choose(10) : choose(5);
    if (is(name, "times")) return choose(18);
    if (is(name, "input")) return choose(400);
    if (is(name, "closed")) return once_in(3) ? 0 : choose(2 * MOORINGEYE_CAPACITY * sizeof(mooringeye_closing));
    if (is(name, "rows")) return about(sizes[i - 2] / 8 * sizeof(mooringeye_row));
    if (is(name, "records")) return about(sizes[i - 2] / 8 * (is(e->parameters[i - 2].name, "moments") ? 22 : 23));
    if (is(name, "replies")) return about(sizes[i - 4] / 8 * sizeof(mooringeye_reply));
    if (is(name, "positions")) return choose(BLOCKS + 1);
    if (is(name, "identities")) return once_in(6) ? 30 + choose(5) : choose(4);
    if (is(name, "repeaters")) return about(sizeof(mooringeye_repeater) * (once_in(10) ? 30 + choose(5) : choose(4)));
    return about(telegram_length);
}

/* ---- contents */

/* The address of the current value of an array; NULL for one that no state has. */
static const void *live(const struct export *e, const struct parameter *p) {
    if (p->kind != ARRAY) return NULL;
    if (starts_with(e->name, "mooringeye_collector_")) {
        if (is(p->name, "times")) return state.times;
        if (is(p->name, "lengths")) return state.lengths;
        if (is(p->name, "bytes")) return state.bytes;
        if (is(p->name, "copies")) return state.copies;
        if (is(p->name, "numbers")) return state.numbers;
    }
    if (starts_with(e->name, "mooringeye_report_")) {
        if (is(p->name, "numbers")) return reports[report].numbers;
        if (is(p->name, "lines")) return reports[report].lines;
        if (is(p->name, "adding")) return addings[report].numbers;
        if (is(p->name, "tally")) return addings[report].lines;
    }
    if (starts_with(e->name, "mooringeye_scan_") && is(p->name, "numbers")) return scanned.numbers;
    if (is(e->name, "mooringeye_journal_scan")) return running;
    if (starts_with(e->name, "mooringeye_pack_")) {
        if (is(p->name, "numbers")) return packing.numbers;
        if (is(p->name, "waiting")) return packing.waiting;
    }
    return NULL;
}

static void fill_blocks(const struct export *e, const char *name, uint8_t *at, size_t size) {
    size_t from = 0;
    if (is(name, "block"))
        from = archive_rows / 15 - (is(e->name, "mooringeye_archive_cut_block") && archive_rows > 14);
    if (is(name, "piece")) {
        bool reports_it = starts_with(e->name, "mooringeye_report_");
        from = (size_t)(reports_it ? addings[report].numbers[0] : scanned.numbers[0]);
        if (is(e->name, "mooringeye_journal_scan")) from = (size_t)running[2];
    }
    memset(at, 0, size);
    if (from >= BLOCKS) return;
    size_t there = ARCHIVE - from * MOORINGEYE_BLOCK;
    memcpy(at, archive + from * MOORINGEYE_BLOCK, size < there ? size : there);
}

static void fill_repeaters(uint8_t *at, size_t size) {
    for (size_t i = 0; i + sizeof(mooringeye_repeater) <= size; i += sizeof(mooringeye_repeater)) {
        uint8_t rule = (uint8_t)choose(3), level = (uint8_t)choose(3);
        uint32_t duration = 1 + choose(1500);
        mooringeye_slots plan = mooringeye_draw_slots(rule, level, (uint8_t)(2 + choose(2)), duration, choose(1000));
        at[i] = rule;
        at[i + 1] = level;
        at[i + 2] = at[i + 3] = 0;
        at[i + 4] = (uint8_t)(duration / 256);
        at[i + 5] = (uint8_t)duration;
        at[i + 6] = plan.first;
        at[i + 7] = plan.second;
        at[i + 8] = plan.third;
        if (once_in(30)) at[i + choose(9)] ^= 1;
    }
}

static void fill_records(bool are_rows, uint8_t *at, size_t size) {
    size_t each = are_rows ? sizeof(mooringeye_row) : sizeof(mooringeye_frame);
    for (size_t i = 0; i + each <= size; i += each) {
        mooringeye_row row;
        if (once_in(3)) {
            make_row(&row);
        } else {
            row = (mooringeye_row){0, {8, {0xD5, 0x09, 1, 2, 3, 4, 0, 0xE8}}};
        }
        memcpy(at + i, are_rows ? (void *)&row : (void *)&row.frame, each);
    }
}

static void fill_fields(const struct export *e, uint8_t *at, size_t size) {
    uint8_t bytes[sizeof(mooringeye_erp2)] = {0};
    uint64_t originator;
    uint32_t destination;
    if (is(e->name, "mooringeye_erp2_build")) {
        mooringeye_erp2_read(erp2, erp2_length, (mooringeye_erp2 *)(void *)bytes, sizeof(mooringeye_erp2), &originator,
                             &destination);
        if (once_in(3)) bytes[choose(11)] ^= (uint8_t)(1 << choose(8));
        if (once_in(8)) bytes[1] = (uint8_t)(4 + choose(4));
    } else {
        mooringeye_read(telegram, telegram_length, (mooringeye_fields *)(void *)bytes, sizeof(mooringeye_fields));
        if (once_in(3)) bytes[choose(4)] = (uint8_t)choose(20);
    }
    memcpy(at, bytes, size < sizeof bytes ? size : sizeof bytes);
}

static void fill_numbers(const char *name, uint8_t *at, size_t size) {
    uint64_t time = time_now();
    for (size_t i = 0; i + 8 <= size; i += 8) {
        memcpy(at + i, &time, 8);
        time += is(name, "moments") && once_in(30) ? (uint64_t)0 - 5 : choose(20);
    }
}

/* Lines of a time and a telegram, and others; as many as there is room for. */
static void fill_text(uint8_t *at, size_t size) {
    size_t n = 0;
    uint64_t time = time_now();
    while (n < size) {
        char line[100];
        int length = snprintf(line, sizeof line, once_in(10) ? "level %" PRIu64 : "%" PRIu64 " ", time);
        size_t bytes = make_telegram(telegram);
        for (size_t i = 0; i < bytes; i++) length += snprintf(line + length, 3, "%02X", telegram[i]);
        line[length++] = once_in(20) ? 'x' : '\n';
        time += choose(20);
        for (int i = 0; i < length && n < size; i++) at[n++] = (uint8_t)line[i];
    }
}

/* A state without an archive, or the file of one; for a block, the copy in a state that counts some of its rows. */
static void fill_journal(const struct export *e, const char *name, uint8_t *at, size_t size) {
    static const uint64_t numbers[MOORINGEYE_STATE_NUMBERS];
    static const uint8_t name_of[MOORINGEYE_STATE_NAME], last[MOORINGEYE_BLOCK], tail[MOORINGEYE_STATE_TAIL];
    uint8_t image[MOORINGEYE_IMAGE], file[MOORINGEYE_STATE];
    memset(at, 0, size);
    if (is(name, "bytes")) {
        mooringeye_checkpoint(&collector, image, sizeof image);
        mooringeye_state_write(numbers, name_of, last, image, tail, file);
        memcpy(at, file, size < sizeof file ? size : sizeof file);
    } else if (is(e->name, "mooringeye_journal_judge")) {
        fill_blocks(e, "block", at, size);
        mooringeye_archive_cut_block(at, size, judged);
    }
}

static void fill_known(const struct export *e, const char *name, uint8_t *at, size_t size) {
    if (is(name, "buffer") || is(name, "block") || is(name, "piece")) {
        fill_blocks(e, name, at, size);
    } else if (is(name, "last") || (starts_with(e->name, "mooringeye_state_") && !is(name, "image"))) {
        fill_journal(e, name, at, size);
    } else if (is(name, "left")) {
        fill_records(true, at, size);
    } else if (is(name, "image")) {
        uint8_t image[MOORINGEYE_IMAGE];
        mooringeye_checkpoint(&collector, image, sizeof image);
        memcpy(at, image, size < sizeof image ? size : sizeof image);
    } else if (is(name, "fields")) {
        fill_fields(e, at, size);
    } else if (is(name, "records")) {
        fill_records(is(e->name, "mooringeye_archive_put_rows"), at, size);
    } else if (is(name, "moments") || is(name, "times")) {
        fill_numbers(name, at, size);
    } else if (is(name, "repeaters")) {
        fill_repeaters(at, size);
    } else if (is(name, "input")) {
        fill_text(at, size);
    } else if (is(name, "identities")) {
        for (size_t i = 0; i < size; i += 4) memset(at + i + 1, 0, 3), at[i] = (uint8_t)choose(40);
    } else if (is(e->name, "mooringeye_erp2_read") && is(name, "bytes")) {
        memcpy(at, erp2, size < erp2_length ? size : erp2_length);
    } else if (is(name, "bytes") || is(name, "received") || is(name, "a") || is(name, "b")) {
        memcpy(at, telegram, size < telegram_length ? size : telegram_length);
    }
}

static void fill(const struct export *e, size_t i, uint8_t *at, size_t size) {
    const struct parameter *p = &e->parameters[i];
    const void *from = live(e, p);
    any_bytes(at, size < 64 ? size : 64);
    if (from != NULL) {
        memcpy(at, from, size);
    } else {
        fill_known(e, p->name, at, size);
    }
    if (spoil == ONE_BYTE && size > 0 && once_in(3)) at[choose((uint32_t)size)] ^= (uint8_t)(1 << choose(8));
    if (spoil == ZEROS && from != NULL) memset(at, 0, size);
    if (spoil == RANDOM && once_in(2)) any_bytes(at, size < 256 ? size : 256);
}

/* ---- what a call left */

static void keep_archive(const uint8_t *buffer, size_t size) {
    size_t rows = 0, position = 0;
    if (size != ARCHIVE || mooringeye_archive_verify(buffer, size, &rows, &position) != MOORINGEYE_DONE) return;
    memcpy(archive, buffer, ARCHIVE);
    archive_rows = rows;
}

static void keep_material(const struct export *e, uint8_t number) {
    static uint8_t *arrays[5]; /* of a collector, in the order of a call */
    uint64_t totals[MOORINGEYE_TOTALS];
    for (size_t i = 0; i < 5; i++) arrays[i] = rooms[i] + starts[i];
    if (spoil != AS_IT_IS) return;
    if (starts_with(e->name, "mooringeye_collector_") && state.numbers[2] != UINT64_MAX) {
        memcpy(collector.times, arrays[0], sizeof collector.times);
        memcpy(collector.lengths, arrays[1], sizeof collector.lengths);
        memcpy(collector.bytes, arrays[2], sizeof collector.bytes);
        memcpy(collector.copies, arrays[3], sizeof collector.copies);
        memcpy(collector.numbers, arrays[4], sizeof collector.numbers);
        if (mooringeye_totals(&collector, totals) != MOORINGEYE_DONE) wrong(e, number, "a state that is not accepted");
        if (collector.numbers[1] > UINT64_MAX / 2) mooringeye_fresh(&collector);
    }
    if (number != MOORINGEYE_DONE) return;
    if (is(e->name, "mooringeye_scan_feed")) memcpy(scanned.numbers, arrays[0], sizeof scanned.numbers);
    if (is(e->name, "mooringeye_journal_scan")) memcpy(running, arrays[0], sizeof running);
    if (is(e->name, "mooringeye_pack_feed")) {
        memcpy(packing.numbers, arrays[0], sizeof packing.numbers);
        memcpy(packing.waiting, arrays[1], sizeof packing.waiting);
    }
    if (is(e->name, "mooringeye_report_feed")) {
        memcpy(addings[report].numbers, arrays[2], sizeof addings[report].numbers);
        memcpy(addings[report].lines, arrays[3], sizeof addings[report].lines);
    }
    if (is(e->name, "mooringeye_report_add") || is(e->name, "mooringeye_report_end")) {
        memcpy(reports[report].numbers, arrays[0], sizeof reports[report].numbers);
        memcpy(reports[report].lines, arrays[1], sizeof reports[report].lines);
    }
    if (starts_with(e->name, "mooringeye_archive_") && is(e->parameters[0].name, "buffer")) {
        keep_archive(arrays[0], sizes[0]);
    }
}

#endif
