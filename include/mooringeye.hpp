// Mooringeye for C++17: types over mooringeye.h that start as they should, and an exception for what is refused.
//
// A type holds its memory by value and frees nothing: it may be copied, moved and kept anywhere. What mooringeye.h says
// of a function holds of the member that calls it. Bytes and lists are lent as a `view`, which any array, std::vector
// or std::string of the right numbers gives; an empty one is fine.
#ifndef MOORINGEYE_HPP
#define MOORINGEYE_HPP

#include "mooringeye.h"

#include <algorithm>
#include <array>
#include <exception>
#include <iterator>
#include <optional>
#include <string>
#include <type_traits>
#include <utility>
#include <vector>

namespace mooringeye {

// What is refused: the number, and the position or place that goes with it.
class refused : public std::exception {
public:
    explicit refused(uint8_t number, size_t position = 0) : number_(number), position_(position) {}
    uint8_t number() const noexcept { return number_; }
    size_t position() const noexcept { return position_; }
    const char *name() const noexcept { return mooringeye_refusal_name(number_); }
    const char *what() const noexcept override { return mooringeye_refusal_text(number_); }

private:
    uint8_t number_;
    size_t position_;
};

inline void done(uint8_t number, size_t position = 0) {
    if (number != MOORINGEYE_DONE) throw refused(number, position);
}

// Numbers that are lent, where they lie.
template <class T> class view {
public:
    view() = default;
    view(T *data, size_t size) : data_(data), size_(size) {}
    template <class C, class = std::enable_if_t<std::is_convertible_v<decltype(std::data(std::declval<C &>())), T *>>>
    view(C &&from) : data_(std::data(from)), size_(std::size(from)) {}
    T *data() const noexcept { return data_; }
    size_t size() const noexcept { return size_; }

private:
    T *data_ = nullptr;
    size_t size_ = 0;
};

using bytes = view<const uint8_t>;
using buffer = view<uint8_t>;

// ---- subtelegrams

inline uint8_t crc8(bytes b) {
    return mooringeye_crc8(b.data(), b.size());
}

// The number of the check: 0 for a valid subtelegram.
inline uint8_t check(bytes b) {
    return mooringeye_check(b.data(), b.size());
}

inline bool same(bytes a, bytes b) {
    return mooringeye_same(a.data(), a.size(), b.data(), b.size());
}

inline mooringeye_fields read(bytes b) {
    mooringeye_fields fields;
    done(mooringeye_read(b.data(), b.size(), &fields, sizeof fields));
    return fields;
}

inline std::vector<uint8_t> build(const mooringeye_fields &fields) {
    std::vector<uint8_t> out(MOORINGEYE_MAX_TELEGRAM);
    size_t length = 0;
    done(mooringeye_build(&fields, sizeof fields, out.data(), out.size(), &length));
    out.resize(length);
    return out;
}

inline std::vector<uint8_t> encapsulate(bytes b, uint32_t destid) {
    std::vector<uint8_t> out(MOORINGEYE_MAX_TELEGRAM);
    size_t length = 0;
    done(mooringeye_encapsulate(b.data(), b.size(), destid, out.data(), out.size(), &length));
    out.resize(length);
    return out;
}

inline std::vector<uint8_t> decapsulate(bytes b) {
    std::vector<uint8_t> out(MOORINGEYE_MAX_TELEGRAM);
    size_t length = 0;
    done(mooringeye_decapsulate(b.data(), b.size(), out.data(), out.size(), &length));
    out.resize(length);
    return out;
}

// What a repeater sends; no bytes for nothing.
inline std::vector<uint8_t> repeat(uint8_t setting, bytes b) {
    mooringeye_frame sent;
    done(mooringeye_repeat(setting, b.data(), b.size(), &sent, sizeof sent));
    return {sent.bytes, sent.bytes + sent.length};
}

// ---- ERP2 telegrams

struct erp2_telegram {
    mooringeye_erp2 fields;
    uint64_t originator;
    uint32_t destination;
};

inline erp2_telegram erp2_read(bytes b) {
    erp2_telegram t;
    done(mooringeye_erp2_read(b.data(), b.size(), &t.fields, sizeof t.fields, &t.originator, &t.destination));
    return t;
}

inline std::vector<uint8_t> erp2_build(const erp2_telegram &t) {
    std::vector<uint8_t> out(256);
    size_t length = 0;
    done(mooringeye_erp2_build(&t.fields, sizeof t.fields, t.originator, t.destination, out.data(), out.size(),
                               &length));
    out.resize(length);
    return out;
}

// ---- slot plans

// The slots that a draw picks; 255 is no third one.
inline std::array<uint8_t, 3> plan_by(uint8_t rule, uint8_t level, uint8_t transmissions, uint32_t duration,
                                      uint64_t draw) {
    mooringeye_slots slots = mooringeye_draw_slots(rule, level, transmissions, duration, draw);
    done(slots.number);
    return {slots.first, slots.second, slots.third};
}

// The same under the standard rule, which has three transmissions at level 0 and two elsewhere.
inline std::array<uint8_t, 3> plan(uint8_t level, uint32_t duration, uint64_t draw) {
    return plan_by(0, level, level == 0 ? 3 : 2, duration, draw);
}

inline bool is_lawful(uint8_t rule, uint8_t level, uint32_t duration, const std::array<uint8_t, 3> &slots) {
    return mooringeye_is_lawful(rule, level, duration, slots[0], slots[1], slots[2]);
}

// The check of a site: the number, and the repeaters that go with it.
inline mooringeye_site_check site(view<const mooringeye_repeater> repeaters) {
    return mooringeye_check_site(repeaters.data(), repeaters.size());
}

// ---- the collector

// What a reception is: KEPT, COPY, LOOSE, or refused, which is no exception: a receiver hears damaged bytes every day.
class answer {
public:
    explicit answer(uint16_t whole) : whole_(whole) {}
    bool is_kept() const noexcept { return whole_ == MOORINGEYE_KEPT; }
    bool is_copy() const noexcept { return whole_ == MOORINGEYE_COPY; }
    bool is_loose() const noexcept { return whole_ == MOORINGEYE_LOOSE; }
    bool is_refused() const noexcept { return number() != MOORINGEYE_DONE; }
    uint8_t number() const noexcept { return mooringeye_answer_number(whole_); }
    const char *name() const noexcept {
        return is_refused() ? mooringeye_refusal_name(number()) : is_kept() ? "KEPT" : is_copy() ? "COPY" : "LOOSE";
    }

private:
    uint16_t whole_;
};

struct totals {
    uint64_t received, kept, copies, loose, damaged, late;
};

// What was taken of a text: the bytes used, the text of `collect`, the KEPT and LOOSE rows, and how many lines.
struct taken_lines {
    size_t used;
    std::string text;
    std::vector<uint64_t> moments;
    std::vector<mooringeye_row> rows;
    size_t lines;
};

// What a telegram was heard when it closed: when it was opened, its bytes as first received, and how often it was heard
// again.
struct closing {
    uint64_t opened;
    std::vector<uint8_t> telegram;
    uint16_t copies;
};

// What was taken of a text in a format: the same, with the rows in it, and what closed.
struct taken_lines_as : taken_lines {
    std::vector<closing> closings;
};

// The setting of a first line, 3 for another line and 4 for none that has ended; and its bytes.
inline std::pair<uint8_t, size_t> first_line(bytes input) {
    uint64_t used = 0;
    uint8_t setting = mooringeye_first_line(input.data(), input.size(), &used);
    return {setting, static_cast<size_t>(used)};
}

// The reception that a line says, without its newline: the time and the bytes; none for a line that is BAD.
inline std::optional<std::pair<uint64_t, std::vector<uint8_t>>> read_line(std::string line) {
    line += '\n';
    uint8_t said[MOORINGEYE_LINE_BYTES];
    uint64_t told[MOORINGEYE_LINE_READ];
    uint8_t number = mooringeye_read_line(reinterpret_cast<const uint8_t *>(line.data()), line.size(), said, told);
    if (number != 0 || told[2] != line.size()) return std::nullopt;
    return std::pair<uint64_t, std::vector<uint8_t>>(told[0], {said, said + told[1]});
}

// The bytes of whole lines at the start of a text, at most `most`, and how many they are.
inline std::pair<size_t, size_t> skip_lines(bytes input, size_t most) {
    uint64_t told[MOORINGEYE_LINES_SKIPPED];
    mooringeye_skip_lines(input.data(), input.size(), most, told);
    return {static_cast<size_t>(told[0]), static_cast<size_t>(told[1])};
}

class collector {
public:
    using image = std::array<uint8_t, MOORINGEYE_IMAGE>;

    // With no telegram open and nothing counted.
    collector() { mooringeye_fresh(&state_); }

    // As an image has it.
    explicit collector(bytes from) {
        mooringeye_fresh(&state_);
        done(mooringeye_restore(&state_, from.data(), from.size()));
    }

    // The state is not tested again: only calls of the library change it.
    answer take(bytes received, uint64_t time) {
        uint16_t whole = mooringeye_take_tested(&state_, received.data(), received.size(), time);
        if (mooringeye_answer_number(whole) == MOORINGEYE_FULL) throw refused(MOORINGEYE_FULL);
        return answer(whole);
    }

    // Up to 256 receptions, each with its moment.
    std::vector<mooringeye_reply> burst(uint8_t setting, view<const uint64_t> moments,
                                        view<const mooringeye_frame> records) {
        if (moments.size() != records.size()) throw refused(MOORINGEYE_WRONG_SIZE);
        std::vector<mooringeye_reply> replies(moments.size());
        done(mooringeye_burst(&state_, setting, moments.data(), records.data(), moments.size(), replies.data(),
                              replies.size()));
        return replies;
    }

    // Whole lines from the start of a text, at most `most`: what `collect` prints for them, and the rows.
    taken_lines lines(uint8_t setting, bytes input, size_t most) {
        size_t places = std::min(most, input.size() / 3 + 1); // what makes a row has more than three bytes
        taken_lines taken{0, std::string(places * MOORINGEYE_LONGEST_ROW, '\0'), std::vector<uint64_t>(places),
                          std::vector<mooringeye_row>(places), 0};
        uint64_t told[MOORINGEYE_LINES_DONE];
        done(mooringeye_lines(&state_, setting, input.data(), input.size(), most,
                              reinterpret_cast<uint8_t *>(taken.text.data()), taken.text.size(), taken.moments.data(),
                              taken.rows.data(), places, told));
        taken.used = static_cast<size_t>(told[0]);
        taken.text.resize(static_cast<size_t>(told[1]));
        taken.moments.resize(static_cast<size_t>(told[2]));
        taken.rows.resize(static_cast<size_t>(told[2]));
        taken.lines = static_cast<size_t>(told[3]);
        return taken;
    }

    // The same with rows in a format of mooringeye_format, and with what closes.
    taken_lines_as lines_as(uint8_t setting, uint8_t format, bytes input, size_t most) {
        size_t places = std::min(most, input.size() / 3 + 1);
        taken_lines_as taken{{0, std::string(places * MOORINGEYE_LONGEST_ROW_AS, '\0'), std::vector<uint64_t>(places),
                              std::vector<mooringeye_row>(places), 0},
                             {}};
        std::vector<mooringeye_closing> closed(places + 2 * MOORINGEYE_CAPACITY);
        uint64_t told[MOORINGEYE_LINES_AS_DONE];
        done(mooringeye_lines_as(&state_, setting, format, input.data(), input.size(), most,
                                 reinterpret_cast<uint8_t *>(taken.text.data()), taken.text.size(),
                                 taken.moments.data(), taken.rows.data(), places, closed.data(), closed.size(), told));
        taken.used = static_cast<size_t>(told[0]);
        taken.text.resize(static_cast<size_t>(told[1]));
        taken.moments.resize(static_cast<size_t>(told[2]));
        taken.rows.resize(static_cast<size_t>(told[2]));
        taken.lines = static_cast<size_t>(told[3]);
        for (size_t i = 0; i < static_cast<size_t>(told[4]); i++) {
            const uint8_t *from = closed[i].frame.bytes;
            taken.closings.push_back({mooringeye_closing_opened(&closed[i]),
                                      {from, from + closed[i].frame.length},
                                      mooringeye_closing_copies(&closed[i])});
        }
        return taken;
    }

    mooringeye::totals totals() const {
        uint64_t t[MOORINGEYE_TOTALS];
        done(mooringeye_totals(&state_, t));
        return {t[0], t[1], t[2], t[3], t[4], t[5]};
    }

    // How often an open telegram was heard again; none after the last.
    std::optional<uint64_t> copies(size_t index) const {
        uint64_t heard = 0;
        if (mooringeye_copies(&state_, index, &heard) != MOORINGEYE_DONE) return std::nullopt;
        return heard;
    }

    image checkpoint() const {
        image out;
        done(mooringeye_checkpoint(&state_, out.data(), out.size()));
        return out;
    }

private:
    mooringeye_collector state_;
};

// ---- archives

struct row {
    uint64_t time;
    bool loose;
    std::vector<uint8_t> telegram;
};

// An archive in a buffer of whole blocks that the caller keeps; its rows are counted once, when it is opened.
class archive {
public:
    explicit archive(buffer in) : buffer_(in) { count(); }
    size_t size() const noexcept { return rows_; }

    void append(uint64_t time, bool loose, bytes telegram) {
        size_t position = 0;
        uint8_t number = mooringeye_archive_append_at(buffer_.data(), buffer_.size(), rows_, telegram.data(),
                                                      telegram.size(), time, loose, &position);
        done(number, position);
        rows_++;
    }

    row at(size_t index) const {
        if (index >= rows_) throw refused(MOORINGEYE_ARGUMENT);
        mooringeye_row r;
        uint64_t time = 0;
        done(mooringeye_archive_row(buffer_.data(), buffer_.size(), index, &r, sizeof r, &time));
        return {time, r.loose != 0, {r.frame.bytes, r.frame.bytes + r.frame.length}};
    }

    // Removes the rows of up to 32 transmitters, and answers how many blocks are no longer needed.
    size_t remove(view<const uint32_t> identities) {
        size_t freed = 0, position = 0;
        uint8_t number = mooringeye_archive_remove(buffer_.data(), buffer_.size(), identities.data(), identities.size(),
                                                   &freed, &position);
        done(number, position);
        count();
        return freed;
    }

    // Leaves the first rows.
    void cut(size_t rows) {
        size_t position = 0;
        uint8_t number = mooringeye_archive_cut(buffer_.data(), buffer_.size(), rows, &position);
        done(number, position);
        rows_ = rows;
    }

private:
    void count() {
        size_t position = 0;
        uint8_t number = mooringeye_archive_verify(buffer_.data(), buffer_.size(), &rows_, &position);
        done(number, position);
    }

    buffer buffer_;
    size_t rows_ = 0;
};

// What salvage saved of a damaged archive.
struct salvaged {
    std::vector<uint8_t> archive;
    std::vector<uint64_t> dropped;
    size_t rows;
};

inline salvaged salvage(bytes damaged) {
    salvaged s{std::vector<uint8_t>(damaged.size()), std::vector<uint64_t>(damaged.size() / MOORINGEYE_BLOCK), 0};
    size_t dropped = 0;
    done(mooringeye_archive_salvage(damaged.data(), damaged.size(), s.archive.data(), s.archive.size(),
                                    s.dropped.data(), s.dropped.size(), &dropped, &s.rows));
    s.dropped.resize(dropped);
    return s;
}

// One block of an archive.
class block {
public:
    block() = default;
    explicit block(const std::array<uint8_t, MOORINGEYE_BLOCK> &from) : bytes_(from) {}
    const std::array<uint8_t, MOORINGEYE_BLOCK> &get() const noexcept { return bytes_; }

    // Puts row `n` of an archive.
    void put(size_t n, uint64_t time, bool loose, bytes telegram) {
        size_t position = 0;
        uint8_t number = mooringeye_archive_put_row(bytes_.data(), bytes_.size(), n, telegram.data(), telegram.size(),
                                                    time, loose, &position);
        done(number, position);
    }

    // Puts rows `first`, first + 1 and so on, all or none.
    void put_rows(size_t first, view<const uint64_t> times, view<const mooringeye_row> rows) {
        size_t position = 0;
        uint8_t number = mooringeye_archive_put_rows(bytes_.data(), bytes_.size(), first, times.data(), times.size(),
                                                     rows.data(), rows.size() * sizeof(mooringeye_row), &position);
        done(number, position);
    }

    void cut(size_t rows) { done(mooringeye_archive_cut_block(bytes_.data(), bytes_.size(), rows)); }

private:
    std::array<uint8_t, MOORINGEYE_BLOCK> bytes_{};
};

// An archive that is verified in pieces.
class scan {
public:
    scan() { mooringeye_start_scan(&state_); }
    void feed(bytes piece) { done(mooringeye_feed_scan(&state_, piece.data(), piece.size())); }

    // The rows of all pieces.
    size_t end() const {
        size_t rows = 0, position = 0;
        uint8_t number = mooringeye_end_scan(&state_, &rows, &position);
        done(number, position);
        return rows;
    }

private:
    mooringeye_scan state_;
};

// An archive that is packed again in pieces, without the rows of some transmitters.
class packer {
public:
    explicit packer(std::vector<uint32_t> identities = {}) : identities_(std::move(identities)) {
        mooringeye_start_packer(&state_);
    }

    // The blocks that are full after this piece; the positions in it of unsound blocks are appended to `dropped`.
    std::vector<uint8_t> feed(bytes piece, std::vector<uint64_t> *dropped = nullptr) {
        std::vector<uint8_t> out(piece.size());
        std::vector<uint64_t> positions(piece.size() / MOORINGEYE_BLOCK);
        size_t count = 0;
        uint64_t before = state_.numbers[1];
        done(mooringeye_feed_packer(&state_, piece.data(), piece.size(), identities_.data(), identities_.size(),
                                    out.data(), out.size(), positions.data(), positions.size(), &count));
        out.resize(static_cast<size_t>(state_.numbers[1] - before) * MOORINGEYE_BLOCK);
        if (dropped != nullptr) {
            dropped->insert(dropped->end(), positions.begin(), positions.begin() + static_cast<std::ptrdiff_t>(count));
        }
        return out;
    }

    // The last block, where rows wait for one; else nothing.
    std::vector<uint8_t> end() const {
        std::vector<uint8_t> out(MOORINGEYE_BLOCK);
        size_t length = 0;
        done(mooringeye_end_packer(&state_, out.data(), out.size(), &length));
        out.resize(length);
        return out;
    }

private:
    mooringeye_packer state_;
    std::vector<uint32_t> identities_;
};

// ---- reports

class report {
public:
    report() { mooringeye_clear_report(&state_); }
    uint64_t archives() const noexcept { return state_.numbers[0]; }
    size_t lines() const noexcept { return static_cast<size_t>(state_.numbers[1]); }
    uint64_t kept() const noexcept { return state_.numbers[2]; }
    uint64_t loose() const noexcept { return state_.numbers[3]; }

    void add(bytes archive) {
        size_t position = 0;
        uint8_t number = mooringeye_add_archive(&state_, archive.data(), archive.size(), &position);
        done(number, position);
    }

    mooringeye_line line(size_t index) const {
        mooringeye_line line;
        done(mooringeye_get_line(&state_, index, &line));
        return line;
    }

    // The share of its rows in receptions, in thousandths.
    uint64_t share(uint64_t received) const {
        uint64_t thousandths = 0;
        done(mooringeye_get_share(&state_, received, &thousandths));
        return thousandths;
    }

private:
    friend class adding;
    mooringeye_report state_;
};

// An archive that is added to a report in pieces; the report must outlive it, and changes at the end alone.
class adding {
public:
    explicit adding(report &to) : report_(to) { mooringeye_start_adding(&state_, &to.state_); }
    void feed(bytes piece) { done(mooringeye_feed_adding(&state_, &report_.state_, piece.data(), piece.size())); }

    void end() {
        size_t position = 0;
        uint8_t number = mooringeye_end_adding(&state_, &report_.state_, &position);
        done(number, position);
    }

private:
    report &report_;
    mooringeye_adding state_;
};

} // namespace mooringeye

#endif
