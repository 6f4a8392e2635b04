// The types of mooringeye.hpp: they return what the calls answer, and a refusal is an exception.
#include "mooringeye.hpp"
#include "should.h"

#include <cstring>
#include <string>

namespace me = mooringeye;

static const std::vector<uint8_t> press = {0xD5, 0x09, 1, 2, 3, 4, 0, 0xE8};

// The number with which something is refused; 0 for done.
template <class F> uint8_t number_of(F &&call) {
    try {
        call();
        return 0;
    } catch (const me::refused &refused) {
        SHOULD(std::strlen(refused.what()) > 0);
        return refused.number();
    }
}

static void collectors() {
    me::collector c;
    SHOULD(c.take(press, 1000).is_kept());
    SHOULD(c.take(press, 1012).is_copy() && std::string(c.take(press, 1013).name()) == "COPY");
    SHOULD(c.take(std::vector<uint8_t>(), 1013).number() == MOORINGEYE_LENGTH);
    SHOULD(c.take(press, 1).number() == MOORINGEYE_LATE);
    SHOULD(c.totals().received == 5 && c.totals().copies == 2 && c.copies(0) == 2u && !c.copies(1));
    me::collector restored(c.checkpoint());
    SHOULD(restored.totals().received == 5 && restored.checkpoint() == c.checkpoint());
    me::collector copy = restored;
    SHOULD(copy.take(press, 1020).is_copy() && restored.totals().received == 5);
    SHOULD(number_of([] { me::collector wrong(press); }) == MOORINGEYE_NOT_ACCEPTED);
    mooringeye_frame record = {8, {0xD5, 0x09, 1, 2, 3, 4, 0, 0xE8}};
    std::vector<mooringeye_reply> replies =
        c.burst(1, std::vector<uint64_t>{2000, 2001}, std::vector<mooringeye_frame>{record, record});
    SHOULD(replies.size() == 2 && replies[0].sent.length == 8 && replies[1].kind == MOORINGEYE_KIND_COPY);
    SHOULD(number_of([&] { c.burst(1, std::vector<uint64_t>{1}, {}); }) == MOORINGEYE_WRONG_SIZE);
    SHOULD(c.burst(1, {}, {}).empty());
    std::string text = "level 1\n3000 D5090102030400E8\nx\n3100 D5";
    me::bytes view(reinterpret_cast<const uint8_t *>(text.data()), text.size());
    auto [setting, used] = me::first_line(view);
    me::taken_lines taken = c.lines(setting, {view.data() + used, view.size() - used}, 100);
    SHOULD(setting == 1 && taken.text == "3000 KEPT SEND D5090102030401E9\nBAD\n" && taken.lines == 2);
    SHOULD(taken.moments == std::vector<uint64_t>{3000} && taken.rows[0].frame.length == 8 && taken.used == 24);
    SHOULD(me::skip_lines(view, 2).first == 30 && me::skip_lines(view, 2).second == 2);
    SHOULD(me::read_line("7 D509")->first == 7 &&
           me::read_line("7 D509")->second == std::vector<uint8_t>({0xD5, 0x09}));
    SHOULD(!me::read_line("7 D50") && !me::read_line("7 D5\n8 D5") && me::read_line("7 ")->second.empty());
    text = "5000 D5090102030400E8\nx\n5100 D5090102030401E9\n5101 D5090102030400E8\n";
    me::bytes more(reinterpret_cast<const uint8_t *>(text.data()), text.size());
    me::taken_lines_as as = c.lines_as(0, MOORINGEYE_FORMAT_CSV, more, 100);
    SHOULD(as.lines == 4 && as.used == text.size() &&
           as.text.substr(0, 43) == "5000,KEPT,,D5090102030400E8,,01020304,D5,0\n");
    SHOULD(as.closings.size() == 2 && as.closings[0].opened == 3000 && as.closings[1].opened == 5000);
    SHOULD(as.closings[1].copies == 1 && as.closings[1].telegram == press && as.rows.size() == 2);
    SHOULD(number_of([&] { c.lines_as(0, 3, more, 1); }) == MOORINGEYE_ARGUMENT);
}

static void telegrams() {
    SHOULD(me::crc8(std::array<uint8_t, 2>{1, 2}) == 0x1B && me::check(press) == 0);
    mooringeye_fields fields = me::read(press);
    SHOULD(fields.txid[3] == 4 && me::build(fields) == press);
    std::vector<uint8_t> addressed = me::encapsulate(press, 0xF1F2F3F4);
    SHOULD(addressed.size() == 13 && me::decapsulate(addressed) == press);
    SHOULD(me::same(me::repeat(1, press), press) && me::repeat(0, press).empty());
    SHOULD(number_of([] { me::read({}); }) == MOORINGEYE_LENGTH);
    std::vector<uint8_t> bytes = {5, 1, 2, 3, 4, 0xAA};
    SHOULD(me::erp2_read(bytes).originator == 0x01020304 && me::erp2_build(me::erp2_read(bytes)) == bytes);
    SHOULD((me::plan(0, 1000, 7) == std::array<uint8_t, 3>{0, 1, 27}) &&
           me::plan(0, 1000, 7) == me::plan_by(0, 0, 3, 1000, 7));
    SHOULD(me::site({}).number == 0);
}

static void archives() {
    std::vector<uint8_t> buffer(3 * MOORINGEYE_BLOCK);
    me::archive archive(buffer);
    for (uint64_t i = 0; i < 20; i++) archive.append(i, i % 2 == 1, press);
    SHOULD(archive.size() == 20 && archive.at(19).time == 19 && archive.at(19).loose &&
           archive.at(3).telegram == press);
    SHOULD(number_of([&] { archive.at(20); }) == MOORINGEYE_ARGUMENT);
    me::scan scan;
    me::packer packer;
    me::report report;
    me::adding adding(report);
    std::vector<uint8_t> packed;
    for (size_t at = 0; at < buffer.size(); at += MOORINGEYE_BLOCK) {
        me::bytes piece(buffer.data() + at, MOORINGEYE_BLOCK);
        scan.feed(piece);
        adding.feed(piece);
        std::vector<uint8_t> blocks = packer.feed(piece);
        packed.insert(packed.end(), blocks.begin(), blocks.end());
    }
    std::vector<uint8_t> last = packer.end();
    packed.insert(packed.end(), last.begin(), last.end());
    adding.end();
    SHOULD(scan.end() == 20 && std::memcmp(packed.data(), buffer.data(), packed.size()) == 0 && packed.size() == 1024);
    report.add(buffer);
    SHOULD(report.archives() == 2 && report.kept() == 20 && report.lines() == 1 && report.share(40) == 1000);
    SHOULD(report.line(0).identity == 0x01020304 && number_of([&] { report.line(1); }) == MOORINGEYE_ARGUMENT);
    archive.cut(17);
    SHOULD(archive.size() == 17 && archive.remove(std::vector<uint32_t>{0x01020304}) == 2 && archive.size() == 0);
    buffer[600] = 1;
    try {
        me::archive damaged(buffer);
        SHOULD(false);
    } catch (const me::refused &refused) {
        SHOULD(refused.number() == MOORINGEYE_MISMATCH && refused.position() == 1);
    }
    SHOULD(me::salvage(buffer).dropped == std::vector<uint64_t>{1});
    me::block block;
    block.put(15, 1000, false, press);
    mooringeye_row row = {1, {8, {0xD5, 0x09, 1, 2, 3, 4, 0, 0xE8}}};
    block.put_rows(16, std::vector<uint64_t>{1001}, std::vector<mooringeye_row>{row});
    block.cut(1);
    SHOULD(number_of([&] { block.cut(2); }) == MOORINGEYE_MISMATCH);
}

int main() {
    collectors();
    telegrams();
    archives();
}
