//! Every call of the library on plain slices and numbers, as `mooringeye.h` has it; the number of the answer is what comes back.
//!
//! This is the only module with `unsafe`. What the header asks of a caller holds of every block below: a pointer and a length are those of one slice
//! or array, which is valid for it; what is lent to be changed is a `&mut`, which overlaps nothing and is used by one thread; and a `bool` is one.
#![allow(unsafe_code)]

/// The bytes of the fields of a subtelegram.
pub const FIELDS: usize = 26;
/// The bytes of a frame: a length byte and 21 bytes.
pub const FRAME: usize = 22;
/// The bytes of the fields of an ERP2 telegram, IDs excepted.
pub const ERP2: usize = 276;
/// The bytes of a row of an archive, its time excepted.
pub const ROW: usize = 23;
/// The telegrams that a collector can hold open.
pub const CAPACITY: usize = 64;
/// The bytes of those telegrams.
pub const ENTRY_BYTES: usize = CAPACITY * 21;
/// The numbers of a collector besides its open telegrams: how many they are, the latest time, and the totals.
pub const COLLECTOR_NUMBERS: usize = 8;
/// The totals of a collector.
pub const TOTALS: usize = 6;
/// The bytes of a checkpoint.
pub const IMAGE: usize = 2_560;
/// The bytes of the reply to a reception of a burst: kind, number and a frame.
pub const REPLY: usize = 24;
/// The bytes of the longest text of a line.
pub const LONGEST_ROW: usize = 92;
/// A line of this many bytes is always BAD.
pub const LINE_LIMIT: usize = 150;
/// How many numbers a call on lines returns: bytes used, bytes of text, rows and lines.
pub const LINES_DONE: usize = 4;
/// The largest number of bytes of a reception in a line.
pub const LINE_BYTES: usize = 64;
/// How many numbers the reading of a line returns: its time, how many bytes its reception has, and its own length.
pub const LINE_READ: usize = 3;
/// The bytes of the longest row of a line in any format.
pub const LONGEST_ROW_AS: usize = 333;
/// How many numbers a call on lines in a format returns: bytes used, bytes of rows, rows for an archive, lines and closings.
pub const LINES_AS_DONE: usize = 5;
/// The bytes of a closing: when it was opened, a frame, and the copies.
pub const CLOSING: usize = 32;
/// The bytes of a block of an archive.
pub const BLOCK: usize = 512;
/// The numbers of a state file.
pub const STATE_NUMBERS: usize = 14;
/// The bytes of the archive's name in a state file.
pub const STATE_NAME: usize = 255;
/// The bytes of the log in a state file.
pub const STATE_TAIL: usize = 512;
/// The bytes of a state file.
pub const STATE: usize = 4_096;
/// The numbers of a run of blocks.
pub const RUN_NUMBERS: usize = 5;
/// The numbers of a report besides its lines.
pub const REPORT_NUMBERS: usize = 4;
/// The numbers of a line of a report.
pub const LINE_NUMBERS: usize = 5;
/// The numbers of all lines of a report.
pub const REPORT_LINES: usize = 256 * LINE_NUMBERS;

/// The numbers of a scan.
pub const SCAN_NUMBERS: usize = 4;
/// The numbers of a packer.
pub const PACKER_NUMBERS: usize = 2;
/// The bytes in which the rows of a packer wait.
pub const PACKER_BYTES: usize = 960;
/// The numbers of an archive that is being added to a report.
pub const ADDING_NUMBERS: usize = 8;

/// The declarations, which `tests/library` compares with the header and with the archive.
mod c {
    // What is read, and what is changed.
    pub type In = *const u8;
    pub type In16 = *const u16;
    pub type In32 = *const u32;
    pub type In64 = *const u64;
    pub type Out = *mut u8;
    pub type Out16 = *mut u16;
    pub type Out32 = *mut u32;
    pub type Out64 = *mut u64;
    /// A size, count or position that is handed back.
    pub type Size = *mut usize;

    extern "C" {
        pub fn mooringeye_version() -> u32;
        pub fn mooringeye_crc8(bytes: In, len: usize) -> u8;
        pub fn mooringeye_check(bytes: In, len: usize) -> u8;
        pub fn mooringeye_same(a: In, a_len: usize, b: In, b_len: usize) -> bool;
        pub fn mooringeye_read(bytes: In, len: usize, fields: Out, fields_size: usize) -> u8;
        pub fn mooringeye_build(fields: In, fields_size: usize, out: Out, out_size: usize, out_len: Size) -> u8;
        pub fn mooringeye_encapsulate(bytes: In, len: usize, destid: u32, out: Out, out_size: usize, out_len: Size) -> u8;
        pub fn mooringeye_decapsulate(bytes: In, len: usize, out: Out, out_size: usize, out_len: Size) -> u8;
        pub fn mooringeye_repeat(setting: u8, bytes: In, len: usize, sent: Out, sent_size: usize) -> u8;
        pub fn mooringeye_erp2_read(bytes: In, len: usize, fields: Out, fields_size: usize, originator: Out64, destination: Out32) -> u8;
        pub fn mooringeye_erp2_build(
            fields: In,
            fields_size: usize,
            originator: u64,
            destination: u32,
            out: Out,
            out_size: usize,
            out_len: Size,
        ) -> u8;
        pub fn mooringeye_plan(level: u8, duration: u32, draw: u64) -> u32;
        pub fn mooringeye_plan_by(rule: u8, level: u8, transmissions: u8, duration: u32, draw: u64) -> u32;
        pub fn mooringeye_is_lawful(rule: u8, level: u8, duration: u32, first: u8, second: u8, third: u8) -> bool;
        pub fn mooringeye_site(repeaters: In, size: usize) -> u32;
        pub fn mooringeye_collector_fresh(times: Out64, lens: Out, bytes: Out, copies: Out16, numbers: Out64);
        pub fn mooringeye_collector_take(times: Out64, lens: Out, bytes: Out, copies: Out16, numbers: Out64, heard: In, len: usize, time: u64)
            -> u16;
        pub fn mooringeye_collector_take_tested(
            times: Out64,
            lens: Out,
            bytes: Out,
            copies: Out16,
            numbers: Out64,
            heard: In,
            len: usize,
            time: u64,
        ) -> u16;
        pub fn mooringeye_collector_totals(times: In64, lens: In, bytes: In, copies: In16, numbers: In64, totals: Out64) -> u8;
        pub fn mooringeye_collector_copies(times: In64, lens: In, bytes: In, copies: In16, numbers: In64, index: usize, heard: Out64) -> u8;
        pub fn mooringeye_collector_checkpoint(times: In64, lens: In, bytes: In, copies: In16, numbers: In64, out: Out, out_size: usize) -> u8;
        pub fn mooringeye_collector_restore(times: Out64, lens: Out, bytes: Out, copies: Out16, numbers: Out64, image: In, image_size: usize) -> u8;
        pub fn mooringeye_collector_burst(
            times: Out64,
            lens: Out,
            bytes: Out,
            copies: Out16,
            numbers: Out64,
            setting: u8,
            moments: In64,
            moments_len: usize,
            records: In,
            records_size: usize,
            replies: Out,
            replies_size: usize,
        ) -> u8;
        pub fn mooringeye_collector_lines(
            times: Out64,
            lens: Out,
            bytes: Out,
            copies: Out16,
            numbers: Out64,
            setting: u8,
            input: In,
            input_len: usize,
            most: usize,
            out: Out,
            out_len: usize,
            moments: Out64,
            moments_len: usize,
            rows: Out,
            rows_size: usize,
            done: Out64,
        ) -> u8;
        pub fn mooringeye_collector_lines_as(
            times: Out64,
            lens: Out,
            bytes: Out,
            copies: Out16,
            numbers: Out64,
            setting: u8,
            format: u8,
            input: In,
            input_len: usize,
            most: usize,
            out: Out,
            out_len: usize,
            moments: Out64,
            moments_len: usize,
            rows: Out,
            rows_size: usize,
            closed: Out,
            closed_size: usize,
            done: Out64,
        ) -> u8;
        pub fn mooringeye_first_line(input: In, input_len: usize, used: Out64) -> u8;
        pub fn mooringeye_read_line(input: In, input_len: usize, bytes: Out, done: Out64) -> u8;
        pub fn mooringeye_skip_lines(input: In, input_len: usize, most: usize, done: Out64);
        pub fn mooringeye_archive_verify(buffer: In, size: usize, rows: Size, position: Size) -> u8;
        pub fn mooringeye_archive_append(buffer: Out, size: usize, bytes: In, len: usize, time: u64, loose: bool, position: Size) -> u8;
        pub fn mooringeye_archive_append_at(buffer: Out, size: usize, n: usize, bytes: In, len: usize, time: u64, loose: bool, position: Size) -> u8;
        pub fn mooringeye_archive_put_row(block: Out, size: usize, n: usize, bytes: In, len: usize, time: u64, loose: bool, position: Size) -> u8;
        pub fn mooringeye_archive_put_rows(
            block: Out,
            size: usize,
            n: usize,
            times: In64,
            times_len: usize,
            records: In,
            records_size: usize,
            position: Size,
        ) -> u8;
        pub fn mooringeye_archive_row(buffer: In, size: usize, index: usize, row: Out, row_size: usize, time: Out64) -> u8;
        pub fn mooringeye_archive_salvage(
            buffer: In,
            size: usize,
            out: Out,
            out_size: usize,
            positions: Out64,
            positions_len: usize,
            dropped: Size,
            rows: Size,
        ) -> u8;
        pub fn mooringeye_archive_remove(buffer: Out, size: usize, identities: In32, identities_len: usize, freed: Size, position: Size) -> u8;
        pub fn mooringeye_report_empty(numbers: Out64, lines: Out64);
        pub fn mooringeye_report_add(numbers: Out64, lines: Out64, buffer: In, size: usize, position: Size) -> u8;
        pub fn mooringeye_report_line(numbers: In64, lines: In64, index: usize, line: Out64) -> u8;
        pub fn mooringeye_report_share(numbers: In64, lines: In64, received: u64, thousandths: Out64) -> u8;
        pub fn mooringeye_archive_cut(buffer: Out, size: usize, rows: usize, position: Size) -> u8;
        pub fn mooringeye_archive_cut_block(block: Out, size: usize, rows: usize) -> u8;
        pub fn mooringeye_state_write(numbers: In64, name: In, last: In, image: In, tail: In, out: Out) -> u8;
        pub fn mooringeye_state_accept(bytes: In, size: usize, numbers: Out64, name: Out, last: Out, image: Out, tail: Out) -> u8;
        pub fn mooringeye_journal_judge(last: In, last_size: usize, rows: usize, block: In, block_size: usize) -> u8;
        pub fn mooringeye_journal_compare(
            times: In64,
            times_len: usize,
            rows: In,
            rows_size: usize,
            moments: In64,
            moments_len: usize,
            left: In,
            left_size: usize,
            agreed: Size,
            going: Size,
        ) -> u8;
        pub fn mooringeye_journal_scan(numbers: Out64, piece: In, size: usize) -> u8;
        pub fn mooringeye_scan_feed(numbers: Out64, piece: In, size: usize) -> u8;
        pub fn mooringeye_scan_end(numbers: In64, rows: Size, position: Size) -> u8;
        pub fn mooringeye_report_start(numbers: In64, lines: In64, adding: Out64, tally: Out64);
        pub fn mooringeye_report_feed(numbers: In64, lines: In64, adding: Out64, tally: Out64, piece: In, size: usize) -> u8;
        pub fn mooringeye_report_end(numbers: Out64, lines: Out64, adding: In64, tally: In64, position: Size) -> u8;
        pub fn mooringeye_pack_feed(
            numbers: Out64,
            waiting: Out,
            piece: In,
            size: usize,
            identities: In32,
            identities_len: usize,
            out: Out,
            out_size: usize,
            positions: Out64,
            positions_len: usize,
            dropped: Size,
        ) -> u8;
        pub fn mooringeye_pack_end(numbers: In64, waiting: In, out: Out, out_size: usize, len: Size) -> u8;
    }
}

/// The version of the library: major x 65,536 + minor x 256 + patch.
pub fn version() -> u32 {
    // SAFETY: it takes nothing.
    unsafe { c::mooringeye_version() }
}

// ---- subtelegrams

/// CRC-8.
pub fn crc8(bytes: &[u8]) -> u8 {
    // SAFETY: one slice, read only.
    unsafe { c::mooringeye_crc8(bytes.as_ptr(), bytes.len()) }
}

/// The check.
pub fn check(bytes: &[u8]) -> u8 {
    // SAFETY: one slice, read only.
    unsafe { c::mooringeye_check(bytes.as_ptr(), bytes.len()) }
}

/// Sameness.
pub fn same(a: &[u8], b: &[u8]) -> bool {
    // SAFETY: two slices, read only, which may overlap.
    unsafe { c::mooringeye_same(a.as_ptr(), a.len(), b.as_ptr(), b.len()) }
}

/// Reading into [`FIELDS`] bytes.
pub fn read(bytes: &[u8], fields: &mut [u8]) -> u8 {
    // SAFETY: a slice that is read and one that is `&mut`.
    unsafe { c::mooringeye_read(bytes.as_ptr(), bytes.len(), fields.as_mut_ptr(), fields.len()) }
}

/// Building from [`FIELDS`] bytes.
pub fn build(fields: &[u8], out: &mut [u8], length: &mut usize) -> u8 {
    // SAFETY: a slice that is read, and a slice and a number that are `&mut`.
    unsafe { c::mooringeye_build(fields.as_ptr(), fields.len(), out.as_mut_ptr(), out.len(), length) }
}

/// Encapsulation.
pub fn encapsulate(bytes: &[u8], destid: u32, out: &mut [u8], length: &mut usize) -> u8 {
    // SAFETY: a slice that is read, and a slice and a number that are `&mut`.
    unsafe { c::mooringeye_encapsulate(bytes.as_ptr(), bytes.len(), destid, out.as_mut_ptr(), out.len(), length) }
}

/// Its removal.
pub fn decapsulate(bytes: &[u8], out: &mut [u8], length: &mut usize) -> u8 {
    // SAFETY: a slice that is read, and a slice and a number that are `&mut`.
    unsafe { c::mooringeye_decapsulate(bytes.as_ptr(), bytes.len(), out.as_mut_ptr(), out.len(), length) }
}

/// The repeater step, into [`FRAME`] bytes.
pub fn repeat(setting: u8, bytes: &[u8], sent: &mut [u8]) -> u8 {
    // SAFETY: a slice that is read and one that is `&mut`.
    unsafe { c::mooringeye_repeat(setting, bytes.as_ptr(), bytes.len(), sent.as_mut_ptr(), sent.len()) }
}

// ---- ERP2 telegrams

/// Reading into [`ERP2`] bytes and two IDs.
pub fn erp2_read(bytes: &[u8], fields: &mut [u8], originator: &mut u64, destination: &mut u32) -> u8 {
    // SAFETY: a slice that is read, and a slice and two numbers that are `&mut`.
    unsafe { c::mooringeye_erp2_read(bytes.as_ptr(), bytes.len(), fields.as_mut_ptr(), fields.len(), originator, destination) }
}

/// Building from [`ERP2`] bytes and two IDs.
pub fn erp2_build(fields: &[u8], originator: u64, destination: u32, out: &mut [u8], length: &mut usize) -> u8 {
    // SAFETY: a slice that is read, and a slice and a number that are `&mut`.
    unsafe { c::mooringeye_erp2_build(fields.as_ptr(), fields.len(), originator, destination, out.as_mut_ptr(), out.len(), length) }
}

// ---- slot plans

/// A plan under the standard rule: the number and its slots, a byte each from the highest.
pub fn plan(level: u8, duration: u32, draw: u64) -> u32 {
    // SAFETY: numbers alone.
    unsafe { c::mooringeye_plan(level, duration, draw) }
}

/// A plan under a named rule.
pub fn plan_by(rule: u8, level: u8, transmissions: u8, duration: u32, draw: u64) -> u32 {
    // SAFETY: numbers alone.
    unsafe { c::mooringeye_plan_by(rule, level, transmissions, duration, draw) }
}

/// Whether a plan is lawful.
pub fn is_lawful(rule: u8, level: u8, duration: u32, first: u8, second: u8, third: u8) -> bool {
    // SAFETY: numbers alone.
    unsafe { c::mooringeye_is_lawful(rule, level, duration, first, second, third) }
}

/// The check of a site, nine bytes a repeater: number x 65,536 + repeater x 256 + other.
pub fn site(repeaters: &[u8]) -> u32 {
    // SAFETY: one slice, read only.
    unsafe { c::mooringeye_site(repeaters.as_ptr(), repeaters.len()) }
}

// ---- the collector

/// The five arrays of a collector, lent to be read.
pub struct Arrays<'a> {
    /// When each telegram was opened.
    pub times: &'a [u64; CAPACITY],
    /// Their lengths.
    pub lengths: &'a [u8; CAPACITY],
    /// Their bytes, 21 each.
    pub bytes: &'a [u8; ENTRY_BYTES],
    /// How often each was heard again.
    pub copies: &'a [u16; CAPACITY],
    /// Telegrams open, latest time, received, kept, copies, loose, damaged, late.
    pub numbers: &'a [u64; COLLECTOR_NUMBERS],
}

/// The five arrays of a collector, lent to be changed.
pub struct ArraysMut<'a> {
    /// When each telegram was opened.
    pub times: &'a mut [u64; CAPACITY],
    /// Their lengths.
    pub lengths: &'a mut [u8; CAPACITY],
    /// Their bytes, 21 each.
    pub bytes: &'a mut [u8; ENTRY_BYTES],
    /// How often each was heard again.
    pub copies: &'a mut [u16; CAPACITY],
    /// Telegrams open, latest time, received, kept, copies, loose, damaged, late.
    pub numbers: &'a mut [u64; COLLECTOR_NUMBERS],
}

impl Arrays<'_> {
    /// In the order in which every call takes them.
    fn pointers(&self) -> (c::In64, c::In, c::In, c::In16, c::In64) {
        (self.times.as_ptr(), self.lengths.as_ptr(), self.bytes.as_ptr(), self.copies.as_ptr(), self.numbers.as_ptr())
    }
}

impl ArraysMut<'_> {
    /// The same arrays, to be read.
    pub fn shared(&self) -> Arrays<'_> {
        let ArraysMut { times, lengths, bytes, copies, numbers } = self;
        Arrays { times, lengths, bytes, copies, numbers }
    }

    /// In the order in which every call takes them.
    fn pointers(&mut self) -> (c::Out64, c::Out, c::Out, c::Out16, c::Out64) {
        (self.times.as_mut_ptr(), self.lengths.as_mut_ptr(), self.bytes.as_mut_ptr(), self.copies.as_mut_ptr(), self.numbers.as_mut_ptr())
    }
}

/// A collector with nothing open and nothing counted.
pub fn collector_fresh(state: &mut ArraysMut<'_>) {
    let (times, lens, bytes, copies, numbers) = state.pointers();
    // SAFETY: five arrays of the sizes that the header names, all `&mut`.
    unsafe { c::mooringeye_collector_fresh(times, lens, bytes, copies, numbers) }
}

/// A reception: 256 times its kind, plus the number.
pub fn collector_take(state: &mut ArraysMut<'_>, received: &[u8], time: u64) -> u16 {
    let (times, lens, bytes, copies, numbers) = state.pointers();
    // SAFETY: five arrays of the sizes that the header names, all `&mut`, and a slice that is read.
    unsafe { c::mooringeye_collector_take(times, lens, bytes, copies, numbers, received.as_ptr(), received.len(), time) }
}

/// The same for a state that is known to be accepted, which is not tested.
pub fn collector_take_tested(state: &mut ArraysMut<'_>, received: &[u8], time: u64) -> u16 {
    let (times, lens, bytes, copies, numbers) = state.pointers();
    // SAFETY: five arrays of the sizes that the header names, all `&mut`, and a slice that is read.
    unsafe { c::mooringeye_collector_take_tested(times, lens, bytes, copies, numbers, received.as_ptr(), received.len(), time) }
}

/// The totals: received, kept, copies, loose, damaged, late.
pub fn collector_totals(state: &Arrays<'_>, totals: &mut [u64; TOTALS]) -> u8 {
    let (times, lens, bytes, copies, numbers) = state.pointers();
    // SAFETY: arrays of the sizes that the header names, of which the one that is written is `&mut`.
    unsafe { c::mooringeye_collector_totals(times, lens, bytes, copies, numbers, totals.as_mut_ptr()) }
}

/// How often an open telegram was heard again.
pub fn collector_copies(state: &Arrays<'_>, index: usize, heard: &mut u64) -> u8 {
    let (times, lens, bytes, copies, numbers) = state.pointers();
    // SAFETY: five arrays of the sizes that the header names, which are read, and a number that is `&mut`.
    unsafe { c::mooringeye_collector_copies(times, lens, bytes, copies, numbers, index, heard) }
}

/// The image of a state, into the first [`IMAGE`] bytes.
pub fn collector_checkpoint(state: &Arrays<'_>, out: &mut [u8]) -> u8 {
    let (times, lens, bytes, copies, numbers) = state.pointers();
    // SAFETY: five arrays of the sizes that the header names, which are read, and a slice that is `&mut`.
    unsafe { c::mooringeye_collector_checkpoint(times, lens, bytes, copies, numbers, out.as_mut_ptr(), out.len()) }
}

/// The state of an image.
pub fn collector_restore(state: &mut ArraysMut<'_>, image: &[u8]) -> u8 {
    let (times, lens, bytes, copies, numbers) = state.pointers();
    // SAFETY: five arrays of the sizes that the header names, all `&mut`, and a slice that is read.
    unsafe { c::mooringeye_collector_restore(times, lens, bytes, copies, numbers, image.as_ptr(), image.len()) }
}

/// A burst: the moment of each reception, and its frame; [`REPLY`] bytes for each reply.
pub fn collector_burst(state: &mut ArraysMut<'_>, setting: u8, moments: &[u64], records: &[u8], replies: &mut [u8]) -> u8 {
    let (times, lens, bytes, copies, numbers) = state.pointers();
    let (at, n) = (moments.as_ptr(), moments.len());
    let (from, from_size) = (records.as_ptr(), records.len());
    let (to, to_size) = (replies.as_mut_ptr(), replies.len());
    // SAFETY: five arrays of the sizes that the header names and a slice, all `&mut`, and two slices that are read.
    unsafe { c::mooringeye_collector_burst(times, lens, bytes, copies, numbers, setting, at, n, from, from_size, to, to_size) }
}

// ---- lines of text

/// Where the text and the rows of lines go: `rows` has [`ROW`] bytes for each of the moments.
pub struct RowsMut<'a> {
    /// What `collect` prints.
    pub text: &'a mut [u8],
    /// When each row was received.
    pub moments: &'a mut [u64],
    /// The rest of it.
    pub rows: &'a mut [u8],
}

/// Whole lines from the start of a text, at most `most`.
pub fn collector_lines(state: &mut ArraysMut<'_>, setting: u8, input: &[u8], most: usize, to: &mut RowsMut<'_>, done: &mut [u64; LINES_DONE]) -> u8 {
    let (times, lens, bytes, copies, numbers) = state.pointers();
    let (from, n) = (input.as_ptr(), input.len());
    let (out, out_len) = (to.text.as_mut_ptr(), to.text.len());
    let (at, at_len) = (to.moments.as_mut_ptr(), to.moments.len());
    let (rows, size) = (to.rows.as_mut_ptr(), to.rows.len());
    let told = done.as_mut_ptr();
    // SAFETY: six arrays of the sizes that the header names and three slices, all `&mut`, and a slice that is read.
    unsafe { c::mooringeye_collector_lines(times, lens, bytes, copies, numbers, setting, from, n, most, out, out_len, at, at_len, rows, size, told) }
}

/// The same, and where closings go: `closed` has [`CLOSING`] bytes for each, or no byte where none are asked for.
pub struct RowsAsMut<'a> {
    /// Rows in a format.
    pub text: &'a mut [u8],
    /// When each row for an archive was received.
    pub moments: &'a mut [u64],
    /// The rest of it.
    pub rows: &'a mut [u8],
    /// The telegrams that closed, with their copies.
    pub closed: &'a mut [u8],
}

/// Whole lines from the start of a text, at most `most`, with rows in a format: 0 text, 1 comma-separated, 2 JSON.
pub fn collector_lines_as(
    state: &mut ArraysMut<'_>,
    setting: u8,
    format: u8,
    input: &[u8],
    most: usize,
    to: &mut RowsAsMut<'_>,
    done: &mut [u64; LINES_AS_DONE],
) -> u8 {
    let (times, lens, bytes, copies, numbers) = state.pointers();
    let (from, n) = (input.as_ptr(), input.len());
    let (out, out_len) = (to.text.as_mut_ptr(), to.text.len());
    let (at, at_len) = (to.moments.as_mut_ptr(), to.moments.len());
    let (rows, size) = (to.rows.as_mut_ptr(), to.rows.len());
    let (shut, shut_size) = (to.closed.as_mut_ptr(), to.closed.len());
    let told = done.as_mut_ptr();
    // SAFETY: six arrays of the sizes that the header names and four slices, all `&mut`, and a slice that is read.
    unsafe {
        c::mooringeye_collector_lines_as(
            times, lens, bytes, copies, numbers, setting, format, from, n, most, out, out_len, at, at_len, rows, size, shut, shut_size, told,
        )
    }
}

/// The setting of the first line, 3 for another line, 4 if no line has ended; and its length.
pub fn first_line(input: &[u8], used: &mut u64) -> u8 {
    // SAFETY: a slice that is read, and a number that is `&mut`.
    unsafe { c::mooringeye_first_line(input.as_ptr(), input.len(), used) }
}

/// Reads the line at the start of a text: 0 for a reception, 3 for another line, 4 if no line has ended.
pub fn read_line(input: &[u8], bytes: &mut [u8; LINE_BYTES], done: &mut [u64; LINE_READ]) -> u8 {
    // SAFETY: a slice that is read, and two arrays of the sizes that the header names, both `&mut`.
    unsafe { c::mooringeye_read_line(input.as_ptr(), input.len(), bytes.as_mut_ptr(), done.as_mut_ptr()) }
}

/// Whole lines at the start of a text, at most `most`: their bytes, and how many they are.
pub fn skip_lines(input: &[u8], most: usize, done: &mut [u64; 2]) {
    // SAFETY: a slice that is read, and an array that is `&mut`.
    unsafe { c::mooringeye_skip_lines(input.as_ptr(), input.len(), most, done.as_mut_ptr()) }
}

// ---- archives

/// How many rows an archive has.
pub fn archive_verify(buffer: &[u8], rows: &mut usize, position: &mut usize) -> u8 {
    // SAFETY: a slice that is read, and two numbers that are `&mut`.
    unsafe { c::mooringeye_archive_verify(buffer.as_ptr(), buffer.len(), rows, position) }
}

/// Appending, with every block read.
pub fn archive_append(buffer: &mut [u8], bytes: &[u8], time: u64, loose: bool, position: &mut usize) -> u8 {
    // SAFETY: a slice that is read, and a slice and a number that are `&mut`.
    unsafe { c::mooringeye_archive_append(buffer.as_mut_ptr(), buffer.len(), bytes.as_ptr(), bytes.len(), time, loose, position) }
}

/// Appends to an archive of a known number of rows.
pub fn archive_append_at(buffer: &mut [u8], rows: usize, bytes: &[u8], time: u64, loose: bool, position: &mut usize) -> u8 {
    // SAFETY: a slice that is read, and a slice and a number that are `&mut`.
    unsafe { c::mooringeye_archive_append_at(buffer.as_mut_ptr(), buffer.len(), rows, bytes.as_ptr(), bytes.len(), time, loose, position) }
}

/// The same in one block.
pub fn archive_put_row(block: &mut [u8], rows: usize, bytes: &[u8], time: u64, loose: bool, position: &mut usize) -> u8 {
    // SAFETY: a slice that is read, and a slice and a number that are `&mut`.
    unsafe { c::mooringeye_archive_put_row(block.as_mut_ptr(), block.len(), rows, bytes.as_ptr(), bytes.len(), time, loose, position) }
}

/// Several rows in one block, each a time and [`ROW`] bytes, all or none.
pub fn archive_put_rows(block: &mut [u8], rows: usize, times: &[u64], records: &[u8], position: &mut usize) -> u8 {
    let (at, n) = (times.as_ptr(), times.len());
    // SAFETY: two slices that are read, and a slice and a number that are `&mut`.
    unsafe { c::mooringeye_archive_put_rows(block.as_mut_ptr(), block.len(), rows, at, n, records.as_ptr(), records.len(), position) }
}

/// A row, into [`ROW`] bytes and its time.
pub fn archive_row(buffer: &[u8], index: usize, row: &mut [u8], time: &mut u64) -> u8 {
    // SAFETY: a slice that is read, and a slice and a number that are `&mut`.
    unsafe { c::mooringeye_archive_row(buffer.as_ptr(), buffer.len(), index, row.as_mut_ptr(), row.len(), time) }
}

/// Salvage.
pub fn archive_salvage(buffer: &[u8], out: &mut [u8], positions: &mut [u64], dropped: &mut usize, rows: &mut usize) -> u8 {
    let (at, size) = (positions.as_mut_ptr(), positions.len());
    // SAFETY: a slice that is read, and two slices and two numbers that are `&mut`.
    unsafe { c::mooringeye_archive_salvage(buffer.as_ptr(), buffer.len(), out.as_mut_ptr(), out.len(), at, size, dropped, rows) }
}

/// Removal of the rows of some transmitters.
pub fn archive_remove(buffer: &mut [u8], identities: &[u32], freed: &mut usize, position: &mut usize) -> u8 {
    let (at, count) = (identities.as_ptr(), identities.len());
    // SAFETY: a slice that is read, and a slice and two numbers that are `&mut`.
    unsafe { c::mooringeye_archive_remove(buffer.as_mut_ptr(), buffer.len(), at, count, freed, position) }
}

/// The first rows of an archive.
pub fn archive_cut(buffer: &mut [u8], rows: usize, position: &mut usize) -> u8 {
    // SAFETY: a slice and a number that are `&mut`.
    unsafe { c::mooringeye_archive_cut(buffer.as_mut_ptr(), buffer.len(), rows, position) }
}

/// The first rows of one block.
pub fn archive_cut_block(block: &mut [u8], rows: usize) -> u8 {
    // SAFETY: a slice that is `&mut`.
    unsafe { c::mooringeye_archive_cut_block(block.as_mut_ptr(), block.len(), rows) }
}

// ---- archives in pieces

/// The next piece of an archive that is verified.
pub fn scan_feed(numbers: &mut [u64; SCAN_NUMBERS], piece: &[u8]) -> u8 {
    // SAFETY: an array of the size that the header names, which is `&mut`, and a slice that is read.
    unsafe { c::mooringeye_scan_feed(numbers.as_mut_ptr(), piece.as_ptr(), piece.len()) }
}

/// The answer for all pieces together.
pub fn scan_end(numbers: &[u64; SCAN_NUMBERS], rows: &mut usize, position: &mut usize) -> u8 {
    // SAFETY: an array of the size that the header names, which is read, and two numbers that are `&mut`.
    unsafe { c::mooringeye_scan_end(numbers.as_ptr(), rows, position) }
}

/// The next piece of an archive that is packed again.
pub fn pack_feed(
    numbers: &mut [u64; PACKER_NUMBERS],
    waiting: &mut [u8; PACKER_BYTES],
    piece: &[u8],
    identities: &[u32],
    out: &mut [u8],
    positions: &mut [u64],
    dropped: &mut usize,
) -> u8 {
    let (from, size) = (piece.as_ptr(), piece.len());
    let (listed, count) = (identities.as_ptr(), identities.len());
    let (list, most) = (positions.as_mut_ptr(), positions.len());
    let (state, rows) = (numbers.as_mut_ptr(), waiting.as_mut_ptr());
    // SAFETY: two slices that are read, and two arrays of the sizes that the header names, two slices and a number that are `&mut`.
    unsafe { c::mooringeye_pack_feed(state, rows, from, size, listed, count, out.as_mut_ptr(), out.len(), list, most, dropped) }
}

/// The last block of an archive that is packed again.
pub fn pack_end(numbers: &[u64; PACKER_NUMBERS], waiting: &[u8; PACKER_BYTES], out: &mut [u8], length: &mut usize) -> u8 {
    // SAFETY: two arrays of the sizes that the header names, which are read, and a slice and a number that are `&mut`.
    unsafe { c::mooringeye_pack_end(numbers.as_ptr(), waiting.as_ptr(), out.as_mut_ptr(), out.len(), length) }
}

// ---- the journal of the plant's tool

/// Writes a state file.
pub fn state_write(
    numbers: &[u64; STATE_NUMBERS],
    name: &[u8; STATE_NAME],
    last: &[u8; BLOCK],
    image: &[u8; IMAGE],
    tail: &[u8; STATE_TAIL],
    out: &mut [u8; STATE],
) -> u8 {
    // SAFETY: arrays of the sizes that the header names, which are read, and one that is `&mut`.
    unsafe { c::mooringeye_state_write(numbers.as_ptr(), name.as_ptr(), last.as_ptr(), image.as_ptr(), tail.as_ptr(), out.as_mut_ptr()) }
}

/// Reads a state file.
pub fn state_accept(
    bytes: &[u8],
    numbers: &mut [u64; STATE_NUMBERS],
    name: &mut [u8; STATE_NAME],
    last: &mut [u8; BLOCK],
    image: &mut [u8; IMAGE],
    tail: &mut [u8; STATE_TAIL],
) -> u8 {
    let (from, size) = (bytes.as_ptr(), bytes.len());
    let (text, block) = (name.as_mut_ptr(), last.as_mut_ptr());
    // SAFETY: a slice that is read, and arrays of the sizes that the header names, which are `&mut`.
    unsafe { c::mooringeye_state_accept(from, size, numbers.as_mut_ptr(), text, block, image.as_mut_ptr(), tail.as_mut_ptr()) }
}

/// The judgement on the block with the last row that a state counts.
pub fn journal_judge(last: &[u8], rows: usize, block: &[u8]) -> u8 {
    // SAFETY: two slices that are read.
    unsafe { c::mooringeye_journal_judge(last.as_ptr(), last.len(), rows, block.as_ptr(), block.len()) }
}

/// How many rows agree with leftovers, and how many of those must be put aside.
pub fn journal_compare(times: &[u64], rows: &[u8], moments: &[u64], left: &[u8], agreed: &mut usize, going: &mut usize) -> u8 {
    let (at, size) = (rows.as_ptr(), rows.len());
    let (before, count) = (moments.as_ptr(), moments.len());
    // SAFETY: four slices that are read, and two numbers that are `&mut`.
    unsafe { c::mooringeye_journal_compare(times.as_ptr(), times.len(), at, size, before, count, left.as_ptr(), left.len(), agreed, going) }
}

/// How many blocks of a piece read as an archive.
pub fn journal_scan(numbers: &mut [u64; RUN_NUMBERS], piece: &[u8]) -> u8 {
    // SAFETY: an array of the size that the header names, which is `&mut`, and a slice that is read.
    unsafe { c::mooringeye_journal_scan(numbers.as_mut_ptr(), piece.as_ptr(), piece.len()) }
}

// ---- reports

/// A report without archives.
pub fn report_empty(numbers: &mut [u64; REPORT_NUMBERS], lines: &mut [u64; REPORT_LINES]) {
    // SAFETY: two arrays of the sizes that the header names, both `&mut`.
    unsafe { c::mooringeye_report_empty(numbers.as_mut_ptr(), lines.as_mut_ptr()) }
}

/// An archive added.
pub fn report_add(numbers: &mut [u64; REPORT_NUMBERS], lines: &mut [u64; REPORT_LINES], buffer: &[u8], position: &mut usize) -> u8 {
    // SAFETY: two arrays of the sizes that the header names and a number, all `&mut`, and a slice that is read.
    unsafe { c::mooringeye_report_add(numbers.as_mut_ptr(), lines.as_mut_ptr(), buffer.as_ptr(), buffer.len(), position) }
}

/// A line.
pub fn report_line(numbers: &[u64; REPORT_NUMBERS], lines: &[u64; REPORT_LINES], index: usize, line: &mut [u64; LINE_NUMBERS]) -> u8 {
    // SAFETY: arrays of the sizes that the header names, of which the one that is written is `&mut`.
    unsafe { c::mooringeye_report_line(numbers.as_ptr(), lines.as_ptr(), index, line.as_mut_ptr()) }
}

/// The share of its rows.
pub fn report_share(numbers: &[u64; REPORT_NUMBERS], lines: &[u64; REPORT_LINES], received: u64, thousandths: &mut u64) -> u8 {
    // SAFETY: two arrays of the sizes that the header names, which are read, and a number that is `&mut`.
    unsafe { c::mooringeye_report_share(numbers.as_ptr(), lines.as_ptr(), received, thousandths) }
}

/// Before the first piece of an archive that is added.
pub fn report_start(
    numbers: &[u64; REPORT_NUMBERS],
    lines: &[u64; REPORT_LINES],
    adding: &mut [u64; ADDING_NUMBERS],
    so_far: &mut [u64; REPORT_LINES],
) {
    // SAFETY: arrays of the sizes that the header names, of which those that are written are `&mut`.
    unsafe { c::mooringeye_report_start(numbers.as_ptr(), lines.as_ptr(), adding.as_mut_ptr(), so_far.as_mut_ptr()) }
}

/// The next piece of an archive that is added.
pub fn report_feed(
    numbers: &[u64; REPORT_NUMBERS],
    lines: &[u64; REPORT_LINES],
    adding: &mut [u64; ADDING_NUMBERS],
    so_far: &mut [u64; REPORT_LINES],
    piece: &[u8],
) -> u8 {
    let (from, size) = (piece.as_ptr(), piece.len());
    // SAFETY: arrays of the sizes that the header names, of which those that are written are `&mut`, and a slice that is read.
    unsafe { c::mooringeye_report_feed(numbers.as_ptr(), lines.as_ptr(), adding.as_mut_ptr(), so_far.as_mut_ptr(), from, size) }
}

/// All pieces added as one archive.
pub fn report_end(
    numbers: &mut [u64; REPORT_NUMBERS],
    lines: &mut [u64; REPORT_LINES],
    adding: &[u64; ADDING_NUMBERS],
    so_far: &[u64; REPORT_LINES],
    position: &mut usize,
) -> u8 {
    // SAFETY: arrays of the sizes that the header names, of which those that are written are `&mut`, as is the number.
    unsafe { c::mooringeye_report_end(numbers.as_mut_ptr(), lines.as_mut_ptr(), adding.as_ptr(), so_far.as_ptr(), position) }
}
