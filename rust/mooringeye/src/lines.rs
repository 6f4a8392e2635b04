//! Lines of text: what `collect` reads, and the rows of it.
use crate::archive::Row;
use crate::collector::Collector;
use crate::raw;
use crate::refusal::Refusal;
use crate::telegram::Telegram;

/// What [`Collector::lines`](crate::Collector::lines) did.
#[derive(Clone, Copy, Debug, Default, PartialEq, Eq, Hash)]
pub struct Lines {
    /// The bytes of the input that were used: whole lines.
    pub used: usize,
    /// The bytes of text that were written.
    pub written: usize,
    /// The rows that were written.
    pub rows: usize,
    /// The lines that were taken.
    pub lines: usize,
}

impl Lines {
    pub(crate) fn of([used, written, rows, lines]: [u64; raw::LINES_DONE]) -> Lines {
        let [used, written, rows, lines] = [used, written, rows, lines].map(size);
        Lines { used, written, rows, lines }
    }
}

/// How rows are written.
#[derive(Clone, Copy, Debug, Default, PartialEq, Eq, Hash)]
pub enum Format {
    /// As `collect` prints them.
    #[default]
    Text,
    /// Comma-separated: time, answer, refusal, telegram, send, txid, rorg, level. What is not there is empty.
    Csv,
    /// A JSON object on each line, with the same members. What is not there is left out.
    Json,
}

impl Format {
    /// The text before the first row: for CSV the names of its columns.
    pub fn heading(self) -> &'static str {
        match self {
            Format::Csv => "time,answer,refusal,telegram,send,txid,rorg,level\n",
            Format::Text | Format::Json => "",
        }
    }

    pub(crate) fn number(self) -> u8 {
        match self {
            Format::Text => 0,
            Format::Csv => 1,
            Format::Json => 2,
        }
    }
}

/// What a telegram was heard when it closed: with the first KEPT, COPY or LOOSE reception more than 100 ms after its opening.
#[derive(Clone, Copy, Debug, PartialEq, Eq, Hash)]
pub struct Closing {
    /// When it was opened, in milliseconds.
    pub opened: u64,
    /// The telegram as it was first received.
    pub telegram: Telegram,
    /// How often it was heard again, up to 65,535.
    pub copies: u16,
}

impl Closing {
    fn of(bytes: &[u8]) -> Option<Closing> {
        let (opened, rest) = bytes.split_first_chunk()?;
        let (frame, copies) = rest.split_first_chunk()?;
        let telegram = Telegram::of_frame(*frame)?;
        Some(Closing { opened: u64::from_be_bytes(*opened), telegram, copies: u16::from_be_bytes(copies.try_into().ok()?) })
    }
}

/// What lines gave: their rows as text, the rows that an archive keeps, and what closed. The next call uses its buffers again.
///
/// ```
/// use mooringeye::{Collector, Format, Taken};
///
/// let text = b"1000 D5090102030400E8\n1012 D5090102030401E9\n1102 D5090102030400E8\n";
/// let mut taken = Taken::with_closings();
/// Collector::new().lines_as(0, Format::Csv, text, 1_000, &mut taken).unwrap();
/// assert!(taken.text().starts_with(b"1000,KEPT,,D5090102030400E8,,01020304,D5,0\n1012,COPY,"));
/// assert_eq!(taken.rows().map(|row| row.time).collect::<Vec<_>>(), [1_000, 1_102]);
/// let closing = taken.closings().next().unwrap();
/// assert_eq!((closing.opened, closing.copies), (1_000, 1));
/// assert_eq!(closing.telegram.fields().txid, [1, 2, 3, 4]);
/// ```
#[derive(Clone, Debug, Default)]
pub struct Taken {
    text: Vec<u8>,
    moments: Vec<u64>,
    records: Vec<u8>,
    closed: Vec<u8>,
    asks_closings: bool,
    done: Lines,
    closings: usize,
}

impl Taken {
    /// For rows alone.
    pub fn new() -> Taken {
        Taken::default()
    }

    /// For rows, and for what closes.
    pub fn with_closings() -> Taken {
        Taken { asks_closings: true, ..Taken::default() }
    }

    /// The rows of all lines in the format.
    pub fn text(&self) -> &[u8] {
        &self.text[..self.done.written]
    }

    /// When each row for an archive was received, as [`raw::archive_put_rows`] takes it.
    pub fn moments(&self) -> &[u64] {
        &self.moments[..self.done.rows]
    }

    /// The rest of these rows, [`raw::ROW`] bytes each.
    pub fn records(&self) -> &[u8] {
        &self.records[..raw::ROW * self.done.rows]
    }

    /// The rows that an archive keeps.
    pub fn rows(&self) -> impl Iterator<Item = Row> + '_ {
        let records = self.records().chunks_exact(raw::ROW);
        self.moments().iter().zip(records).filter_map(|(time, record)| {
            let telegram = Telegram::of_frame(record[1..].try_into().ok()?)?;
            Some(Row { telegram, time: *time, loose: record[0] != 0 })
        })
    }

    /// What closed, in the order of the openings.
    pub fn closings(&self) -> impl Iterator<Item = Closing> + '_ {
        self.closed[..raw::CLOSING * self.closings].chunks_exact(raw::CLOSING).filter_map(Closing::of)
    }

    /// How many lines there were.
    pub fn lines(&self) -> usize {
        self.done.lines
    }

    /// Forgets all of it.
    pub fn clear(&mut self) {
        (self.done, self.closings) = (Lines::default(), 0);
    }

    pub(crate) fn asks_closings(&self) -> bool {
        self.asks_closings
    }

    /// Reserves memory for the rows of `lines` lines, each of at most `longest` bytes.
    pub(crate) fn lend(&mut self, lines: usize, longest: usize) -> raw::RowsAsMut<'_> {
        let grow = |have: usize, need: usize| need.max(have);
        self.text.resize(grow(self.text.len(), longest * lines), 0);
        self.moments.resize(grow(self.moments.len(), lines), 0);
        self.records.resize(raw::ROW * self.moments.len(), 0);
        if self.asks_closings {
            // Telegrams that are open, those that these lines open, and what one more line may close.
            self.closed.resize(grow(self.closed.len(), raw::CLOSING * (lines + 2 * raw::CAPACITY)), 0);
        }
        raw::RowsAsMut { text: &mut self.text, moments: &mut self.moments, rows: &mut self.records, closed: &mut self.closed }
    }

    pub(crate) fn told(&mut self, [used, written, rows, lines, closings]: [u64; raw::LINES_AS_DONE]) -> Lines {
        self.done = Lines::of([used, written, rows, lines]);
        self.closings = size(closings);
        self.done
    }

    /// Appends what other lines gave.
    fn append(&mut self, other: &Taken) {
        self.text.truncate(self.done.written);
        self.text.extend_from_slice(other.text());
        self.moments.truncate(self.done.rows);
        self.moments.extend_from_slice(other.moments());
        self.records.truncate(raw::ROW * self.done.rows);
        self.records.extend_from_slice(other.records());
        self.closed.truncate(raw::CLOSING * self.closings);
        self.closed.extend_from_slice(&other.closed[..raw::CLOSING * other.closings]);
        let Lines { used, written, rows, lines } = other.done;
        self.done.used += used;
        self.done.written += written;
        self.done.rows += rows;
        self.done.lines += lines;
        self.closings += other.closings;
    }
}

/// A collector that is fed the bytes of a log in pieces, cut anywhere, and yields rows.
///
/// ```
/// use mooringeye::{Collector, Format, Session};
///
/// let mut session = Session::new(Collector::new(), 1, Format::Json).unwrap();
/// assert_eq!(session.feed(b"1000 D50901020").text(), b"");
/// let taken = session.feed(b"30400E8\n1012 D5090102030401E9");
/// assert!(taken.text().starts_with(b"{\"time\":1000,\"answer\":\"KEPT\""));
/// assert_eq!(taken.rows().count(), 1);
/// assert_eq!(session.end().lines(), 1); // the line that no newline ended
/// assert_eq!(session.collector().totals().copies, 1);
/// ```
#[derive(Clone, Debug)]
pub struct Session {
    collector: Collector,
    setting: u8,
    format: Format,
    /// A line that has not ended, as much of it as matters.
    rest: Vec<u8>,
    part: Taken,
    whole: Taken,
}

impl Session {
    /// How many lines a call takes.
    const BATCH: usize = 4_096;

    /// Behind the first line of a log, which says the setting: [`FirstLine`] reads it. Refused: [`Refusal::Argument`] for a setting over 2.
    pub fn new(collector: Collector, setting: u8, format: Format) -> Result<Session, Refusal> {
        let (mut collector, mut part) = (collector, Taken::with_closings());
        collector.lines_as(setting, format, b"", 0, &mut part)?;
        Ok(Session { collector, setting, format, rest: vec![], part, whole: Taken::with_closings() })
    }

    /// Takes the next bytes: what the lines gave that ended in them.
    pub fn feed(&mut self, bytes: &[u8]) -> &Taken {
        self.whole.clear();
        self.rest.extend_from_slice(bytes);
        let mut used = 0;
        loop {
            let done = self.collector.lines_as(self.setting, self.format, &self.rest[used..], Session::BATCH, &mut self.part);
            let done = done.expect("the setting is right, and so is a collector");
            if done.lines == 0 {
                break;
            }
            self.whole.append(&self.part);
            used += done.used;
        }
        self.rest.drain(..used);
        // A line that is longer than the longest is always BAD.
        self.rest.truncate(raw::LINE_LIMIT);
        &self.whole
    }

    /// The input has ended: a line that no newline ended counts, as `collect` counts it.
    pub fn end(&mut self) -> &Taken {
        let end: &[u8] = if self.rest.is_empty() { b"" } else { b"\n" };
        self.feed(end)
    }

    /// The collector after the lines that were taken.
    pub fn collector(&self) -> &Collector {
        &self.collector
    }
}

/// What the first line of a text says.
///
/// ```
/// use mooringeye::FirstLine;
///
/// assert_eq!(FirstLine::of(b"level 2\n1000 D5\n"), FirstLine::Level { setting: 2, used: 8 });
/// assert_eq!(FirstLine::of(b"level 3\n"), FirstLine::Bad { used: 8 });
/// assert_eq!(FirstLine::of(b"level 2"), FirstLine::Unended);
/// ```
#[derive(Clone, Copy, Debug, PartialEq, Eq, Hash)]
pub enum FirstLine {
    /// `level 0`, `level 1` or `level 2`: the setting of a repeater, and the bytes of the line with its newline.
    Level {
        /// 0, 1 or 2.
        setting: u8,
        /// The bytes of the line.
        used: usize,
    },
    /// Any other line: `collect` prints BAD for it and ends.
    Bad {
        /// The bytes of the line.
        used: usize,
    },
    /// No newline ends it.
    Unended,
}

impl FirstLine {
    /// Reads it.
    pub fn of(text: &[u8]) -> FirstLine {
        let mut used = 0;
        match raw::first_line(text, &mut used) {
            setting @ 0..=2 => FirstLine::Level { setting, used: size(used) },
            3 => FirstLine::Bad { used: size(used) },
            _ => FirstLine::Unended,
        }
    }
}

/// The reception that a line says, without its newline: the time and the bytes; none for a line that is BAD.
///
/// ```
/// assert_eq!(mooringeye::read_line(b"1000 d509"), Some((1_000, vec![0xD5, 0x09])));
/// assert_eq!(mooringeye::read_line(b"1000 d50"), None);
/// ```
pub fn read_line(line: &[u8]) -> Option<(u64, Vec<u8>)> {
    let text = [line, b"\n"].concat();
    let (mut bytes, mut done) = ([0; raw::LINE_BYTES], [0; raw::LINE_READ]);
    let number = raw::read_line(&text, &mut bytes, &mut done);
    let [time, length, used] = done;
    (number == 0 && size(used) == text.len()).then(|| (time, bytes[..size(length)].to_vec()))
}

/// The bytes that hexadecimal digits say, two each, in either case; none for any other text. The digits are read as those of lines are.
///
/// ```
/// assert_eq!(mooringeye::bytes_of_hex("D5090a"), Some(vec![0xD5, 0x09, 0x0A]));
/// assert_eq!(mooringeye::bytes_of_hex("D5090"), None);
/// ```
pub fn bytes_of_hex(text: &str) -> Option<Vec<u8>> {
    let mut bytes = Vec::with_capacity(text.len() / 2);
    for digits in text.as_bytes().chunks(2 * raw::LINE_BYTES) {
        bytes.extend(read_line(&[b"0 ", digits].concat())?.1);
    }
    Some(bytes)
}

/// The bytes of whole lines at the start of a text, at most `most`, and how many these lines are.
///
/// ```
/// assert_eq!(mooringeye::skip_lines(b"1\n22\n333\n4", 2), (5, 2));
/// assert_eq!(mooringeye::skip_lines(b"1\n22\n333\n4", 9), (9, 3));
/// ```
pub fn skip_lines(text: &[u8], most: usize) -> (usize, usize) {
    let mut done = [0; 2];
    raw::skip_lines(text, most, &mut done);
    let [used, lines] = done.map(size);
    (used, lines)
}

/// How many lines end in a text. It counts in parts whose count fits a byte, which lets the compiler compare many characters at once.
pub(crate) fn newlines(text: &[u8]) -> usize {
    let in_part = |part: &[u8]| part.iter().map(|c| u8::from(*c == b'\n')).sum::<u8>();
    text.chunks(usize::from(u8::MAX)).map(|part| usize::from(in_part(part))).sum()
}

fn size(n: u64) -> usize {
    usize::try_from(n).expect("the library counts what lies in memory")
}

#[cfg(test)]
mod tests {
    use super::*;
    use crate::Archive;

    const TEXT: &[u8] = b"1000 D5090102030400E8\n1012 D5090102030401E9\nnothing\n1101 d5090102030400e8\n1102 D5";
    const PRINTED: &[u8] = b"1000 KEPT SEND D5090102030401E9\n1012 COPY\nBAD\n1101 KEPT SEND D5090102030401E9\n";

    /// The text in pieces of `piece` bytes, with at most `most` lines and `places` rows a call: all that was printed, and the rows.
    fn fed(piece: usize, most: usize, places: usize) -> (Vec<u8>, Vec<u64>, Vec<u8>) {
        let mut collector = Collector::new();
        let (mut kept, mut text, mut moments, mut rows) = (vec![], vec![], vec![], vec![]);
        for part in TEXT.chunks(piece) {
            kept.extend_from_slice(part);
            loop {
                let (mut out, mut at, mut records) = ([0; 400], vec![0; places], vec![0; raw::ROW * places]);
                let done = collector.lines(1, &kept, most, &mut out, &mut at, &mut records).unwrap();
                text.extend_from_slice(&out[..done.written]);
                moments.extend_from_slice(&at[..done.rows]);
                rows.extend_from_slice(&records[..raw::ROW * done.rows]);
                kept.drain(..done.used);
                if done.lines < most && done.rows < places {
                    break;
                }
            }
        }
        assert_eq!(kept, b"1102 D5");
        assert_eq!((collector.totals().received, collector.totals().kept), (3, 2));
        (text, moments, rows)
    }

    #[test]
    fn cuts_change_nothing() {
        let whole = fed(TEXT.len(), 100, 9);
        assert_eq!(whole.0, PRINTED);
        assert_eq!(whole.1, [1_000, 1_101]);
        for piece in 1..TEXT.len() {
            for (most, places) in [(1, 1), (2, 1), (3, 9), (100, 2)] {
                assert_eq!(fed(piece, most, places), whole, "pieces of {piece}, {most} lines and {places} rows a call");
            }
        }
    }

    const CSV: &[u8] = b"1000,KEPT,,D5090102030400E8,D5090102030401E9,01020304,D5,0\n1012,COPY,,D5090102030401E9,,01020304,D5,1\n\
        ,BAD,,,,,,\n1101,KEPT,,D5090102030400E8,D5090102030401E9,01020304,D5,0\n";

    /// All that a session gives for the text in pieces of `piece` bytes, without its last line.
    fn session(piece: usize, format: Format) -> (Vec<u8>, Vec<Row>, Vec<Closing>, Session) {
        let mut session = Session::new(Collector::new(), 1, format).unwrap();
        let (mut text, mut rows, mut closings) = (vec![], vec![], vec![]);
        for part in TEXT.chunks(piece) {
            let taken = session.feed(part);
            text.extend_from_slice(taken.text());
            rows.extend(taken.rows());
            closings.extend(taken.closings());
        }
        (text, rows, closings, session)
    }

    #[test]
    fn sessions_in_every_format() {
        for (format, expected) in [(Format::Text, PRINTED), (Format::Csv, CSV)] {
            for piece in 1..=TEXT.len() {
                let (text, rows, closings, mut session) = session(piece, format);
                assert_eq!(text, expected, "pieces of {piece}");
                assert_eq!(rows.iter().map(|row| row.time).collect::<Vec<_>>(), [1_000, 1_101]);
                let telegram = Telegram::new(&[0xD5, 0x09, 1, 2, 3, 4, 0, 0xE8]).unwrap();
                assert_eq!(closings, [Closing { opened: 1_000, telegram, copies: 1 }]);
                assert_eq!(session.end().lines(), 1);
                assert_eq!(session.end().lines(), 0);
                assert_eq!((session.collector().totals().received, session.collector().totals().damaged), (4, 1));
            }
        }
        assert!(session(9, Format::Json).0.starts_with(b"{\"time\":1000,"));
        assert_eq!(Session::new(Collector::new(), 3, Format::Text).unwrap_err(), Refusal::Argument);
    }

    #[test]
    fn a_long_line_is_one_bad_row() {
        let mut session = Session::new(Collector::new(), 0, Format::Csv).unwrap();
        for _ in 0..1_000 {
            assert_eq!(session.feed(&[b'7'; 100]).lines(), 0);
        }
        assert_eq!(session.feed(b"\n1 D5090102030400E8\n").text(), b",BAD,,,,,,\n1,KEPT,,D5090102030400E8,,01020304,D5,0\n");
    }

    /// More lines than a call takes, and more than 64 telegrams that close with one.
    #[test]
    fn many_lines() {
        let press = |id: u16, time: u64| {
            let [high, low] = id.to_be_bytes();
            let fields = crate::Fields { rorg: 0xD5, data: vec![9], destid: None, txid: [1, 2, high, low], status: 0 };
            format!("{time} {}\n", Telegram::build(&fields).unwrap())
        };
        let text: String = (0..20_000).map(|i| press(i, u64::from(i) * 3)).collect();
        let mut session = Session::new(Collector::new(), 0, Format::Text).unwrap();
        let taken = session.feed(text.as_bytes());
        assert_eq!((taken.lines(), taken.rows().count()), (20_000, 20_000));
        let opened: Vec<u64> = taken.closings().map(|c| c.opened).collect();
        assert_eq!(opened, (0..20_000 - 34).map(|i| i * 3).collect::<Vec<_>>());
        let mut text_alone = Taken::new();
        Collector::new().lines_as(0, Format::Text, text.as_bytes(), usize::MAX, &mut text_alone).unwrap();
        assert_eq!(text_alone.closings().count(), 0);
        let mut again = Session::new(Collector::new(), 0, Format::Text).unwrap();
        assert!(again.feed(text.as_bytes()).text() == text_alone.text());
    }

    #[test]
    fn newlines_are_counted() {
        for n in [0, 1, 254, 255, 256, 510, 511, 100_000] {
            assert_eq!(newlines(&vec![b'\n'; n]), n);
            assert_eq!(newlines(&vec![b'0'; n]), 0);
            assert_eq!(newlines("1 D5\n".repeat(n).as_bytes()), n);
        }
    }

    #[test]
    fn lines_and_digits() {
        for line in ["", "1", "01 D5", "1 D5\n", "1 D5\n2 D5", "1 D5 ", "18446744073709551616 D5"] {
            assert_eq!(read_line(line.as_bytes()), None, "{line:?}");
        }
        assert_eq!(read_line(b"18446744073709551615 "), Some((u64::MAX, vec![])));
        let bytes: Vec<u8> = (0..=255).collect();
        let digits: String = bytes.iter().map(|b| format!("{b:02X}")).collect();
        for n in 0..=256 {
            assert_eq!(bytes_of_hex(&digits[..2 * n]).as_deref(), Some(&bytes[..n]));
            assert_eq!(bytes_of_hex(&digits[..2 * n].to_lowercase()).as_deref(), Some(&bytes[..n]));
            assert_eq!(bytes_of_hex(&format!("{}G", &digits[..2 * n])), None);
        }
        for text in ["0", "0G", "0 ", " 00", "0\n", "00\n", "\n", "+1"] {
            assert_eq!(bytes_of_hex(text), None, "{text:?}");
        }
    }

    #[test]
    fn an_archive_takes_the_rows() {
        let (_, moments, rows) = fed(TEXT.len(), 100, 9);
        let mut block = vec![0; 512];
        let mut position = 0;
        assert_eq!(raw::archive_put_rows(&mut block, 0, &moments, &rows, &mut position), 0);
        let archive = Archive::open(&mut block).unwrap();
        let stored: Vec<_> = archive.rows().map(|r| (r.time, r.loose, r.telegram.to_string())).collect();
        assert_eq!(stored, [1_000, 1_101].map(|time| (time, false, "D5090102030400E8".to_string())));
    }
}
