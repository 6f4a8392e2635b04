//! `mooringeye picture`: every reception of a log as one HTML page. A lane for each transmitter and repeater level, a mark for each reception by its
//! answer, and a shade for the times in which a telegram is open. The log is handed to a separate collector, so nothing of the plant is changed.
use crate::args::Args;
use crate::failure::{tell, Failure};
use crate::journal::RECORD;
use crate::list::Wanted;
use crate::names::Names;
use crate::page::{self, escaped, hex, Axis, Colours, BOTTOM, LEFT, MAX_MARKS, TOP, WIDTH};
use crate::streams::{quietly, Output};
use crate::text;
use crate::times::iso;
use mooringeye::raw::{LINE_LIMIT, LONGEST_ROW};
use mooringeye::{Collector, FirstLine, Refusal, Telegram};
use std::collections::BTreeSet;
use std::fmt::Write;
use std::fs::File;
use std::io::Read;
use std::path::Path;

/// How much of a log is read at once, and how many lines are taken.
const CHUNK: usize = 1 << 20;
const LINES: usize = 4_096;
/// How long a telegram is open after its opening, and how long its sender may still send it, in ms: the second is `tx_maturity` of
/// crates/collector_model/specs/View.antt.
const OPEN: u64 = Collector::OPEN_FOR;
const SENT: u64 = 40;
/// Heights in pixels: of a transmitter's heading and of a lane.
const HEADING: f64 = 20.0;
const LANE: f64 = 22.0;

pub fn run(args: &Args) -> Result<(), Failure> {
    let wanted = Wanted::of(args)?;
    let names = Names::of(args)?.unwrap_or_default();
    let level = args.value("level", "0, 1 or 2", |t| text::number(t).filter(|n| *n <= 2))?.map(|n| n as u8);
    let mut reader = Reader::of(level, &wanted);
    for name in args.at_least_one()? {
        reader.read(Path::new(name))?;
    }
    reader.tell_what_is_missing();
    let picture = Picture::of(&reader, &names);
    let text = if args.has("svg") { picture.svg() } else { picture.html() };
    quietly(Output::standard()?.write(text.as_bytes()))
}

/// How a reception was answered.
#[derive(Clone, Copy, Debug, PartialEq, Eq)]
enum Answer {
    Kept,
    Copy,
    Loose,
    Late,
    Damaged(Refusal),
}

impl Answer {
    fn word(self) -> &'static str {
        match self {
            Answer::Kept => "KEPT",
            Answer::Copy => "COPY",
            Answer::Loose => "LOOSE",
            Answer::Late => "LATE",
            Answer::Damaged(_) => "DAMAGED",
        }
    }

    fn class(self) -> String {
        format!("reception {}", self.word().to_lowercase())
    }
}

/// The fields of a reception that is a telegram.
struct Fields {
    txid: [u8; 4],
    level: u8,
    rorg: String,
    data: String,
}

impl Fields {
    fn of(telegram: &Telegram) -> Fields {
        let fields = telegram.fields();
        Fields { txid: fields.txid, level: fields.level(), rorg: hex(&[fields.rorg]), data: hex(&fields.data) }
    }

    fn kind(&self) -> String {
        format!("{} {}", self.rorg, self.data)
    }
}

struct Reception {
    time: u64,
    answer: Answer,
    /// None for a damaged one.
    fields: Option<Fields>,
    bytes: String,
}

impl Reception {
    /// The reception of a line and its row as text; none if the line is BAD.
    fn of(line: &str, row: &str) -> Option<Reception> {
        let (time, digits) = line.split_once(' ')?;
        let word = row.split(' ').nth(1)?;
        let bytes = text::bytes_of_hex(digits)?;
        let telegram = Telegram::new(&bytes);
        let answer = match (&telegram, word) {
            (Err(why), _) => Answer::Damaged(*why),
            (Ok(_), "KEPT") => Answer::Kept,
            (Ok(_), "COPY") => Answer::Copy,
            (Ok(_), "LOOSE") => Answer::Loose,
            (Ok(_), _) => Answer::Late,
        };
        Some(Reception { time: text::number(time)?, answer, fields: telegram.ok().as_ref().map(Fields::of), bytes: hex(&bytes) })
    }
}

/// A telegram that was opened.
struct Opening {
    time: u64,
    txid: [u8; 4],
    kind: String,
}

/// Logs that are being handed to a collector.
struct Reader<'a> {
    wanted: &'a Wanted,
    level: Option<u8>,
    collector: Collector,
    /// The chosen ones.
    receptions: Vec<Reception>,
    openings: Vec<Opening>,
    bad: u64,
    /// BAD lines that end in CR LF.
    ended_by_cr: u64,
    /// The first and the last time of the logs, chosen or not.
    span: Option<(u64, u64)>,
}

impl<'a> Reader<'a> {
    fn of(level: Option<u8>, wanted: &'a Wanted) -> Reader<'a> {
        let (receptions, openings) = (Vec::new(), Vec::new());
        Reader { wanted, level, collector: Collector::new(), receptions, openings, bad: 0, ended_by_cr: 0, span: None }
    }

    /// Reports which lines are not drawn, and why a picture is empty.
    fn tell_what_is_missing(&self) {
        if self.bad > 0 {
            let cr = format!(". {} of them end in CR LF: `tr -d '\\r'` takes the CR away", self.ended_by_cr);
            tell(format!("{} BAD lines are not drawn{}", self.bad, if self.ended_by_cr > 0 { &cr } else { "" }));
        }
        match self.span {
            _ if !self.receptions.is_empty() => {}
            None => tell("the picture is empty: the logs have no reception"),
            Some((first, last)) => tell(format!(
                "the picture is empty: the logs have receptions from {first} ({}) to {last} ({}), and --from, --to and --txid choose none",
                iso(first),
                iso(last)
            )),
        }
    }

    /// Reads a log to its end; a last line without a newline does not count.
    fn read(&mut self, path: &Path) -> Result<(), Failure> {
        let mut file = File::open(path).map_err(|e| Failure::of(format!("open {}", path.display()), &e))?;
        let mut buffer = vec![0; LINE_LIMIT + CHUNK];
        let (mut carried, mut is_first) = (0, true);
        loop {
            let read = file.read(&mut buffer[carried..]).map_err(|e| Failure::of(format!("read {}", path.display()), &e))?;
            let filled = carried + read;
            // A pipe may give the first line in pieces.
            if is_first && read > 0 && filled < LINE_LIMIT && FirstLine::of(&buffer[..filled]) == FirstLine::Unended {
                carried = filled;
                continue;
            }
            let mut used = 0;
            if std::mem::take(&mut is_first) {
                used = self.begin(path, &buffer[..filled])?;
            }
            used += self.take(&buffer[used..filled])?;
            if read == 0 {
                return Ok(());
            }
            // A line that is longer than the longest is always BAD.
            carried = (filled - used).min(LINE_LIMIT);
            buffer.copy_within(used..used + carried, 0);
        }
    }

    /// Takes the first line of a log, if it has a level; returns how long it is.
    fn begin(&mut self, path: &Path, text: &[u8]) -> Result<usize, Failure> {
        match (FirstLine::of(text), self.level) {
            _ if text::is_packed(text) => Err(Failure::Failed(format!("{0}: packed. Unpack it first; for gzip, write <(zcat {0}).", path.display()))),
            (FirstLine::Level { setting, .. }, Some(level)) if setting != level => {
                Err(Failure::Usage(format!("the first line of {} says level {setting}, but the level is {level}", path.display())))
            }
            (FirstLine::Level { setting, used }, _) => {
                self.level = Some(setting);
                Ok(used)
            }
            (_, None) => Err(Failure::Usage(format!("{}: without --level the first line must be `level 0`, `level 1` or `level 2`", path.display()))),
            _ => Ok(0),
        }
    }

    /// Takes the whole lines of a text; returns how long they are.
    fn take(&mut self, text: &[u8]) -> Result<usize, Failure> {
        let level = self.level.expect("known since the first line");
        let (mut out, mut times, mut records) = (vec![0; LONGEST_ROW * (LINES + 1)], vec![0; LINES + 1], vec![0; RECORD * (LINES + 1)]);
        let mut used = 0;
        loop {
            let took = self.collector.lines(level, &text[used..], LINES, &mut out, &mut times, &mut records);
            let took = took.map_err(|why| Failure::refused("the collector", why))?;
            if took.lines == 0 {
                return Ok(used);
            }
            self.choose(&text[used..used + took.used], &out[..took.written]);
            page::check_marks(self.receptions.len(), "receptions")?;
            used += took.used;
        }
    }

    /// Chooses from lines and their rows.
    fn choose(&mut self, lines: &[u8], rows: &[u8]) {
        let each = |text| String::from_utf8_lossy(text).into_owned();
        for (line, row) in each(lines).split('\n').zip(each(rows).lines()) {
            match Reception::of(line, row) {
                None => (self.bad, self.ended_by_cr) = (self.bad + 1, self.ended_by_cr + u64::from(line.ends_with('\r'))),
                Some(reception) => self.look(reception),
            }
        }
    }

    fn look(&mut self, reception: Reception) {
        let (time, from, to) = (reception.time, self.wanted.from, self.wanted.to);
        let (first, last) = self.span.unwrap_or((time, time));
        self.span = Some((first.min(time), last.max(time)));
        match &reception.fields {
            Some(fields) if !self.wanted.has_transmitter(&fields.txid) => return,
            Some(fields) if reception.answer == Answer::Kept && time <= to && from <= time.saturating_add(OPEN) => {
                self.openings.push(Opening { time, txid: fields.txid, kind: fields.kind() });
            }
            // The transmitter of a damaged one is not known.
            None if !self.wanted.has_every_transmitter() => return,
            _ => {}
        }
        if (from..=to).contains(&time) && self.receptions.len() <= MAX_MARKS {
            self.receptions.push(reception);
        }
    }
}

/// The lanes of a transmitter, one for each level at which it was received.
struct Group {
    txid: [u8; 4],
    levels: BTreeSet<u8>,
    top: f64,
}

impl Group {
    fn height(&self) -> f64 {
        HEADING + LANE * self.levels.len() as f64
    }

    fn y(&self, level: u8) -> f64 {
        let at = self.levels.iter().position(|l| *l == level).unwrap_or(0);
        self.top + HEADING + LANE * (at as f64 + 0.5)
    }
}

struct Picture<'a> {
    receptions: &'a [Reception],
    openings: &'a [Opening],
    bad: u64,
    names: &'a Names,
    /// Transmitters in the order of their first receptions.
    groups: Vec<Group>,
    colours: Colours,
    axis: Axis,
    /// Where the lane of damaged ones begins, and where everything ends.
    damaged: f64,
    height: f64,
}

impl<'a> Picture<'a> {
    fn of(reader: &'a Reader, names: &'a Names) -> Picture<'a> {
        let Reader { receptions, openings, bad, wanted, .. } = reader;
        let (mut groups, mut colours): (Vec<Group>, _) = (Vec::new(), Colours::default());
        for fields in receptions.iter().filter_map(|r| r.fields.as_ref()) {
            colours.add(fields.kind());
            match groups.iter_mut().find(|group| group.txid == fields.txid) {
                Some(group) => _ = group.levels.insert(fields.level),
                None => groups.push(Group { txid: fields.txid, levels: BTreeSet::from([fields.level]), top: 0.0 }),
            }
        }
        let mut damaged = TOP;
        for group in &mut groups {
            group.top = damaged;
            damaged += group.height();
        }
        let has_damaged = receptions.iter().any(|r| r.fields.is_none());
        let height = damaged + if has_damaged || groups.is_empty() { HEADING + LANE } else { 0.0 } + BOTTOM;
        let axis = Axis::of((wanted.from, wanted.to), receptions.iter().map(|r| r.time));
        Picture { receptions, openings, bad: *bad, names, groups, colours, axis, damaged, height }
    }

    /// The picture by itself.
    fn svg(&self) -> String {
        let mut out = String::new();
        self.axis.put(&mut out, self.height);
        self.openings.iter().for_each(|opening| self.put_window(&mut out, opening));
        self.put_lanes(&mut out);
        self.receptions.iter().for_each(|reception| self.put_mark(&mut out, reception));
        page::svg(self.height, &format!("Receptions of {} transmitters", self.groups.len()), &out)
    }

    /// Puts the time in which a telegram is open, darker as long as its sender may still send it, over the lanes of its transmitter.
    fn put_window(&self, out: &mut String, opening: &Opening) {
        let Some(group) = self.groups.iter().find(|group| group.txid == opening.txid) else { return };
        let fill = self.colours.of(&opening.kind);
        for (class, ms, opacity) in [("window open", OPEN, 0.12), ("window sent", SENT, 0.16)] {
            let [from, to] = [opening.time, opening.time.saturating_add(ms)].map(|t| self.axis.x(t.clamp(self.axis.from, self.axis.to)));
            let (y, height) = (group.top + HEADING, group.height() - HEADING);
            let _ = writeln!(
                out,
                "<rect class=\"{class}\" x=\"{from:.1}\" y=\"{y:.1}\" width=\"{:.1}\" height=\"{height:.1}\" fill=\"{fill}\" fill-opacity=\"{opacity}\"/>",
                to - from
            );
        }
    }

    fn put_lanes(&self, out: &mut String) {
        let mut lane = |y: f64, label: &str| {
            let _ = writeln!(out, "<line class=\"lane\" x1=\"{LEFT}\" y1=\"{y:.1}\" x2=\"{}\" y2=\"{y:.1}\" stroke=\"#bbbbbb\"/>", LEFT + WIDTH);
            let (x, y) = (LEFT - 10.0, y + 4.0);
            let _ = writeln!(out, "<text x=\"{x}\" y=\"{y:.1}\" text-anchor=\"end\" font-size=\"11\" fill=\"#555555\">{label}</text>");
        };
        for group in &self.groups {
            group.levels.iter().for_each(|level| lane(group.y(*level), level_words(*level).as_str()));
        }
        if self.receptions.iter().any(|r| r.fields.is_none()) {
            lane(self.damaged + HEADING + LANE / 2.0, "damaged");
        }
        for group in &self.groups {
            page::put_transmitter(out, group.top + 14.0, &group.txid, self.names.name(&group.txid));
        }
    }

    fn put_mark(&self, out: &mut String, reception: &Reception) {
        let (x, y) = (self.axis.x(reception.time), self.y(reception));
        let colour = reception.fields.as_ref().map_or("#000000", |fields| self.colours.of(&fields.kind()));
        let class = reception.answer.class();
        let title = format!("<title>{}</title>", self.title(reception));
        let _ = match reception.answer {
            Answer::Kept => {
                let (x, y) = (x - 2.0, y - 9.0);
                writeln!(out, "<rect class=\"{class}\" x=\"{x:.1}\" y=\"{y:.1}\" width=\"4\" height=\"18\" fill=\"{colour}\">{title}</rect>")
            }
            Answer::Copy => writeln!(
                out,
                "<circle class=\"{class}\" cx=\"{x:.1}\" cy=\"{y:.1}\" r=\"4\" fill=\"#ffffff\" stroke=\"{colour}\" stroke-width=\"1.8\">{title}</circle>"
            ),
            Answer::Loose => {
                let path = format!("M{:.1} {:.1}L{:.1} {:.1}L{x:.1} {:.1}Z", x - 5.0, y + 8.0, x + 5.0, y + 8.0, y - 8.0);
                writeln!(out, "<path class=\"{class}\" d=\"{path}\" fill=\"{colour}\" stroke=\"#000000\">{title}</path>")
            }
            Answer::Late | Answer::Damaged(_) => {
                let (left, right, top, bottom) = (x - 4.0, x + 4.0, y - 4.0, y + 4.0);
                let path = format!("M{left:.1} {top:.1}L{right:.1} {bottom:.1}M{left:.1} {bottom:.1}L{right:.1} {top:.1}");
                writeln!(out, "<path class=\"{class}\" d=\"{path}\" stroke=\"{colour}\" stroke-width=\"2\">{title}</path>")
            }
        };
    }

    fn y(&self, reception: &Reception) -> f64 {
        let lane = reception.fields.as_ref().and_then(|fields| Some((fields, self.groups.iter().find(|group| group.txid == fields.txid)?)));
        lane.map_or(self.damaged + HEADING + LANE / 2.0, |(fields, group)| group.y(fields.level))
    }

    fn title(&self, reception: &Reception) -> String {
        let Reception { time, answer, fields, bytes } = reception;
        let what = match (fields, answer) {
            (Some(fields), Answer::Kept) => format!("{}, {}, open until {} ms", fields.kind(), level_words(fields.level), time.saturating_add(OPEN)),
            (Some(fields), _) => format!("{}, {}", fields.kind(), level_words(fields.level)),
            (None, Answer::Damaged(why)) => format!("{bytes}: {why}"),
            (None, _) => bytes.clone(),
        };
        format!("{} ({time} ms) {} {what}", iso(*time), answer.word())
    }

    /// The page: picture, legend and table.
    fn html(&self) -> String {
        let counts = [Answer::Kept, Answer::Copy, Answer::Loose, Answer::Late].map(|answer| {
            let count = self.receptions.iter().filter(|r| r.answer == answer).count();
            format!("{} {count}", answer.word())
        });
        let damaged = self.receptions.iter().filter(|r| r.fields.is_none()).count();
        let mut out = format!("<p>Receptions: {}. Transmitters: {}. {}, ", self.receptions.len(), self.groups.len(), counts.join(", "));
        let _ = writeln!(out, "DAMAGED {damaged}. BAD lines of the whole log: {}.</p>", self.bad);
        out += &self.svg();
        self.colours.put_legend(&mut out);
        let _ = writeln!(
            out,
            ".</p>\n<p>A bar is KEPT, a ring COPY, a triangle LOOSE, a cross LATE. A reception that is damaged says no transmitter: its cross stands on a \
             lane below. A telegram is open where its colour is shaded, {OPEN} ms from its opening; the first {SENT} ms are darker, since its \
             sender may still send it. The same telegram in the shade is a COPY, but an original (level 0) behind the darker part is KEPT: its sender was \
             finished, so it is a second event.</p>"
        );
        let heading = ["time", "ms", "answer", "transmitter", "name", "level", "RORG", "data", "received"];
        page::put_table(&mut out, &heading, self.receptions.iter().map(|reception| self.cells(reception)));
        page::html(&self.axis.heading(), &out)
    }

    fn cells(&self, reception: &Reception) -> Vec<String> {
        let Reception { time, answer, fields, bytes } = reception;
        let answer = match answer {
            Answer::Damaged(why) => format!("DAMAGED ({why})"),
            answer => answer.word().into(),
        };
        let mut cells = vec![iso(*time), time.to_string(), answer];
        cells.extend(match fields {
            None => [const { String::new() }; 5],
            Some(fields) => {
                let name = escaped(self.names.name(&fields.txid));
                [hex(&fields.txid), name, fields.level.to_string(), fields.rorg.clone(), fields.data.clone()]
            }
        });
        cells.push(bytes.clone());
        cells
    }
}

fn level_words(level: u8) -> String {
    match level {
        0 => "original".into(),
        level => format!("level {level}"),
    }
}
