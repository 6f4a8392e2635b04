//! Power cuts on a simulated disk (tests/powercut): a run of the tool's own code is recorded change by change. From each moment, disks are made as a
//! power cut may leave them. Each is recovered, sometimes with another power cut meanwhile, and compared with the undisturbed run.
//!
//! MOORINGEYE_IMAGES says how many disks are tried; 3,000 if it is not set.
mod disk;
use crate::failure::Failure;
use crate::journal::{rows_of, Stored};
use crate::keeper::{Files, Keeper, Step, MAX_BATCH, ORDER};
use crate::rows::Format;
use crate::store::Place;
use crate::text;
use disk::{Content, Fault, Random, Sharing, Simulated};
use mooringeye::Block;
use std::collections::BTreeMap;
use std::path::Path;
use std::rc::Rc;

const LEVEL: u8 = 1;

/// Whether there is a log to read again.
#[derive(Clone, Copy, Debug, PartialEq, Eq)]
enum Kind {
    Log,
    /// There is none.
    Feed,
    /// There is one, and another collector has written rows after ours.
    TwoStates,
}

/// A log, the files that are kept, and what is on disk after all of it was taken without a disturbance.
struct Plant {
    log: Vec<u8>,
    /// Where each line begins, and where the last one ends.
    starts: Vec<usize>,
    files: Files,
    kind: Kind,
    fault: Fault,
    /// The disk before each change, how many lines were read then, and what was printed.
    moments: Vec<Moment>,
    end: Content,
    /// The line from which rows were printed, and the rows.
    start: usize,
    printed: Vec<u8>,
}

struct Moment {
    disk: Content,
    read: usize,
    printed: usize,
}

/// How a run of the tool ended, and what it printed, from which line on.
struct Ran {
    from: usize,
    read: usize,
    printed: Vec<u8>,
    end: Result<(), Failure>,
}

fn telegram(random: &mut Random) -> Vec<u8> {
    let mut bytes = vec![0xA5];
    bytes.extend((0..4).map(|_| random.below(3) as u8));
    bytes.extend([1, 2, 3, random.below(20) as u8, random.below(2) as u8]);
    bytes.push(bytes.iter().fold(0, |sum: u8, b| sum.wrapping_add(*b)));
    bytes
}

/// Lines with new telegrams, copies, late, damaged and BAD ones.
fn log(lines: usize, random: &mut Random) -> (Vec<u8>, Vec<usize>) {
    let (mut text, mut starts, mut now) = (Vec::new(), vec![0], 1_000_000);
    let mut latest = telegram(random);
    for _ in 0..lines {
        now += random.below(60) as u64;
        match random.below(20) {
            0 => text.extend_from_slice(b"gateway restarted"),
            kind => {
                if kind > 4 {
                    latest = telegram(random);
                }
                text::put_number(&mut text, if kind == 1 { now - 500 } else { now });
                text.push(b' ');
                text::put_hex(&mut text, &latest[..latest.len() - usize::from(kind == 2)]);
            }
        }
        text.push(b'\n');
        starts.push(text.len());
    }
    (text, starts)
}

impl Plant {
    fn of(seed: u64, kind: Kind, fault: Fault, order: [Step; 4]) -> Result<Plant, String> {
        let mut random = Random(seed);
        let (log, starts) = log(30 + random.below(120), &mut random);
        let place = match random.below(3) {
            0 => Place::of(Path::new("a.arc"), None).unwrap().growing_by(4),
            n => Place::of(Path::new("a-##.arc"), Some(1 + n as u64)).unwrap().growing_by(4),
        };
        let out = (random.below(2) == 0).then(|| "out".into());
        let heard = (random.below(2) == 0).then(|| "heard".into());
        let (state, format) = (Some("s".into()), Format::Text);
        let files = Files { state, archive: Some(place), out, heard, new_state: false, adopt: false, format, order };
        let mut plant = Plant { log, starts, files, kind, fault, moments: Vec::new(), end: Content::default(), start: 0, printed: Vec::new() };
        plant.record(&mut random).map_err(|failure| format!("refused before the power was cut: {}", failure.text()))?;
        Ok(plant)
    }

    /// The undisturbed run.
    fn record(&mut self, random: &mut Random) -> Result<(), Failure> {
        let before = if self.kind == Kind::TwoStates { self.with_other_rows(random) } else { Content::default() };
        let disk = Simulated::of(before, self.fault, usize::MAX, true);
        let mut marks = Vec::new();
        let changes = || disk.history.as_ref().expect("kept").borrow().len();
        let ran = self.run(&disk, 0, random, |read, printed| marks.push((changes(), read, printed)));
        ran.end?;
        self.start = ran.from;
        self.printed = ran.printed;
        self.end = disk.content();
        let history = disk.history.as_ref().expect("kept").take();
        for (at, disk) in history.into_iter().enumerate() {
            let (_, read, printed) = marks.iter().rev().find(|mark| mark.0 <= at + 1).copied().unwrap_or((0, 0, 0));
            self.moments.push(Moment { disk, read, printed });
        }
        Ok(())
    }

    /// The disk after the first lines are taken, with rows of another collector after theirs.
    fn with_other_rows(&self, random: &mut Random) -> Content {
        let disk = Simulated::of(Content::default(), Fault::None, usize::MAX, false);
        let print: &mut dyn FnMut(&[u8]) -> Result<(), Failure> = &mut |_| Ok(());
        let mut keeper = Keeper::open(&Sharing::of(&disk), &self.files).unwrap();
        keeper.settle().unwrap();
        let lines = random.below(self.starts.len());
        keeper.take(LEVEL, &self.log[..self.starts[lines]], MAX_BATCH).unwrap();
        keeper.commit(print).unwrap();
        let other = Files { state: Some("t".into()), out: None, heard: None, ..self.files.clone() };
        let mut keeper = Keeper::open(&Sharing::of(&disk), &other).unwrap();
        keeper.settle().unwrap();
        keeper.take(LEVEL, &log(1 + random.below(60), random).0, MAX_BATCH).unwrap();
        keeper.commit(print).unwrap();
        disk.content()
    }

    /// A run of the tool on a disk, to the end of the log or until the power is cut. `mark` gets how many lines were read and how much was printed.
    fn run(&self, disk: &Rc<Simulated>, from: usize, random: &mut Random, mut mark: impl FnMut(usize, usize)) -> Ran {
        let mut ran = Ran { from, read: from, printed: Vec::new(), end: Ok(()) };
        ran.end = self.take_all(disk, &mut ran.from, &mut ran.read, &mut ran.printed, random, &mut mark);
        ran
    }

    fn take_all(
        &self,
        disk: &Rc<Simulated>,
        from: &mut usize,
        read: &mut usize,
        printed: &mut Vec<u8>,
        random: &mut Random,
        mark: &mut dyn FnMut(usize, usize),
    ) -> Result<(), Failure> {
        let mut keeper = Keeper::open(&Sharing::of(disk), &self.files)?;
        if self.kind != Kind::Feed {
            (*from, *read) = (keeper.state.lines as usize, keeper.state.lines as usize);
            let place = keeper.state.log.as_ref().expect("kept from the first line on");
            assert!(self.log[..place.offset as usize].ends_with(&place.tail) && place.offset as usize == self.starts[*read]);
        }
        keeper.settle()?;
        if self.kind == Kind::Feed && keeper.leftovers() > 0 {
            keeper.take_in(LEVEL, &mut |rows| {
                printed.extend_from_slice(rows);
                Ok(())
            })?;
        }
        while *read + 1 < self.starts.len() {
            let to = (self.starts.len() - 1).min(*read + 1 + random.below(40));
            let text = &self.log[self.starts[*read]..self.starts[to]];
            *read = to;
            mark(*read, printed.len());
            keeper.take(LEVEL, text, MAX_BATCH)?;
            let printed = &mut *printed;
            let read = *read;
            keeper.commit(&mut |rows| {
                printed.extend_from_slice(rows);
                mark(read, printed.len());
                Ok(())
            })?;
        }
        if self.kind != Kind::Feed {
            keeper.log_ended()?;
        }
        keeper.end()
    }

    /// Where the row of a line begins in what is printed.
    fn row(&self, line: usize) -> usize {
        self.printed.split_inclusive(|c| *c == b'\n').take(line - self.start).map(<[u8]>::len).sum()
    }

    /// Cuts the power at some moment, recovers, sometimes cuts it again meanwhile, and returns what is wrong at the end.
    fn cut(&self, random: &mut Random, found: &mut Found) -> Result<(), String> {
        let moment = &self.moments[random.below(self.moments.len())];
        let mut content = moment.disk.left(random);
        let (mut read, mut printed_to) = (moment.read, moment.printed);
        let mut rows = Rows { may_go_aside: self.kind == Kind::TwoStates, ..Rows::default() };
        rows.add_printed(&self.printed[..printed_to]);
        loop {
            rows.add_sound(&content);
            let again = random.below(4) == 0;
            let disk = Simulated::of(content, self.fault, if again { 1 + random.below(60) } else { usize::MAX }, false);
            let ran = self.run(&disk, read, random, |_, _| {});
            let is_cut = matches!(&ran.end, Err(failure) if failure.text().contains("the power was cut"));
            match (self.kind, ran.end) {
                (_, Err(failure)) if !is_cut => return Err(format!("refused: {}", failure.text())),
                (Kind::Feed, _) => rows.add_printed(&ran.printed),
                (_, _) => printed_to = self.check_printed(&ran.printed, ran.from, printed_to)?,
            }
            found.add(&disk.told.borrow(), is_cut);
            read = ran.read;
            content = disk.content();
            if !is_cut {
                rows.check(&content)?;
                return if self.kind == Kind::Feed { Ok(()) } else { self.check_end(&content) };
            }
            content = content.left(random);
        }
    }

    /// Rows are printed at most once, in their order.
    fn check_printed(&self, printed: &[u8], from: usize, printed_to: usize) -> Result<usize, String> {
        let start = self.row(from);
        match () {
            () if self.files.out.is_some() || printed.is_empty() => Ok(printed_to),
            () if start < printed_to => Err(format!("rows were printed twice: from byte {start} on, and {printed_to} were printed")),
            () if !self.printed[start..].starts_with(printed) => Err("other rows were printed".into()),
            () => Ok(start + printed.len()),
        }
    }

    /// State, archive, `--out` and `--heard` are those of the undisturbed run.
    fn check_end(&self, content: &Content) -> Result<(), String> {
        for start in ["s", "out", "heard", "a"] {
            let is_own = |name: &&String| ![".torn-", ".aside-", ".new", ".lock"].iter().any(|part| name.contains(part));
            let (mine, other) = (self.end.files(start), content.files(start));
            let names = |files: &BTreeMap<String, &[u8]>| files.keys().filter(is_own).cloned().collect::<Vec<_>>();
            if names(&mine) != names(&other) {
                return Err(format!("there are {:?} instead of {:?}", names(&other), names(&mine)));
            }
            for name in names(&mine) {
                let (one, two) = (mine[&name], other[&name]);
                let is_same = if start == "a" { trimmed(one) == trimmed(two) } else { one == two };
                if !is_same {
                    return Err(format!("{name} differs"));
                }
            }
        }
        Ok(())
    }
}

fn trimmed(file: &[u8]) -> &[u8] {
    &file[..file.iter().rposition(|b| *b != 0).map_or(0, |at| at + 1)]
}

/// The rows of all sound blocks of files.
fn sound(content: &Content) -> Vec<Stored> {
    let blocks = content.files("a").into_values().flat_map(|file| file.chunks_exact(512).collect::<Vec<_>>());
    blocks.filter(|block| block.iter().any(|b| *b != 0)).flat_map(|block| rows_of(&Block::new(block.try_into().unwrap()))).collect()
}

/// Rows that must be there at the end.
#[derive(Default)]
struct Rows {
    may_go_aside: bool,
    sound: Vec<Stored>,
    /// Times of rows that were printed KEPT or LOOSE.
    printed: Vec<u64>,
}

impl Rows {
    fn add_sound(&mut self, content: &Content) {
        self.sound.extend(sound(content));
    }

    fn add_printed(&mut self, printed: &[u8]) {
        let text = std::str::from_utf8(printed).unwrap();
        let times = text.lines().filter(|row| row.contains(" KEPT") || row.contains(" LOOSE"));
        self.printed.extend(times.map(|row| row.split(' ').next().unwrap().parse::<u64>().unwrap()));
    }

    fn check(&self, content: &Content) -> Result<(), String> {
        let there = sound(content);
        let times: std::collections::BTreeSet<u64> = there.iter().map(|row| row.time).collect();
        if let Some(row) = self.sound.iter().find(|row| !there.contains(row)) {
            return Err(format!("the row at {} was destroyed", row.time));
        }
        match self.printed.iter().find(|time| !times.contains(time)) {
            Some(time) => Err(format!("the row at {time} was printed and is not there")),
            None if !self.may_go_aside && content.files("a").keys().any(|name| name.contains(".aside-")) => Err("rows went aside".into()),
            None => Ok(()),
        }
    }
}

/// How often the recoveries met each case.
#[derive(Debug, Default)]
struct Found {
    cut_again: usize,
    leftovers: usize,
    mended: usize,
    cleared: usize,
    copied: usize,
    aside: usize,
}

impl Found {
    fn add(&mut self, told: &[String], is_cut: bool) {
        let count = |part: &str| usize::from(told.iter().any(|text| text.contains(part)));
        self.cut_again += usize::from(is_cut);
        self.leftovers += count("that the state does not count");
        self.mended += count("was repaired");
        self.cleared += count("were cleared");
        self.copied += count("were copied to");
        self.aside += count("were moved to");
    }
}

fn images() -> usize {
    std::env::var("MOORINGEYE_IMAGES").map_or(3_000, |n| n.parse().unwrap())
}

/// Tries this many disks after power cuts; returns what was wrong with the first wrong one.
fn cut_often(count: usize, seed: u64, kind: Kind, fault: Fault, order: [Step; 4]) -> Result<Found, String> {
    let mut random = Random(seed);
    let (mut done, mut found) = (0, Found::default());
    while done < count {
        let plant = Plant::of(random.next(), kind, fault, order)?;
        for _ in 0..300.min(count - done) {
            plant.cut(&mut random, &mut found).map_err(|wrong| format!("{wrong} (disk {done})"))?;
            done += 1;
        }
    }
    println!("powercut: {done} disks, {kind:?}: {found:?}");
    Ok(found)
}

#[test]
fn power_cuts_with_a_log() {
    let found = cut_often(images() / 2, 1, Kind::Log, Fault::None, ORDER).unwrap();
    assert!([found.cut_again, found.leftovers, found.mended, found.cleared, found.copied].iter().all(|n| *n > 0), "{found:?}");
}

#[test]
fn power_cuts_of_a_feed() {
    let found = cut_often(images() / 4, 2, Kind::Feed, Fault::None, ORDER).unwrap();
    assert!(found.leftovers > 0 && found.aside == 0, "{found:?}");
}

#[test]
fn power_cuts_with_rows_of_another_collector() {
    let found = cut_often(images() / 4, 3, Kind::TwoStates, Fault::None, ORDER).unwrap();
    assert!(found.aside > 0, "{found:?}");
}

#[test]
fn planted_faults_are_found() {
    use Step::{Archive, Out, Print, State};
    let faults = [
        ("the archive is not synced", Fault::NotSynced("a"), ORDER),
        ("the state is not synced", Fault::NotSynced("s"), ORDER),
        ("--out is not synced", Fault::NotSynced("out"), ORDER),
        ("--heard is not synced", Fault::NotSynced("heard"), ORDER),
        ("the folder is not synced", Fault::FolderNotSynced, ORDER),
        ("the state before the archive", Fault::None, [State, Archive, Out, Print]),
        ("the state before --out", Fault::None, [Archive, State, Out, Print]),
        ("printed before the state", Fault::None, [Archive, Out, Print, State]),
    ];
    for (what, fault, order) in faults {
        let found = cut_often(20_000, 4, Kind::Log, fault, order);
        println!("powercut: {what}: {}", found.expect_err(what));
    }
}
