//! The archive of a collector: one file, or files numbered by a pattern; when one is full, a new one begins.
//!
//! Rows after those that the state counts are leftovers of a stop between two writes, or someone else's. None is destroyed: new rows are compared
//! with them. If they are equal, they are counted; else the leftovers go into an archive of their own (crates/journal_model, `started`, `committed`,
//! `ended`).
use crate::appender::{Appender, Size, BLOCK, GROWTH, MAX_BLOCKS};
use crate::disk::{Disk, Handle, Open, Shared};
use crate::failure::Failure;
use crate::files::{self, with_suffix};
use crate::journal::{agreeing, in_last, judge, rows_of, Attached, Behind, Found, Run, Stored, RECORD, ROWS};
use crate::state::name_of;
use mooringeye::{Archive, Block};
use std::ffi::{OsStr, OsString};
use std::io;
use std::os::unix::ffi::{OsStrExt, OsStringExt};
use std::path::{Path, PathBuf};

/// Where the files are: a name, or a pattern with a run of `#` in its last part.
#[derive(Clone)]
pub struct Place {
    path: PathBuf,
    /// How many blocks a file has, if a pattern names it.
    blocks: Option<u64>,
    /// By how many blocks a file grows.
    growth: u64,
}

impl Place {
    pub fn of(path: &Path, blocks: Option<u64>) -> Result<Place, Failure> {
        let usage = |text: &str| Err(Failure::Usage(format!("{}: {text}", path.display())));
        let name = name_of(path)?;
        match (pattern(&name), blocks) {
            (Some(_), None) => usage("an archive with # in its name needs --blocks, the number of blocks at which a new file begins"),
            (None, Some(_)) => usage("--blocks needs an archive with # in its name, such as plant-##.arc"),
            (Some((before, _, after)), _) if [before, after].concat().contains(&b'#') => usage("the name of an archive may have only one run of #"),
            (_, blocks) => Ok(Place { path: path.into(), blocks, growth: GROWTH }),
        }
    }

    #[cfg(test)]
    pub fn growing_by(self, growth: u64) -> Place {
        Place { growth, ..self }
    }

    /// The name that a state keeps.
    pub fn name(&self) -> Vec<u8> {
        name_of(&self.path).expect("tested by of")
    }

    fn size(&self) -> Size {
        Size { limit: self.blocks.unwrap_or(MAX_BLOCKS), growth: self.growth }
    }

    /// The rows of a full file.
    fn full(&self) -> u64 {
        ROWS * self.size().limit
    }

    /// The file with a number.
    fn file(&self, number: u64) -> PathBuf {
        if self.blocks.is_none() {
            return self.path.clone();
        }
        let name = self.name();
        let (before, width, after) = pattern(&name).expect("tested by of");
        let digits = format!("{number:0width$}");
        self.path.with_file_name(OsString::from_vec([before, digits.as_bytes(), after].concat()))
    }

    /// The file with a number, if it exists.
    fn existing(&self, disk: &dyn Disk, number: u64) -> Result<Option<PathBuf>, Failure> {
        let path = self.file(number);
        let facts = disk.facts(&path).map_err(|e| Failure::of(format!("read {}", path.display()), &e))?;
        Ok(facts.map(|_| path))
    }

    /// The number of the last file that exists, 0 if there is none.
    fn last(&self, disk: &dyn Disk) -> Result<u64, Failure> {
        if self.blocks.is_none() {
            return Ok(0);
        }
        let name = self.name();
        let (before, width, after) = pattern(&name).expect("tested by of");
        let number_of = |name: &OsStr| {
            let digits = name.as_bytes().strip_prefix(before)?.strip_suffix(after)?;
            let is_ours = digits.len() == width || digits.len() > width && digits[0] != b'0';
            let text = std::str::from_utf8(digits).ok().filter(|t| is_ours && t.bytes().all(|c| c.is_ascii_digit()));
            text?.parse::<u64>().ok()
        };
        let folder = files::folder(&self.path);
        let names = disk.names(folder).map_err(|e: io::Error| Failure::of(format!("read {}", folder.display()), &e))?;
        Ok(names.iter().filter_map(|name| number_of(name)).max().unwrap_or(0))
    }
}

/// What comes before the run of `#`, how long it is, and what comes after it.
fn pattern(name: &[u8]) -> Option<(&[u8], usize, &[u8])> {
    let start = name.iter().position(|c| *c == b'#')?;
    let width = name[start..].iter().take_while(|c| **c == b'#').count();
    Some((&name[..start], width, &name[start + width..]))
}

/// The open archive.
pub struct Store {
    disk: Shared,
    place: Place,
    number: u64,
    file: Appender,
    /// KEPT and LOOSE rows that the collector has counted, including the last one appended.
    seen: u64,
    /// How many it had counted when this file began, and how many rows the file had then.
    counted: u64,
    had: u64,
    /// Leftovers: how many rows are after ours, in this file and the following ones, that nobody counts.
    left: u64,
    /// What the start must repair before the first row comes.
    untidy: Vec<Untidy>,
    is_torn: bool,
}

/// A file with bytes after its rows that are not an archive: a write that did not end.
struct Untidy {
    number: u64,
    /// The first block of them.
    from: u64,
    behind: Behind,
    /// Whether the file ends inside a block.
    is_odd: bool,
}

impl Store {
    /// Opens the archive of a collector that has counted `seen` rows. Nothing is known of the archive except its content.
    pub fn begin(disk: &Shared, place: Place, seen: u64) -> Result<Store, Failure> {
        let number = place.last(&**disk)?;
        let path = place.file(number);
        let file = Appender::behind_all_of(files::open_kept(&**disk, &path)?, &path, place.size())?;
        let had = file.rows();
        Ok(Store { disk: disk.clone(), place, number, file, seen, counted: seen, had, left: 0, untidy: Vec::new(), is_torn: false })
    }

    /// Opens the archive that a state keeps, and finds what a stop may have left. Nothing is changed yet.
    pub fn resume(disk: &Shared, place: Place, kept: &Attached, seen: u64) -> Result<Store, Failure> {
        let mut rows = kept.had + (seen - kept.counted);
        let (mut number, mut counted, mut had, mut last) = (kept.number, kept.counted, kept.had, kept.last.clone());
        if rows > 0 && place.existing(&**disk, number)?.is_none() {
            let shown = place.file(number).display().to_string();
            if place.blocks.is_none() || rows < place.full() {
                return Err(not_its_own(format!("{shown} is missing, but the state counts {rows} rows in it")));
            }
            // A full file may be moved away at any time.
            disk.tell(&format!("{shown} is full and was moved away: continuing with the next file"));
            (number, rows, counted, had, last) = (number + 1, 0, seen, 0, Block::default());
        }
        let path = place.file(number);
        let mut file = Appender::over(files::open_kept(&**disk, &path)?, &path, place.size())?;
        file.stand_behind(rows, last);
        let mut store = Store { disk: disk.clone(), place, number, file, seen, counted, had, left: 0, untidy: Vec::new(), is_torn: false };
        store.look()?;
        Ok(store)
    }

    /// Compares the block with the last counted row with the state's copy, and finds the leftovers and what comes after them.
    fn look(&mut self) -> Result<(), Failure> {
        let used = self.file.rows().div_ceil(ROWS);
        let found = find_last(&self.file, used)?;
        self.is_torn = found == Found::Torn;
        let mut run = Run::from(used.saturating_sub(1));
        if used > 0 {
            let block = if self.is_torn { self.file.last().clone() } else { self.file.read_block(used - 1)? };
            run.feed(block.as_bytes());
        }
        self.look_behind(self.number, None, used, &mut run)?;
        self.left = run.rows() - in_last(self.file.rows()) as u64;
        if self.place.blocks.is_none() {
            return Ok(());
        }
        let mut is_full = ROWS * used.saturating_sub(1) + run.rows() == self.place.full();
        for number in self.number + 1.. {
            let Some(path) = self.place.existing(&*self.disk, number)? else { break };
            let later = Appender::over(files::open_kept(&*self.disk, &path)?, &path, self.place.size())?;
            let mut run = if is_full { Run::from(0) } else { Run::ended() };
            self.look_behind(number, Some(&later), 0, &mut run)?;
            self.left += run.rows();
            is_full = run.rows() == self.place.full();
        }
        Ok(())
    }

    /// Continues a run from a block on, in a later file or in this one, and notes what comes after it.
    fn look_behind(&mut self, number: u64, later: Option<&Appender>, from: u64, run: &mut Run) -> Result<(), Failure> {
        let (file, before) = (later.unwrap_or(&self.file), run.blocks());
        let mut behind = Behind::default();
        let mut pieces = file.pieces(from);
        while let Some(piece) = pieces.next()? {
            let first = run.blocks();
            run.feed(piece);
            behind.feed(&piece[(run.blocks() - first) as usize * Archive::BLOCK..]);
        }
        let odd = file.odd_end()?;
        behind.feed(&odd);
        if behind.blocks > 0 || !odd.is_empty() {
            self.untidy.push(Untidy { number, from: from + run.blocks() - before, behind, is_odd: !odd.is_empty() });
        }
        Ok(())
    }

    /// Repairs what `look` found: mends the torn block from the state's copy, and clears what is not an archive.
    pub fn settle(&mut self) -> Result<(), Failure> {
        if std::mem::take(&mut self.is_torn) {
            let position = self.file.rows().div_ceil(ROWS) - 1;
            self.file.write_block(&self.file.last().clone(), position)?;
            self.disk.tell(&format!("{}: block {position} was torn. It was repaired from the state's copy.", self.file.path().display()));
        }
        for untidy in std::mem::take(&mut self.untidy) {
            if untidy.number == self.number {
                tidy(&self.disk, &mut self.file, &untidy)?;
            } else {
                let path = self.place.file(untidy.number);
                let mut later = Appender::over(files::open_kept(&*self.disk, &path)?, &path, self.place.size())?;
                tidy(&self.disk, &mut later, &untidy)?;
                later.sync()?;
            }
        }
        self.file.sync()?;
        if self.left > 0 {
            let shown = self.file.path().display();
            self.disk.tell(&format!("{shown} has {} rows after row {} that the state does not count", self.left, self.file.rows()));
        }
        Ok(())
    }

    /// What a state keeps of it.
    pub fn attached(&self) -> Attached {
        Attached { name: self.place.name(), number: self.number, counted: self.counted, had: self.had, last: self.file.last().clone() }
    }

    pub fn path(&self) -> &Path {
        self.file.path()
    }

    pub fn rows(&self) -> u64 {
        self.file.rows()
    }

    /// How many leftovers there are.
    pub fn left(&self) -> u64 {
        self.left
    }

    /// Leftovers, from the first on, at most `most`.
    pub fn leftovers(&self, most: usize) -> Result<Vec<Stored>, Failure> {
        self.leftovers_from(0, most as u64)
    }

    fn leftovers_from(&self, skip: u64, most: u64) -> Result<Vec<Stored>, Failure> {
        let (full, end) = (self.place.full(), self.left.min(skip + most));
        let mut rows = Vec::new();
        let mut later: Option<(u64, Box<dyn Handle>)> = None;
        while skip + (rows.len() as u64) < end {
            let at = self.file.rows() + skip + rows.len() as u64;
            let (number, within) = (self.number + at / full, at % full);
            let block = if number == self.number {
                self.file.read_block(within / ROWS)?
            } else {
                let path = self.place.file(number);
                let cannot = |e| Failure::of(format!("read {}", path.display()), &e);
                if later.as_ref().is_none_or(|(open, _)| *open != number) {
                    later = Some((number, self.disk.open(&path, Open::Read).map_err(cannot)?));
                }
                let mut bytes = [0; Archive::BLOCK];
                later.as_ref().expect("opened above").1.read_all_at(&mut bytes, within / ROWS * BLOCK).map_err(cannot)?;
                Block::new(bytes)
            };
            let stored = rows_of(&block).split_off((within % ROWS) as usize);
            if stored.is_empty() {
                return Err(not_its_own(format!("{} was changed by another process", self.place.file(number).display())));
            }
            rows.extend(stored);
        }
        rows.truncate((end - skip) as usize);
        Ok(rows)
    }

    /// Writes the rows of a batch after the others, and returns when they would survive a power cut. Rows that are there already are counted.
    pub fn put(&mut self, times: &[u64], records: &[u8]) -> Result<(), Failure> {
        self.file.notice(&*self.disk)?;
        let mut agreed = 0;
        if self.left > 0 && !times.is_empty() {
            agreed = agreeing(times, records, &self.leftovers(times.len())?);
            self.each_file(&times[..agreed], &records[..RECORD * agreed], true)?;
            if agreed < times.len() && self.left > 0 {
                self.put_left_aside("are not what came in their place")?;
            }
        }
        self.each_file(&times[agreed..], &records[RECORD * agreed..], false)?;
        self.file.sync()?;
        self.file.notice(&*self.disk)
    }

    /// Puts new rows, or rows that are there already, into one file after the other.
    fn each_file(&mut self, times: &[u64], records: &[u8], is_there: bool) -> Result<(), Failure> {
        let mut at = 0;
        while at < times.len() {
            if self.file.room() == 0 {
                self.next_file(is_there)?;
            }
            let end = times.len().min(at + self.file.room().min(1 << 40) as usize);
            let (times, records) = (&times[at..end], &records[RECORD * at..RECORD * end]);
            let count = (end - at) as u64;
            if is_there {
                self.file.pass_rows(times, records)?;
                self.left -= count;
            } else {
                self.file.append_rows(times, records)?;
            }
            self.seen += count;
            at = end;
        }
        Ok(())
    }

    /// Continues with the next file of the pattern, which has leftovers or is begun. The lock of the full one is held until the new one is locked.
    fn next_file(&mut self, has_leftovers: bool) -> Result<(), Failure> {
        if self.place.blocks.is_none() {
            return Err(Failure::Failed(format!("{} has as many blocks as an archive can have", self.path().display())));
        }
        self.file.sync()?;
        let path = self.place.file(self.number + 1);
        let mut next = Appender::over(files::open_kept(&*self.disk, &path)?, &path, self.place.size())?;
        if !has_leftovers && !is_empty(&next)? {
            let aside = files::put_aside(&self.disk, &path)?;
            self.disk.tell(&format!("{} has rows that no state counts. It was renamed to {}.", path.display(), aside.display()));
            next = Appender::over(files::open_kept(&*self.disk, &path)?, &path, self.place.size())?;
        }
        (self.file, self.number) = (next, self.number + 1);
        (self.counted, self.had) = (self.seen, 0);
        Ok(())
    }

    /// The log has ended: leftovers that it did not give again are put aside.
    pub fn end(&mut self) -> Result<(), Failure> {
        match self.left {
            0 => Ok(()),
            _ => self.put_left_aside("are not in the log"),
        }
    }

    /// Puts the leftovers into an archive of their own, which is on disk before they are cleared.
    fn put_left_aside(&mut self, why: &str) -> Result<(), Failure> {
        let (shown, left) = (self.file.path().display().to_string(), self.left);
        let aside = files::free_name(&*self.disk, self.file.path(), "aside")?;
        let beside = with_suffix(self.file.path(), ".new");
        let cannot = |e| Failure::of(format!("write {}", beside.display()), &e);
        let new = self.disk.open(&beside, Open::Empty).map_err(cannot)?;
        new.share_as(self.file.path()).map_err(cannot)?;
        let mut archive = Appender::over(new, &beside, Size { limit: MAX_BLOCKS, growth: 1 })?;
        let mut skip = 0;
        while skip < left {
            let rows = self.leftovers_from(skip, 1 << 14)?;
            let times: Vec<u64> = rows.iter().map(|r| r.time).collect();
            let records: Vec<u8> = rows.iter().flat_map(|r| r.record).collect();
            archive.append_rows(&times, &records)?;
            skip += rows.len() as u64;
        }
        archive.sync()?;
        files::put_in_place(&self.disk, &beside, &aside)?;
        self.clear_left()?;
        self.disk.tell(&format!("{shown}: {left} rows that the state does not count {why}. They were moved to {}.", aside.display()));
        Ok(())
    }

    /// Writes zeros over the leftovers.
    fn clear_left(&mut self) -> Result<(), Failure> {
        let (rows, end) = (self.file.rows(), self.file.rows() + std::mem::take(&mut self.left));
        let full = self.place.full();
        for number in (self.number + 1..).take_while(|n| (n - self.number) * full < end) {
            let path = self.place.file(number);
            let mut later = Appender::over(files::open_kept(&*self.disk, &path)?, &path, self.place.size())?;
            later.clear(0, (end - (number - self.number) * full).min(full).div_ceil(ROWS))?;
            later.sync()?;
        }
        let used = rows.div_ceil(ROWS);
        self.file.clear(used, end.min(full).div_ceil(ROWS).max(used))?;
        if used > 0 {
            self.file.write_block(&self.file.last().clone(), used - 1)?;
        }
        self.file.sync()
    }
}

/// Whether a file has only zeros.
fn is_empty(file: &Appender) -> Result<bool, Failure> {
    let mut behind = Behind::default();
    let mut pieces = file.pieces(0);
    while let Some(piece) = pieces.next()? {
        behind.feed(piece);
    }
    Ok(behind.blocks == 0)
}

/// Clears what is not an archive; if there is a sound block in it, all of it is copied to a file of its own before.
fn tidy(disk: &Shared, file: &mut Appender, untidy: &Untidy) -> Result<(), Failure> {
    let Untidy { from, behind, .. } = untidy;
    let to = (from + behind.blocks).min(file.blocks());
    let shown = file.path().display().to_string();
    if behind.sound > 0 {
        let torn = copy_torn(disk, file, *from, to)?;
        disk.tell(&format!("{shown}: {} blocks after an unfinished write were copied to {}", to - from, torn.display()));
    }
    file.clear(*from, to)?;
    if untidy.is_odd {
        file.cut_odd_end()?;
    }
    if behind.blocks > 0 {
        disk.tell(&format!("{shown}: {} blocks of an unfinished write were cleared", behind.blocks));
    }
    Ok(())
}

fn copy_torn(disk: &Shared, file: &Appender, from: u64, to: u64) -> Result<PathBuf, Failure> {
    let torn = files::free_name(&**disk, file.path(), "torn")?;
    let beside = with_suffix(file.path(), ".new");
    let cannot = |e| Failure::of(format!("write {}", beside.display()), &e);
    let copy = disk.open(&beside, Open::Empty).map_err(cannot)?;
    copy.share_as(file.path()).map_err(cannot)?;
    let (mut at, mut pieces) = (0, file.pieces_to(from, to));
    while let Some(piece) = pieces.next()? {
        copy.write_at(piece, at).map_err(cannot)?;
        at += piece.len() as u64;
    }
    copy.sync().map_err(cannot)?;
    files::put_in_place(disk, &beside, &torn)?;
    Ok(torn)
}

fn not_its_own(text: String) -> Failure {
    Failure::Damaged(format!("{text}. Nothing was changed. Use --adopt-archive to continue with the archive as it is."))
}

/// Finds the last block that the state counts. Cut to the counted rows, it must be the state's copy, or torn.
fn find_last(file: &Appender, used: u64) -> Result<Found, Failure> {
    if used == 0 {
        return Ok(Found::Same);
    }
    let (shown, rows) = (file.path().display(), file.rows());
    let full = file.scan(file.blocks().min(used - 1))?;
    if file.blocks() < used || full < ROWS * (used - 1) {
        return Err(not_its_own(format!("{shown} has {full} rows, but the state counts {rows}: rows were lost or removed")));
    }
    match judge(file.last(), in_last(rows), &file.read_block(used - 1)?) {
        Found::Another => {
            Err(not_its_own(format!("{shown} does not have row {rows} as the state counted it: rows were lost, or it is another archive")))
        }
        found => Ok(found),
    }
}

#[cfg(test)]
mod tests {
    use super::*;

    #[test]
    fn patterns() {
        let place = Place::of(Path::new("dir/plant-###.arc"), Some(4)).unwrap();
        assert_eq!(place.file(7), Path::new("dir/plant-007.arc"));
        assert_eq!(place.file(12_345), Path::new("dir/plant-12345.arc"));
        assert_eq!(place.name(), b"plant-###.arc");
        assert_eq!(Place::of(Path::new("plain"), None).unwrap().file(3), Path::new("plain"));
        for (path, blocks) in [("a#b#", Some(1)), ("a#", None), ("plain", Some(1)), ("..", None), ("", None)] {
            assert_eq!(Place::of(Path::new(path), blocks).err().map(|f| f.status()), Some(2), "{path}");
        }
    }
}
