//! `mooringeye heard`: how often the telegrams of each transmitter were received, by week. A transmitter whose telegrams are often received only once
//! is at the edge of reach.
use crate::args::Args;
use crate::closings;
use crate::failure::{tell, Failure};
use crate::names::{quoted, Names};
use crate::reach;
use crate::rows::{self, Format};
use crate::streams::{quietly, Output};
use crate::text;
use crate::times;
use std::cmp::Reverse;
use std::collections::BTreeMap;
use std::fs::File;
use std::io::{BufRead, BufReader};
use std::path::Path;

pub fn run(args: &Args) -> Result<(), Failure> {
    let format = rows::format(args)?;
    if format == Format::Json {
        return Err(Failure::Usage("--rows: heard prints text or csv".into()));
    }
    if args.has("picture") && args.has("rows") {
        return Err(Failure::Usage("--picture and --rows cannot be given together".into()));
    }
    let names = Names::of(args)?;
    let mut heard = Heard::default();
    for name in args.at_least_one()? {
        heard.read(Path::new(name))?;
    }
    if heard.interrupted > 0 {
        tell(format!("{} telegrams are left out: the collector was stopped while they were open", heard.interrupted));
    }
    let text = match args.has("picture") {
        true => reach::html(&heard, &names.unwrap_or_default())?,
        false => heard.text(format, names.as_ref()),
    };
    quietly(Output::standard()?.write(text.as_bytes()))
}

/// How many telegrams were received again a number of times, by that number.
#[derive(Clone, Default)]
pub struct Counts {
    by_copies: BTreeMap<u16, u64>,
}

impl Counts {
    fn telegrams(&self) -> u64 {
        self.by_copies.values().sum()
    }

    /// How many were received once: no copy came.
    fn once(&self) -> u64 {
        self.by_copies.get(&0).copied().unwrap_or(0)
    }

    /// Their share in thousandths, rounded down.
    pub fn share(&self) -> u64 {
        (u128::from(self.once()) * 1_000 / u128::from(self.telegrams().max(1))) as u64
    }

    /// The copies of the telegram with this index, from 0, in order of copies.
    fn at(&self, place: u64) -> u16 {
        let mut before = 0;
        let is_there = |(_, n): &(&u16, &u64)| {
            before += **n;
            before > place
        };
        self.by_copies.iter().find(is_there).map_or(0, |(copies, _)| *copies)
    }

    /// The middle one, or the mean of the two in the middle.
    fn median(&self) -> String {
        let n = self.telegrams();
        let twice = u32::from(self.at(n.saturating_sub(1) / 2)) + u32::from(self.at(n / 2));
        format!("{}{}", twice / 2, if twice % 2 == 1 { ".5" } else { "" })
    }

    fn least(&self) -> u16 {
        self.by_copies.keys().next().copied().unwrap_or(0)
    }

    pub fn cells(&self) -> [String; 5] {
        let share = self.share();
        let share = format!("{}.{:03}", share / 1_000, share % 1_000);
        [self.telegrams().to_string(), self.once().to_string(), share, self.median(), self.least().to_string()]
    }
}

#[derive(Default)]
pub struct Heard {
    /// Telegrams that were left out.
    interrupted: u64,
    all: BTreeMap<u32, (Counts, BTreeMap<String, Counts>)>,
}

impl Heard {
    fn read(&mut self, path: &Path) -> Result<(), Failure> {
        let file = File::open(path).map_err(|e| Failure::of(format!("open {}", path.display()), &e))?;
        for (number, line) in (1_u64..).zip(BufReader::new(file).split(b'\n')) {
            let line = line.map_err(|e| Failure::of(format!("read {}", path.display()), &e))?;
            let line = String::from_utf8_lossy(&line);
            let line = line.trim_end();
            if number == 1 && (line == closings::HEADING.trim_end() || line.ends_with(",txid,level,copies")) {
                continue;
            }
            let wrong = || Failure::Failed(format!("{}: line {number} is wrong. Write opened,txid,level,copies,interrupted.", path.display()));
            self.take(line).ok_or_else(wrong)?;
        }
        Ok(())
    }

    /// Takes a line `opened,txid,level,copies`. A 1 after it means that the collector was stopped while the telegram was open: such a line is not
    /// reliable.
    fn take(&mut self, line: &str) -> Option<()> {
        let (opened, txid, level, copies, interrupted) = match line.split(',').collect::<Vec<_>>()[..] {
            [opened, txid, level, copies] => (opened, txid, level, copies, "0"),
            [opened, txid, level, copies, interrupted] => (opened, txid, level, copies, interrupted),
            _ => return None,
        };
        text::number(level).filter(|level| *level < 16)?;
        let copies = u16::try_from(text::number(copies)?).ok()?;
        if text::number(interrupted).filter(|n| *n < 2)? == 1 {
            self.interrupted += 1;
            return text::identity(txid).and(text::number(opened)).map(|_| ());
        }
        let (whole, weeks) = self.all.entry(text::identity(txid)?).or_default();
        let week = weeks.entry(times::week(text::number(opened)?)).or_default();
        for counts in [whole, week] {
            *counts.by_copies.entry(copies).or_default() += 1;
        }
        Some(())
    }

    /// Transmitters, those with the greatest share of telegrams received once first, then those with more telegrams: as a whole, and by week.
    pub fn lines(&self) -> Vec<(u32, &Counts, &BTreeMap<String, Counts>)> {
        let mut all: Vec<_> = self.all.iter().map(|(id, (whole, weeks))| (*id, whole, weeks)).collect();
        all.sort_by_key(|(id, whole, _)| (Reverse((whole.share(), whole.telegrams())), *id));
        all
    }

    fn text(&self, format: Format, names: Option<&Names>) -> String {
        let mut out = String::new();
        let heading = ["telegrams", "once", "share", "median", "least"].map(String::from);
        put(&mut out, format, ["txid", "week"], heading, names.map(|_| "name"));
        for (id, whole, weeks) in self.lines() {
            let name = names.map(|names| names.name(&id.to_be_bytes()));
            let id = format!("{id:08X}");
            put(&mut out, format, [&id, "all"], whole.cells(), name);
            for (week, counts) in weeks {
                put(&mut out, format, [&id, week], counts.cells(), name);
            }
        }
        out
    }
}

fn put(out: &mut String, format: Format, front: [&str; 2], cells: [String; 5], name: Option<&str>) {
    let line = match format {
        Format::Csv => format!("{},{}{}", front.join(","), cells.join(","), name.map_or(String::new(), |n| format!(",{}", quoted(n)))),
        _ => {
            let ([id, week], [telegrams, once, share, median, least]) = (front, cells);
            format!("{id:<8} {week:<8} {telegrams:>10} {once:>10} {share:>6} {median:>7} {least:>6} {}", name.unwrap_or_default())
        }
    };
    *out += line.trim_end();
    out.push('\n');
}

#[cfg(test)]
mod tests {
    use super::*;

    #[test]
    fn medians() {
        for (copies, median, least) in
            [(&[3][..], "3", 3), (&[0, 1], "0.5", 0), (&[5, 1, 2], "2", 1), (&[1, 2, 2, 9], "2", 1), (&[65_535, 65_535], "65535", 65_535)]
        {
            let mut counts = Counts::default();
            copies.iter().for_each(|c| *counts.by_copies.entry(*c).or_default() += 1);
            assert_eq!((counts.median().as_str(), counts.least()), (median, least), "{copies:?}");
        }
    }
}
