//! `mooringeye heard --picture`: which transmitter needs a repeater, as one HTML page. A line for each transmitter, the one with the greatest share
//! of telegrams received once first: a bar for that share, and a field for each week.
use crate::failure::Failure;
use crate::heard::{Counts, Heard};
use crate::names::Names;
use crate::page::{self, escaped, BOTTOM, LEFT, MAX_MARKS, TOP, WIDTH};
use std::collections::BTreeSet;
use std::fmt::Write;

/// Widths and heights in pixels: of a transmitter's line, of its bar if the share is 1, and of what comes before the weeks.
const LINE: f64 = 22.0;
const BAR: f64 = 180.0;
const WEEKS: f64 = 260.0;
/// The widest field of a week.
const MAX_FIELD: f64 = 60.0;
/// Colours of shares, each from a number of thousandths on.
const COLOURS: [(u64, &str); 5] = [(750, "#d73027"), (500, "#fc8d59"), (250, "#fee08b"), (100, "#d9ef8b"), (0, "#66bd63")];

/// The page.
pub fn html(heard: &Heard, names: &Names) -> Result<String, Failure> {
    let lines = heard.lines();
    let weeks: BTreeSet<&String> = lines.iter().flat_map(|(_, _, weeks)| weeks.keys()).collect();
    let marks: usize = lines.iter().map(|(_, _, weeks)| 1 + weeks.len()).sum();
    if marks > MAX_MARKS {
        let text = format!("{marks} lines of transmitters and weeks are too many for a picture, which has {MAX_MARKS}. Give fewer files.");
        return Err(Failure::Failed(text));
    }
    let picture = Picture { lines: &lines, weeks: weeks.into_iter().collect(), names };
    let mut out = format!("<p>Transmitters: {}. The first needs a repeater most.</p>\n", lines.len());
    out += &picture.svg();
    out += "<p>Share of telegrams that were heard once:";
    for (from, colour) in COLOURS {
        let _ = write!(out, "<span class=\"key\" style=\"background:{colour}\"></span>from {}.{:03}", from / 1_000, from % 1_000);
    }
    out += ". A telegram that is heard once came neither from a repeater nor again from its sensor. A week without a field has no telegram.</p>\n";
    let heading = ["transmitter", "name", "week", "telegrams", "once", "share", "median", "least"];
    page::put_table(&mut out, &heading, lines.iter().flat_map(|line| cells(line, names)));
    Ok(page::html("How often telegrams were heard", &out))
}

type Line<'a> = (u32, &'a Counts, &'a std::collections::BTreeMap<String, Counts>);

/// The rows of a transmitter in the table: as a whole, then by week.
fn cells(line: &Line, names: &Names) -> Vec<Vec<String>> {
    let (id, whole, weeks) = line;
    let all = String::from("all");
    let each = std::iter::once((&all, *whole)).chain(weeks.iter());
    each.map(|(week, counts)| {
        let mut cells = vec![format!("{id:08X}"), escaped(names.name(&id.to_be_bytes())), week.clone()];
        cells.extend(counts.cells());
        cells
    })
    .collect()
}

struct Picture<'a> {
    lines: &'a [Line<'a>],
    weeks: Vec<&'a String>,
    names: &'a Names,
}

impl Picture<'_> {
    fn svg(&self) -> String {
        let height = TOP + LINE * self.lines.len().max(1) as f64 + BOTTOM;
        let mut out = String::new();
        for (i, line) in self.lines.iter().enumerate() {
            self.put_line(&mut out, TOP + LINE * i as f64, line);
        }
        page::label_heights(height, height - 8.0).for_each(|y| self.put_weeks(&mut out, y));
        page::svg(height, &format!("How often telegrams of {} transmitters were heard", self.lines.len()), &out)
    }

    /// How wide the field of a week is.
    fn field(&self) -> f64 {
        ((WIDTH - WEEKS) / self.weeks.len().max(1) as f64).min(MAX_FIELD)
    }

    fn put_line(&self, out: &mut String, y: f64, (id, whole, weeks): &Line) {
        let id = id.to_be_bytes();
        page::put_transmitter(out, y + 15.0, &id, self.names.name(&id));
        let mut put = |class: &str, x: f64, width: f64, counts: &Counts, title: String| {
            let (fill, y, height) = (colour(counts.share()), y + 3.0, LINE - 6.0);
            let _ = writeln!(
                out,
                "<rect class=\"{class}\" x=\"{x:.1}\" y=\"{y:.1}\" width=\"{width:.1}\" height=\"{height}\" fill=\"{fill}\"><title>{title}</title></rect>"
            );
        };
        let title = |counts: &Counts, when: &str| {
            let [telegrams, once, share, median, _] = counts.cells();
            format!("{when}: {telegrams} telegrams, {once} heard once ({share}), median {median} copies")
        };
        // A bar of length 0 could not be seen.
        put("share", LEFT, (BAR * whole.share() as f64 / 1_000.0).max(1.0), whole, title(whole, "all"));
        for (week, counts) in weeks.iter() {
            let at = self.weeks.iter().position(|w| *w == week).unwrap_or(0);
            put("week", LEFT + WEEKS + self.field() * at as f64, (self.field() - 1.0).max(0.5), counts, title(counts, week));
        }
        let (x, y, share) = (LEFT + BAR + 8.0, y + 15.0, &whole.cells()[2]);
        let _ = writeln!(out, "<text x=\"{x}\" y=\"{y:.1}\" fill=\"#333333\">{share}</text>");
    }

    /// Puts the names of weeks, as many as there is space for.
    fn put_weeks(&self, out: &mut String, y: f64) {
        let every = (MAX_FIELD / self.field()).ceil() as usize;
        for (at, week) in self.weeks.iter().enumerate().step_by(every.max(1)) {
            let x = LEFT + WEEKS + self.field() * at as f64;
            let _ = writeln!(out, "<text x=\"{x:.1}\" y=\"{y:.1}\" font-size=\"11\" fill=\"#555555\">{week}</text>");
        }
    }
}

fn colour(share: u64) -> &'static str {
    COLOURS.iter().find(|(from, _)| share >= *from).map_or(COLOURS[0].1, |(_, colour)| colour)
}

#[cfg(test)]
mod tests {
    use super::*;

    #[test]
    fn colours_of_shares() {
        assert_eq!(
            [0, 99, 100, 250, 499, 500, 749, 750, 1_000].map(colour).map(|c| COLOURS.iter().position(|(_, d)| *d == c)),
            [Some(4), Some(4), Some(3), Some(2), Some(2), Some(1), Some(1), Some(0), Some(0)]
        );
    }
}
