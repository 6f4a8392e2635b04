//! What pictures have in common: one HTML page that needs no other file, its colours, and an axis of times.
use crate::failure::Failure;
use crate::text::put_hex;
use crate::times::iso;
use std::fmt::Write;

/// The largest number of marks in a picture: with more, browsers are slow.
pub const MAX_MARKS: usize = 20_000;
/// Colours that are easy to tell apart, for the data that comes first; the rest is grey.
const COLOURS: [&str; 10] = ["#1b9e77", "#d95f02", "#7570b3", "#e7298a", "#1f78b4", "#b8860b", "#a6761d", "#66a61e", "#6a3d9a", "#e31a1c"];
const GREY: &str = "#777777";
/// Widths and heights in pixels.
pub const LEFT: f64 = 230.0;
pub const WIDTH: f64 = 1_000.0;
pub const TOP: f64 = 16.0;
/// What is below the lanes.
pub const BOTTOM: f64 = 28.0;
/// How far the picture extends after its lanes.
const MARGIN: f64 = 30.0;
/// A higher picture does not fit a screen: then the labels below the lanes are above them too.
const TALL: f64 = 600.0;

/// Refuses more marks than a picture may have.
pub fn check_marks(count: usize, what: &str) -> Result<(), Failure> {
    match count > MAX_MARKS {
        true => Err(Failure::Failed(format!("more than {MAX_MARKS} {what} are too many for a picture. Choose fewer by --from, --to or --txid."))),
        false => Ok(()),
    }
}

pub fn hex(bytes: &[u8]) -> String {
    let mut out = Vec::new();
    put_hex(&mut out, bytes);
    String::from_utf8_lossy(&out).into_owned()
}

/// A text inside HTML.
pub fn escaped(text: &str) -> String {
    text.replace('&', "&amp;").replace('<', "&lt;").replace('>', "&gt;").replace('"', "&quot;")
}

/// A picture by itself.
pub fn svg(height: f64, label: &str, body: &str) -> String {
    let width = LEFT + WIDTH + MARGIN;
    format!(
        "<svg xmlns=\"http://www.w3.org/2000/svg\" viewBox=\"0 0 {width} {height}\" width=\"{width}\" height=\"{height}\" \
         font-family=\"sans-serif\" font-size=\"12\" role=\"img\" aria-label=\"{label}\">\n\
         <rect width=\"{width}\" height=\"{height}\" fill=\"#ffffff\"/>\n{body}</svg>\n"
    )
}

/// A page with a heading.
pub fn html(heading: &str, body: &str) -> String {
    let mut out = String::from("<!DOCTYPE html>\n<html lang=\"en\">\n<head>\n<meta charset=\"utf-8\">\n<title>Mooringeye</title>\n<style>\n");
    out += "body { font-family: sans-serif; font-size: 14px; margin: 20px; color: #222222 }\nsvg { max-width: 100%; height: auto }\n";
    out += "td, th { padding: 2px 12px 2px 0; text-align: left } td { font-family: monospace; white-space: nowrap }\n";
    out += ".key { display: inline-block; width: 12px; height: 12px; margin: 0 4px 0 14px }\n</style>\n</head>\n<body>\n";
    let _ = writeln!(out, "<h1>{heading}</h1>");
    out + body + "</body>\n</html>\n"
}

/// A table; its cells are HTML.
pub fn put_table(out: &mut String, heading: &[&str], rows: impl Iterator<Item = Vec<String>>) {
    let cells: String = heading.iter().map(|cell| format!("<th>{cell}</th>")).collect();
    let _ = write!(out, "<table>\n<thead><tr>{cells}</tr></thead>\n<tbody>\n");
    for row in rows {
        let cells: String = row.iter().map(|cell| format!("<td>{cell}</td>")).collect();
        let _ = writeln!(out, "<tr>{cells}</tr>");
    }
    *out += "</tbody>\n</table>\n";
}

/// The label of a lane: a transmitter and its name.
pub fn put_transmitter(out: &mut String, y: f64, id: &[u8], name: &str) {
    let _ = writeln!(out, "<text x=\"8\" y=\"{y:.1}\"><tspan font-family=\"monospace\">{}</tspan> {}</text>", hex(id), escaped(name));
}

/// Colours of RORG and data, in the order in which they come first.
#[derive(Default)]
pub struct Colours {
    kinds: Vec<String>,
}

impl Colours {
    pub fn add(&mut self, kind: String) {
        if self.kinds.len() <= COLOURS.len() && !self.kinds.contains(&kind) {
            self.kinds.push(kind);
        }
    }

    pub fn of(&self, kind: &str) -> &'static str {
        let at = self.kinds.iter().position(|k| k == kind);
        at.and_then(|at| COLOURS.get(at)).unwrap_or(&GREY)
    }

    /// Writes which colour is what.
    pub fn put_legend(&self, out: &mut String) {
        *out += if self.kinds.is_empty() { "<p>RORG and data: none" } else { "<p>RORG and data:" };
        for (kind, colour) in self.kinds.iter().zip(COLOURS) {
            let _ = write!(out, "<span class=\"key\" style=\"background:{colour}\"></span>{kind}");
        }
        if self.kinds.len() > COLOURS.len() {
            let _ = write!(out, "<span class=\"key\" style=\"background:{GREY}\"></span>other");
        }
    }
}

/// Times from left to right.
pub struct Axis {
    pub from: u64,
    pub to: u64,
}

impl Axis {
    /// The requested times; without a request, from the first of these times to the last.
    pub fn of(span: (u64, u64), times: impl Iterator<Item = u64> + Clone) -> Axis {
        let from = if span.0 == 0 { times.clone().min().unwrap_or(0) } else { span.0 };
        let to = if span.1 == u64::MAX { times.max().unwrap_or(0) } else { span.1 };
        Axis { from, to: to.max(from.saturating_add(1)) }
    }

    pub fn x(&self, time: u64) -> f64 {
        LEFT + WIDTH * (time - self.from) as f64 / (self.to - self.from) as f64
    }

    /// The whole span, in words.
    pub fn heading(&self) -> String {
        format!("{} to {}", iso(self.from), iso(self.to))
    }

    /// Lines at round times in a picture of this height, and their labels.
    pub fn put(&self, out: &mut String, height: f64) {
        let bottom = height - 24.0;
        let step = step(self.to - self.from);
        let mut time = self.from.div_ceil(step).saturating_mul(step);
        while time <= self.to {
            let x = self.x(time);
            let label = label(time, step, self.to);
            let _ = writeln!(out, "<line x1=\"{x:.1}\" y1=\"{TOP}\" x2=\"{x:.1}\" y2=\"{bottom}\" stroke=\"#dddddd\"/>");
            // A character is some 7 pixels wide: the last label ends with the picture.
            let x = x.min(LEFT + WIDTH + MARGIN - 3.5 * label.len() as f64);
            for y in label_heights(height, bottom + 16.0) {
                let _ = writeln!(out, "<text x=\"{x:.1}\" y=\"{y:.1}\" text-anchor=\"middle\" fill=\"#555555\">{label}</text>");
            }
            let Some(next) = time.checked_add(step) else { break };
            time = next;
        }
    }
}

/// The heights of labels that belong below the lanes of a picture: there, and above them if it is tall.
pub fn label_heights(height: f64, below: f64) -> impl Iterator<Item = f64> {
    [Some(below), (height > TALL).then_some(TOP - 4.0)].into_iter().flatten()
}

/// How far lines at round times are apart, so that there are at most ten.
fn step(span: u64) -> u64 {
    const SECOND: u64 = 1_000;
    const HOUR: u64 = 3_600 * SECOND;
    let steps = [1, 2, 5, 10, 20, 50, 100, 200, 500].map(|ms| ms).into_iter();
    let longer = [1, 2, 5, 10, 30, 60, 120, 300, 600, 1_800].map(|s| s * SECOND).into_iter();
    let hours = [1, 2, 6, 12, 24, 48, 168, 720, 2_160, 8_760].map(|h| h * HOUR).into_iter();
    steps.chain(longer).chain(hours).find(|step| span / step < 10).unwrap_or(span / 10 + 1)
}

/// A time on the axis, as exact as its lines.
fn label(time: u64, step: u64, last: u64) -> String {
    let text = iso(time);
    let Some((date, clock)) = text.split_once('T') else { return text };
    match step {
        // Times that begin at 0 are counted by a gateway from its start; they are not dates.
        _ if last < 86_400_000 && step < 1_000 => format!("{time} ms"),
        0..1_000 => clock[..12].into(),
        1_000..60_000 => clock[..8].into(),
        60_000..86_400_000 => format!("{} {}", &date[5..], &clock[..5]),
        _ => date.into(),
    }
}

#[cfg(test)]
mod tests {
    use super::*;

    #[test]
    fn steps_are_round_and_few() {
        for span in [1, 9, 10, 120, 999, 86_400_000, 31_536_000_000, u64::MAX] {
            assert!(span / step(span) < 10, "{span}");
        }
        assert_eq!([step(120), step(9_999), step(86_400_000)], [20, 1_000, 6 * 3_600_000]);
        assert_eq!(label(1_794_816_000_000, 60_000, u64::MAX), "11-16 08:00");
        assert_eq!(label(1_120, 20, 1_200), "1120 ms");
    }

    #[test]
    fn names_are_escaped() {
        assert_eq!(escaped("<a & \"b\">"), "&lt;a &amp; &quot;b&quot;&gt;");
    }
}
