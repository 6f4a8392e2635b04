//! `mooringeye archive picture`: rows as one HTML page. A lane for each transmitter, a mark for each row, a table below.
use crate::archive::Source;
use crate::args::Args;
use crate::failure::{tell, Failure};
use crate::list::{in_order, list_one, Sink, Wanted};
use crate::names::Names;
use crate::page::{self, escaped, hex, Axis, Colours, BOTTOM, LEFT, MAX_MARKS, TOP, WIDTH};
use crate::streams::{quietly, Output};
use crate::times::iso;
use mooringeye::Row;
use std::fmt::Write;

/// The height of a lane in pixels.
const LANE: f64 = 34.0;

pub fn run(args: &Args) -> Result<(), Failure> {
    let wanted = Wanted::of(args)?;
    let names = Names::of(args)?.unwrap_or_default();
    let mut rows = Rows::default();
    for name in in_order(args.at_least_one()?) {
        list_one(&Source::open(name)?, 1, &wanted, &mut u64::MAX.clone(), &mut rows)?;
    }
    if rows.all.is_empty() {
        tell("the picture is empty: no row is there, or none that --from, --to and --txid choose");
    }
    let picture = Picture::of(&rows.all, (wanted.from, wanted.to), &names);
    let text = if args.has("svg") { picture.svg() } else { picture.html() };
    quietly(Output::standard()?.write(text.as_bytes()))
}

/// The rows that were chosen.
#[derive(Default)]
struct Rows {
    all: Vec<Drawn>,
}

impl Sink for Rows {
    fn put(&mut self, _: u64, row: &Row) {
        if self.all.len() <= MAX_MARKS {
            self.all.push(Drawn::of(row));
        }
    }

    fn write(&mut self) -> Result<(), Failure> {
        page::check_marks(self.all.len(), "rows")
    }
}

/// What is drawn for a row.
struct Drawn {
    time: u64,
    loose: bool,
    txid: [u8; 4],
    /// RORG and DATA.
    rorg: String,
    data: String,
    telegram: String,
}

impl Drawn {
    fn of(row: &Row) -> Drawn {
        let fields = row.telegram.fields();
        let [rorg, data, telegram] = [&[fields.rorg][..], &fields.data, row.telegram.as_bytes()].map(hex);
        Drawn { time: row.time, loose: row.loose, txid: fields.txid, rorg, data, telegram }
    }

    fn answer(&self) -> &'static str {
        if self.loose {
            "LOOSE"
        } else {
            "KEPT"
        }
    }

    fn kind(&self) -> String {
        format!("{} {}", self.rorg, self.data)
    }
}

struct Picture<'a> {
    rows: &'a [Drawn],
    names: &'a Names,
    /// Transmitters in the order of their first rows.
    lanes: Vec<[u8; 4]>,
    colours: Colours,
    axis: Axis,
}

impl<'a> Picture<'a> {
    fn of(rows: &'a [Drawn], span: (u64, u64), names: &'a Names) -> Picture<'a> {
        let (mut lanes, mut colours) = (Vec::new(), Colours::default());
        for row in rows {
            if !lanes.contains(&row.txid) {
                lanes.push(row.txid);
            }
            colours.add(row.kind());
        }
        Picture { rows, names, lanes, colours, axis: Axis::of(span, rows.iter().map(|r| r.time)) }
    }

    /// The picture by itself.
    fn svg(&self) -> String {
        let height = TOP + LANE * self.lanes.len().max(1) as f64 + BOTTOM;
        let mut out = String::new();
        self.axis.put(&mut out, height);
        self.put_lanes(&mut out);
        self.rows.iter().for_each(|row| self.put_mark(&mut out, row));
        page::svg(height, &format!("Rows of {} transmitters", self.lanes.len()), &out)
    }

    fn put_lanes(&self, out: &mut String) {
        for (i, id) in self.lanes.iter().enumerate() {
            let y = TOP + LANE * (i as f64 + 0.5);
            let _ = writeln!(out, "<line class=\"lane\" x1=\"{LEFT}\" y1=\"{y}\" x2=\"{}\" y2=\"{y}\" stroke=\"#bbbbbb\"/>", LEFT + WIDTH);
            page::put_transmitter(out, y + 4.0, id, self.names.name(id));
        }
    }

    /// Puts a mark on its lane; a LOOSE row is a triangle with a dark edge.
    fn put_mark(&self, out: &mut String, row: &Drawn) {
        let lane = self.lanes.iter().position(|id| *id == row.txid).unwrap_or(0);
        let (x, y) = (self.axis.x(row.time), TOP + LANE * (lane as f64 + 0.5));
        let fill = self.colours.of(&row.kind());
        let title = format!("<title>{} ({} ms) {} {}</title>", iso(row.time), row.time, row.answer(), row.kind());
        let _ = match row.loose {
            true => writeln!(
                out,
                "<path class=\"row loose\" d=\"M{:.1} {:.1}L{:.1} {:.1}L{x:.1} {:.1}Z\" fill=\"{fill}\" stroke=\"#000000\">{title}</path>",
                x - 5.0,
                y + 9.0,
                x + 5.0,
                y + 9.0,
                y - 9.0
            ),
            false => writeln!(
                out,
                "<rect class=\"row\" x=\"{:.1}\" y=\"{:.1}\" width=\"4\" height=\"20\" fill=\"{fill}\" fill-opacity=\"0.85\">{title}</rect>",
                x - 2.0,
                y - 10.0
            ),
        };
    }

    /// The page: picture, legend and table.
    fn html(&self) -> String {
        let mut out = format!("<p>Rows: {}. Transmitters: {}.</p>\n", self.rows.len(), self.lanes.len());
        out += &self.svg();
        self.colours.put_legend(&mut out);
        out += ". A triangle is a LOOSE row.</p>\n";
        let heading = ["time", "ms", "answer", "transmitter", "name", "RORG", "data", "telegram"];
        page::put_table(&mut out, &heading, self.rows.iter().map(|row| self.cells(row)));
        page::html(&self.axis.heading(), &out)
    }

    fn cells(&self, row: &Drawn) -> Vec<String> {
        let name = escaped(self.names.name(&row.txid));
        let [rorg, data, telegram] = [&row.rorg, &row.data, &row.telegram].map(String::clone);
        vec![iso(row.time), row.time.to_string(), row.answer().into(), hex(&row.txid), name, rorg, data, telegram]
    }
}
