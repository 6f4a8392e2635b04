//! The lines of a log as rows in a format, by a session that is fed pieces of any size.
//!
//! cargo run --release --example session -- text|csv|json [PIECE [CLOSINGS]] < LINES > ROWS
//!
//! PIECE is how many bytes are read at once, 65536 if it is left out. When a telegram closes, a line with its number of copies goes to the file
//! CLOSINGS.
use mooringeye::{Closing, Collector, FirstLine, Format, Session};
use std::io::{self, BufRead, Read, Write};

/// Writes when a telegram was opened, its bytes, and how often it was received again.
fn put(closing: &Closing, out: &mut impl Write) -> io::Result<()> {
    writeln!(out, "{} {} {}", closing.opened, closing.telegram, closing.copies)
}

fn main() -> Result<(), Box<dyn std::error::Error>> {
    let words: Vec<String> = std::env::args().skip(1).collect();
    let format = match words.first().map(String::as_str) {
        Some("text") => Format::Text,
        Some("csv") => Format::Csv,
        Some("json") => Format::Json,
        _ => return Err("usage: session text|csv|json [PIECE [CLOSINGS]]".into()),
    };
    let mut piece = vec![0; words.get(1).map_or(Ok(65_536), |n| n.parse())?];
    let mut closed: Box<dyn Write> = match words.get(2) {
        Some(path) => Box::new(io::BufWriter::new(std::fs::File::create(path)?)),
        None => Box::new(io::sink()),
    };
    let (mut input, mut out) = (io::stdin().lock(), io::BufWriter::new(io::stdout().lock()));
    let mut first = Vec::new();
    input.read_until(b'\n', &mut first)?;
    let FirstLine::Level { setting, .. } = FirstLine::of(&first) else { return Err("the first line says no level".into()) };
    let mut session = Session::new(Collector::new(), setting, format)?;
    out.write_all(format.heading().as_bytes())?;
    loop {
        let n = input.read(&mut piece)?;
        let taken = if n == 0 { session.end() } else { session.feed(&piece[..n]) };
        out.write_all(taken.text())?;
        taken.closings().try_for_each(|closing| put(&closing, &mut closed))?;
        if n == 0 {
            break;
        }
    }
    closed.flush()?;
    Ok(out.flush()?)
}
