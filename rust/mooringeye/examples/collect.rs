//! A collector in Rust over the library: reads the lines of `collect`, and prints what it prints.
//!
//! cargo run --release --example collect < LINES > ROWS
use mooringeye::{Collector, FirstLine, Format, Session};
use std::io::{self, BufRead, Write};

/// The first line with its newline, which it may lack.
fn first_line(input: &mut impl BufRead) -> io::Result<Vec<u8>> {
    let mut line = Vec::new();
    input.read_until(b'\n', &mut line)?;
    if line.last() != Some(&b'\n') {
        line.push(b'\n');
    }
    Ok(line)
}

fn main() -> io::Result<()> {
    let mut input = io::stdin().lock();
    let mut out = io::BufWriter::new(io::stdout().lock());
    let FirstLine::Level { setting, .. } = FirstLine::of(&first_line(&mut input)?) else {
        return writeln!(out, "BAD");
    };
    let mut session = Session::new(Collector::new(), setting, Format::Text).map_err(io::Error::other)?;
    loop {
        let piece = input.fill_buf()?;
        let n = piece.len();
        if n == 0 {
            break;
        }
        out.write_all(session.feed(piece).text())?;
        input.consume(n);
    }
    out.write_all(session.end().text())?;
    let t = session.collector().totals();
    write!(out, "RECEIVED {} KEPT {} COPIES {} ", t.received, t.kept, t.copies)?;
    writeln!(out, "LOOSE {} DAMAGED {} LATE {}", t.loose, t.damaged, t.late)?;
    out.flush()
}
