//! Rows of archives as text, CSV and JSON lines, and the totals. The rows of lines come from the library.
use crate::args::Args;
use crate::failure::Failure;
use crate::names::{self, Names};
use crate::text::{put_hex, put_number};
use crate::times;
pub use mooringeye::Format;
use mooringeye::{Row, Totals};

/// The format that `--rows` names; text if it is left out.
pub fn format(args: &Args) -> Result<Format, Failure> {
    let named = |name: &str| match name {
        "text" => Some(Format::Text),
        "csv" => Some(Format::Csv),
        "json" => Some(Format::Json),
        _ => None,
    };
    Ok(args.value("rows", "text, csv or json", named)?.unwrap_or(Format::Text))
}

/// The totals, as `collect` prints them.
pub fn totals(totals: &Totals) -> String {
    let Totals { received, kept, copies, loose, damaged, late } = totals;
    format!("RECEIVED {received} KEPT {kept} COPIES {copies} LOOSE {loose} DAMAGED {damaged} LATE {late}")
}

/// How rows of an archive are written.
pub struct Style {
    /// ISO times instead of ms.
    iso: bool,
    /// A name comes after each row.
    names: Option<Names>,
}

impl Style {
    pub fn of(args: &Args) -> Result<Style, Failure> {
        Ok(Style { iso: times::is_iso(args)?, names: Names::of(args)? })
    }

    /// Whether it is as formats for programs need it.
    pub fn is_plain(&self) -> bool {
        !self.iso && self.names.is_none()
    }

    /// The heading of an archive's rows.
    pub fn put_heading(&self, out: &mut Vec<u8>, format: Format) {
        if format == Format::Csv {
            out.extend_from_slice(b"time,answer,txid,telegram");
            out.extend_from_slice(if self.names.is_some() { b",name\n" } else { b"\n" });
        }
    }

    /// A row of an archive.
    pub fn put(&self, out: &mut Vec<u8>, format: Format, row: &Row) {
        let word: &[u8] = if row.loose { b"LOOSE" } else { b"KEPT" };
        let bytes = row.telegram.as_bytes();
        let parts: [&[u8]; 4] = match format {
            Format::Text => [b"", b" ", b" ", b""],
            Format::Csv => [b"", b",", b",", b""],
            Format::Json => [b"{\"time\":", b",\"answer\":\"", b"\",\"txid\":\"", b"\""],
        };
        out.extend_from_slice(parts[0]);
        self.put_time(out, format, row.time);
        out.extend_from_slice(parts[1]);
        out.extend_from_slice(word);
        out.extend_from_slice(parts[2]);
        if format != Format::Text {
            put_hex(out, &row.telegram.txid());
            out.extend_from_slice(if format == Format::Csv { b"," } else { b"\",\"telegram\":\"" });
        }
        put_hex(out, bytes);
        out.extend_from_slice(parts[3]);
        if let Some(names) = &self.names {
            put_name(out, format, names.name(&row.telegram.txid()));
        }
        out.extend_from_slice(if format == Format::Json { b"}\n" } else { b"\n" });
    }

    fn put_time(&self, out: &mut Vec<u8>, format: Format, time: u64) {
        match (self.iso, format) {
            (false, _) => put_number(out, time),
            (true, Format::Json) => out.extend_from_slice(names::json(&times::iso(time)).as_bytes()),
            (true, _) => out.extend_from_slice(times::iso(time).as_bytes()),
        }
    }
}

fn put_name(out: &mut Vec<u8>, format: Format, name: &str) {
    let text = match format {
        Format::Text if name.is_empty() => String::new(),
        Format::Text => format!(" {name}"),
        Format::Csv => format!(",{}", names::quoted(name)),
        Format::Json => format!(",\"name\":{}", names::json(name)),
    };
    out.extend_from_slice(text.as_bytes());
}
