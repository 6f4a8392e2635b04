//! Names of transmitters: `--names FILE`, lines of an ID, a comma and a name.
use crate::args::Args;
use crate::failure::Failure;
use crate::text;
use std::collections::HashMap;
use std::fs;

#[derive(Default)]
pub struct Names {
    all: HashMap<[u8; 4], String>,
}

impl Names {
    /// The names in the file; none if `--names` is left out.
    pub fn of(args: &Args) -> Result<Option<Names>, Failure> {
        let Some(path) = args.path("names")? else { return Ok(None) };
        let text = fs::read_to_string(&path).map_err(|e| Failure::of(format!("read {}", path.display()), &e))?;
        let wrong =
            |line| Failure::Failed(format!("{}: line {line} is wrong. Write an ID of eight hexadecimal digits, a comma and a name.", path.display()));
        Names::read(&text).map(Some).map_err(wrong)
    }

    /// Reads a text; the number of the first wrong line if there is one. A first line `txid,name` is a heading.
    fn read(text: &str) -> Result<Names, usize> {
        let mut names = Names::default();
        for (number, line) in (1_usize..).zip(text.lines()) {
            let line = line.trim_end();
            if line.is_empty() || number == 1 && line.eq_ignore_ascii_case("txid,name") {
                continue;
            }
            let (id, name) = line.split_once(',').ok_or(number)?;
            let id = text::identity(id.trim()).ok_or(number)?;
            names.all.insert(id.to_be_bytes(), unquoted(name.trim()).ok_or(number)?);
        }
        Ok(names)
    }

    /// The name of a transmitter; empty if it has none.
    pub fn name(&self, id: &[u8]) -> &str {
        <[u8; 4]>::try_from(id).ok().and_then(|id| self.all.get(&id)).map_or("", String::as_str)
    }
}

/// A cell of CSV without its quotes.
fn unquoted(cell: &str) -> Option<String> {
    match cell.strip_prefix('"') {
        None => (!cell.contains(['"', ','])).then(|| cell.into()),
        Some(rest) => {
            let inner = rest.strip_suffix('"')?.replace("\"\"", "\u{0}");
            (!inner.contains('"')).then(|| inner.replace('\u{0}', "\""))
        }
    }
}

/// A cell of CSV, with quotes if it needs them.
pub fn quoted(cell: &str) -> String {
    match cell.contains([',', '"']) {
        true => format!("\"{}\"", cell.replace('"', "\"\"")),
        false => cell.into(),
    }
}

/// A text of JSON, with its quotes.
pub fn json(text: &str) -> String {
    let mut out = String::from("\"");
    for c in text.chars() {
        match c {
            '"' | '\\' => out.extend(['\\', c]),
            c if c < ' ' => out += &format!("\\u{:04x}", u32::from(c)),
            c => out.push(c),
        }
    }
    out + "\""
}

#[cfg(test)]
mod tests {
    use super::*;

    #[test]
    fn lines() {
        let names = Names::read("TXID,name\n0583a1c0,Gate of hall 2\n\n01020304,\"A \"\"b\"\", c\"\r\n").unwrap();
        assert_eq!(names.name(&[5, 0x83, 0xA1, 0xC0]), "Gate of hall 2");
        assert_eq!(names.name(&[1, 2, 3, 4]), "A \"b\", c");
        assert_eq!(names.name(&[0; 4]), "");
        for (text, line) in [("0102030,x", 1), ("01020304", 1), ("01020304,a\n01020304,a,b", 2), ("01020304,\"a", 1), ("01020304,a\ntxid,name", 2)] {
            assert_eq!(Names::read(text).err(), Some(line), "{text}");
        }
        assert_eq!([quoted("a b"), quoted("a \"b\", c")], ["a b", "\"a \"\"b\"\", c\""]);
        assert_eq!(json("a\"\\\n"), "\"a\\\"\\\\\\u000a\"");
    }
}
