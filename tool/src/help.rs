//! Help from the table of commands, and finding the command that words mean.
use crate::failure::Failure;
use crate::options::{Command, Opt, COMMANDS, COMMON};
use std::ffi::OsString;

/// The width of help texts.
const WIDTH: usize = 100;
/// Where the second column of a list begins.
const COLUMN: usize = 20;

/// What the words of a command line ask for.
pub enum Asked {
    /// A command, with the words after its name.
    Run(&'static Command, Vec<OsString>),
    /// Help on a command, on a group of them, or on all.
    Help(String),
    Version,
}

impl Asked {
    pub fn of(words: &[OsString]) -> Result<Asked, Failure> {
        let said: Vec<&str> = words.iter().map(|w| w.to_str().unwrap_or("\u{FFFD}")).collect();
        let until = said.iter().position(|w| *w == "--").unwrap_or(said.len());
        let has = |names: &[&str]| said[..until].iter().any(|w| names.contains(w));
        let is_first = said.first() == Some(&"help");
        let named = &said[usize::from(is_first)..];
        let found = COMMANDS.iter().find(|c| names(c, named));
        let is_group = named.first().is_some_and(|w| !group(w).is_empty());
        let behind = found.map_or(usize::from(is_group), |c| c.name.split(' ').count());
        // `help` comes first or after the words of a command: a file of that name is ./help.
        let wants_help = is_first || has(&["-h", "--help"]) || named.get(behind) == Some(&"help");
        match found {
            _ if has(&["--version", "-V"]) => Ok(Asked::Version),
            Some(command) if wants_help => Ok(Asked::Help(of_command(command))),
            Some(command) => Ok(Asked::Run(command, words[behind..].to_vec())),
            None if wants_help => of_group(named).map(Asked::Help),
            None => Err(unknown(&said)),
        }
    }
}

/// Whether words begin with the name of a command.
fn names(command: &Command, words: &[&str]) -> bool {
    let mut words = words.iter();
    command.name.split(' ').all(|part| words.next() == Some(&part))
}

/// The commands of a group, such as `archive`.
fn group(name: &str) -> Vec<&'static Command> {
    COMMANDS.iter().filter(|c| c.name.strip_prefix(name).is_some_and(|rest| rest.starts_with(' '))).collect()
}

/// Help on a group; on all commands if no word is left.
fn of_group(words: &[&str]) -> Result<String, Failure> {
    let words: Vec<&str> = words.iter().copied().filter(|w| *w != "help" && !w.starts_with('-')).collect();
    let Some(first) = words.first() else { return Ok(of_all()) };
    match group(first) {
        all if all.is_empty() || words.len() > 1 => Err(unknown(&words)),
        all => Ok(listed(&format!("usage: mooringeye {first} COMMAND .."), &all)),
    }
}

/// Help on the whole tool.
pub fn of_all() -> String {
    listed("usage: mooringeye COMMAND ..", &COMMANDS.iter().collect::<Vec<_>>())
}

fn listed(usage: &str, commands: &[&Command]) -> String {
    let mut out = format!("{usage}\n\n");
    for command in commands {
        put_pair(&mut out, command.name, command.brief);
    }
    out + "\n`mooringeye COMMAND --help` says more."
}

/// Help on a command.
pub fn of_command(command: &Command) -> String {
    let mut out = String::new();
    for (i, form) in command.forms.iter().enumerate() {
        let options = if command.options.is_empty() { "" } else { " [OPTION].." };
        let line = format!("{} mooringeye {} {form}", if i == 0 { "usage:" } else { "      " }, command.name);
        out += &format!("{}{options}\n", line.trim_end());
    }
    for paragraph in command.about {
        out.push('\n');
        put_wrapped(&mut out, paragraph, 0, 0);
    }
    out.push('\n');
    for option in command.options.iter().chain(COMMON) {
        put_pair(&mut out, &shown(option), option.what);
    }
    out.push('\n');
    put_wrapped(&mut out, &format!("Ends with status {}", command.ends), 0, 0);
    out.trim_end().into()
}

/// An option with the name of its value.
fn shown(option: &Opt) -> String {
    format!("--{} {}", option.name, option.value).trim_end().into()
}

/// A word, and what it means in a second column.
fn put_pair(out: &mut String, word: &str, what: &str) {
    let mut front = format!("  {word:<0$}", COLUMN - 3);
    if front.len() >= COLUMN {
        *out += &format!("{front}\n");
        front = " ".repeat(COLUMN - 1);
    }
    *out += &front;
    out.push(' ');
    put_wrapped(out, what, COLUMN, COLUMN);
}

/// Puts a text in lines; the first begins in one column, and the others in another.
fn put_wrapped(out: &mut String, text: &str, mut column: usize, indent: usize) {
    let start = column;
    for word in text.split_ascii_whitespace() {
        let is_first = column == start;
        if !is_first && column + 1 + word.chars().count() > WIDTH {
            *out += &format!("\n{}", " ".repeat(indent));
            column = indent;
        } else if !is_first {
            out.push(' ');
            column += 1;
        }
        *out += word;
        column += word.chars().count();
    }
    out.push('\n');
}

/// The failure for words that name no command, with what to write instead.
fn unknown(words: &[&str]) -> Failure {
    let Some(first) = words.first() else { return Failure::Usage(of_all()) };
    let all = group(first);
    let (said, names): (String, Vec<&str>) = match words.get(1) {
        None if !all.is_empty() => return Failure::Usage(format!("{first}: a command is missing.\n{}", of_group(&[first]).unwrap_or_default())),
        Some(second) if !all.is_empty() => (format!("{first} {second}"), all.iter().map(|c| c.name).collect()),
        _ if first.starts_with('-') => (first.to_string(), Vec::new()),
        _ => (first.to_string(), COMMANDS.iter().map(|c| c.name).chain(["archive"]).collect()),
    };
    let whole = nearest(&said, names.iter().copied());
    // `verify` for `archive verify`.
    let part = COMMANDS.iter().map(|c| c.name).find(|n| n.rsplit(' ').next() == Some(first) && n.contains(' '));
    let advice = match part.or(whole) {
        Some(name) => format!("Write `mooringeye {name}`."),
        None => "`mooringeye help` lists the commands.".into(),
    };
    Failure::Usage(format!("{said}: no such command. {advice}"))
}

/// The name that is nearest to a word, if one is near.
pub fn nearest<'a>(word: &str, names: impl Iterator<Item = &'a str>) -> Option<&'a str> {
    let near = |name: &&str| distance(word.as_bytes(), name.as_bytes());
    let best = names.min_by_key(near)?;
    (near(&best) <= 1 + word.len() / 4).then_some(best)
}

/// How many letters must be added, left out, changed or swapped with the next.
fn distance(a: &[u8], b: &[u8]) -> usize {
    let mut rows = vec![(0..=b.len()).collect::<Vec<usize>>()];
    for i in 1..=a.len() {
        let mut row = vec![i];
        for j in 1..=b.len() {
            let (up, left, across) = (rows[i - 1][j] + 1, row[j - 1] + 1, rows[i - 1][j - 1] + usize::from(a[i - 1] != b[j - 1]));
            let mut best = up.min(left).min(across);
            if i > 1 && j > 1 && a[i - 1] == b[j - 2] && a[i - 2] == b[j - 1] {
                best = best.min(rows[i - 2][j - 2] + 1);
            }
            row.push(best);
        }
        rows.push(row);
    }
    rows[a.len()][b.len()]
}

#[cfg(test)]
mod tests {
    use super::*;

    #[test]
    fn distances() {
        for (a, b, d) in [("", "", 0), ("from", "form", 1), ("from", "frm", 1), ("to", "from", 3), ("list", "lists", 1)] {
            assert_eq!(distance(a.as_bytes(), b.as_bytes()), d, "{a} {b}");
        }
        assert_eq!(nearest("form", ["from", "to"].into_iter()), Some("from"));
        assert_eq!(nearest("x", ["from", "rows"].into_iter()), None);
    }
}
