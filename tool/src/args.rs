//! The words of a command line.
use crate::failure::Failure;
use crate::help::nearest;
use crate::options::{Command, Takes, COMMON};
use std::ffi::{OsStr, OsString};
use std::path::PathBuf;

/// Options and the other words, in the order of the command line.
pub struct Args {
    command: &'static Command,
    options: Vec<(&'static str, OsString)>,
    rest: Vec<OsString>,
}

fn usage(text: String) -> Failure {
    Failure::Usage(text)
}

impl Args {
    /// The options of a command, as `--name VALUE` or `--name=VALUE`, or `--name` if they take no value. `--` ends them.
    pub fn of(command: &'static Command, words: impl IntoIterator<Item = OsString>) -> Result<Args, Failure> {
        let mut args = Args { command, options: Vec::new(), rest: Vec::new() };
        let mut words = words.into_iter();
        while let Some(word) = words.next() {
            let dashed = word.to_str().filter(|w| w.starts_with('-') && w.len() > 1);
            let Some(dashed) = dashed else {
                args.rest.push(word);
                continue;
            };
            let Some(option) = dashed.strip_prefix("--") else { return Err(no_option(command, dashed)) };
            if option.is_empty() {
                args.rest.extend(words);
                break;
            }
            let (name, value) = option.split_once('=').map_or((option, None), |(name, value)| (name, Some(OsString::from(value))));
            let known = command.option(name).ok_or_else(|| no_option(command, &format!("--{name}")))?;
            let missing = || usage(format!("--{name}: its value is missing. Write --{name} {}.", known.value));
            let value = match (known.takes, value) {
                (Takes::Nothing, None) => OsString::new(),
                (Takes::Nothing, Some(_)) => return Err(usage(format!("--{name} takes no value. Write --{name} alone."))),
                (_, Some(value)) => value,
                (_, None) => words.next().ok_or_else(missing)?,
            };
            args.options.push((known.name, value));
        }
        Ok(args)
    }

    pub fn has(&self, name: &str) -> bool {
        self.options.iter().any(|(n, _)| *n == name)
    }

    /// The values of an option, as often as it is given.
    pub fn all(&self, name: &str) -> impl Iterator<Item = &OsStr> {
        let name = name.to_string();
        self.options.iter().filter(move |(n, _)| *n == name).map(|(_, value)| value.as_os_str())
    }

    fn one(&self, name: &str) -> Result<Option<&OsStr>, Failure> {
        let mut all = self.all(name);
        match (all.next(), all.next()) {
            (_, Some(_)) => Err(usage(format!("--{name} is given twice. Give it once."))),
            (one, None) => Ok(one),
        }
    }

    pub fn path(&self, name: &str) -> Result<Option<PathBuf>, Failure> {
        match self.one(name)? {
            Some(path) if path.is_empty() => Err(usage(format!("--{name}: the name of the file is empty."))),
            path => Ok(path.map(PathBuf::from)),
        }
    }

    /// The value of an option, read by `read`, which returns none for a wrong one.
    pub fn value<T>(&self, name: &str, kind: &str, read: impl Fn(&str) -> Option<T>) -> Result<Option<T>, Failure> {
        self.one(name)?.map(|value| parsed(value, &format!("--{name}"), kind, &read)).transpose()
    }

    pub fn rest(&self) -> &[OsString] {
        &self.rest
    }

    /// The words that are not options; there must be exactly this many.
    pub fn exactly<const N: usize>(&self) -> Result<[&OsStr; N], Failure> {
        let words: Vec<&OsStr> = self.rest.iter().map(OsString::as_os_str).collect();
        words.try_into().map_err(|_| self.wrong())
    }

    /// The words that are not options; there must be at least one.
    pub fn at_least_one(&self) -> Result<&[OsString], Failure> {
        match &self.rest[..] {
            [] => Err(self.wrong()),
            words => Ok(words),
        }
    }

    /// The failure that shows how the command is written.
    pub fn wrong(&self) -> Failure {
        let forms: Vec<String> = self.command.forms.iter().map(|form| format!("`mooringeye {} {form}`", self.command.name)).collect();
        usage(format!("{}: {} words are given that are not options. Write {}.", self.command.name, self.rest.len(), forms.join(" or ")))
    }

    pub fn no_rest(&self) -> Result<(), Failure> {
        let Some(word) = self.rest.first() else { return Ok(()) };
        let (name, shown) = (self.command.name, word.display());
        let advice = match self.command.option("log") {
            Some(_) => format!("To read the file {shown}, write --log {shown} or <{shown}."),
            None if self.command.forms != [""] => return Err(self.wrong()),
            None => format!("It reads standard input: write `mooringeye {name} <FILE`."),
        };
        Err(usage(format!("{shown}: {name} takes options only. {advice}")))
    }
}

/// The failure for a word with dashes that is not an option, with what to write instead.
fn no_option(command: &Command, word: &str) -> Failure {
    let names = || command.options.iter().chain(COMMON).map(|o| o.name);
    let advice = match nearest(word.trim_start_matches('-'), names()) {
        Some(name) => format!("Write --{name}."),
        None => format!("`mooringeye {} --help` lists the options; a file of that name is ./{word}.", command.name),
    };
    usage(format!("{word}: not an option of {}. {advice}", command.name))
}

/// The value of a word, or the failure that says what was expected.
pub fn parsed<T>(word: &OsStr, name: &str, kind: &str, read: impl Fn(&str) -> Option<T>) -> Result<T, Failure> {
    word.to_str().and_then(read).ok_or_else(|| usage(format!("{name}: {} is wrong. Write {kind}.", word.display())))
}

#[cfg(test)]
mod tests {
    use super::*;
    use crate::options::Opt;

    fn parse(words: &[&str]) -> Result<Args, Failure> {
        static COMMAND: Command = Command {
            name: "test",
            forms: &["WORD"],
            words: Takes::Text,
            brief: "",
            about: &[],
            options: &[
                Opt { name: "level", value: "N", takes: Takes::Text, what: "" },
                Opt { name: "txid", value: "ID", takes: Takes::Text, what: "" },
                Opt { name: "fresh", value: "", takes: Takes::Nothing, what: "" },
            ],
            ends: "",
            run: |_| Ok(()),
        };
        Args::of(&COMMAND, words.iter().map(OsString::from))
    }

    #[test]
    fn options_and_words() {
        let args = parse(&["a", "--level", "1", "--fresh", "--txid=2", "--txid", "3", "--", "--b"]).unwrap();
        assert_eq!(args.rest(), ["a", "--b"]);
        assert_eq!(args.value("level", "a number", |t| t.parse().ok()).unwrap(), Some(1));
        assert_eq!(args.all("txid").collect::<Vec<_>>(), ["2", "3"]);
        assert!(args.has("fresh") && !args.has("begin"));
        assert!(args.path("txid").is_err());
    }

    #[test]
    fn wrong_ones() {
        for words in [&["--level"][..], &["--other"], &["--fresh=1"], &["--level", "1", "--level", "2"], &["--level=x"], &["-l"]] {
            let answer = parse(words).and_then(|a| a.value("level", "a number", |t| t.parse::<u8>().ok()));
            assert_eq!(answer.unwrap_err().status(), 2, "{words:?}");
        }
    }
}
