//! The header, which include/mooringeye.abi lists, the declarations of this crate, the sources of the exports and the symbols of the library agree:
//! on the names, and for each parameter on its number type, or on the pointer, to which numbers it points, and whether they are read or changed.
use std::collections::BTreeMap;
use std::path::{Path, PathBuf};
use std::process::Command;

/// The parameters of each function, and its result last.
type Functions = BTreeMap<String, Vec<String>>;

fn root() -> PathBuf {
    Path::new(env!("CARGO_MANIFEST_DIR")).join("../..")
}

fn library(file: &str) -> PathBuf {
    let own = root().join("target/library");
    std::env::var_os("MOORINGEYE_LIB_DIR").map_or(own, PathBuf::from).join(file)
}

fn text(path: impl AsRef<Path>) -> String {
    std::fs::read_to_string(root().join(path.as_ref())).unwrap_or_else(|e| panic!("{}: {e}", path.as_ref().display()))
}

/// A text without its comments.
fn bare(text: &str) -> String {
    let mut out = String::new();
    let mut rest = text;
    while let Some(at) = rest.find("/*") {
        out.push_str(&rest[..at]);
        rest = &rest[at + rest[at..].find("*/").expect("a comment ends") + 2..];
    }
    out.push_str(rest);
    out.lines().map(|l| l.split("//").next().unwrap()).collect::<Vec<_>>().join("\n")
}

/// The text between the parenthesis at `open` and the one that closes it, and the rest.
fn parenthesis(text: &str, open: usize) -> (&str, &str) {
    let mut depth = 0;
    for (i, c) in text[open..].char_indices() {
        match c {
            '(' => depth += 1,
            ')' => depth -= 1,
            _ => {}
        }
        if depth == 0 {
            return (&text[open + 1..open + i], &text[open + i + 1..]);
        }
    }
    panic!("a parenthesis does not close");
}

fn header_kind(declared: &str) -> String {
    let words: Vec<&str> = declared.split(|c: char| !c.is_alphanumeric() && c != '_').filter(|w| !w.is_empty()).collect();
    let number = match *words.iter().find(|w| **w != "const").expect("a type") {
        "uint8_t" => "u8",
        "uint16_t" => "u16",
        "uint32_t" => "u32",
        "uint64_t" => "u64",
        "size_t" => "usize",
        "bool" => "bool",
        "void" => "nothing",
        name if name.starts_with("mooringeye_") => "u8", // its structs that a call takes are bytes
        other => panic!("the header has a type that this test does not know: {other}"),
    };
    match (declared.contains(['*', '[']), words.contains(&"const")) {
        (false, _) => number.into(),
        (true, false) => format!("*mut {number}"),
        (true, true) => format!("*const {number}"),
    }
}

/// The functions of the header, as the list of the binary interface has them: `tests/abi` compares the two.
fn header() -> Functions {
    let text = text("include/mooringeye.abi");
    let lines = text.lines().filter_map(|l| l.split_once(" function "));
    lines
        .map(|(_, function)| {
            let (name, types) = function.split_once(' ').expect("a name and its types");
            let (answer, inside) = types.split_once(" (").expect("an answer and parameters");
            let parameters = inside.trim_end_matches(')').split(", ").map(header_kind).filter(|k| k != "nothing");
            (name.to_string(), parameters.chain([header_kind(answer)]).collect())
        })
        .collect()
}

/// The functions after a word such as `pub fn`, with what each type is.
fn functions(text: &str, word: &str, kinds: impl Fn(&str) -> Vec<String>) -> Functions {
    let mut found = Functions::new();
    for part in text.split(word).skip(1) {
        let name: String = part.trim_start().chars().take_while(|c| c.is_alphanumeric() || *c == '_').collect();
        if !name.starts_with("mooringeye_") {
            continue;
        }
        let (inside, after) = parenthesis(part, part.find('(').unwrap());
        let mut all: Vec<String> = inside.split(',').filter_map(|p| p.split_once(':')).flat_map(|(_, t)| kinds(t.trim())).collect();
        match after.trim_start().strip_prefix("->") {
            Some(t) => all.push(t.trim_start().chars().take_while(|c| c.is_alphanumeric()).collect()),
            None => all.push("nothing".into()),
        }
        found.insert(name, all);
    }
    found
}

/// The declarations of `raw.rs`, in which a type may have a name of its own.
fn declared() -> Functions {
    let text = bare(&text("rust/mooringeye/src/raw.rs"));
    let names = text.split("type ").skip(1).filter_map(|t| t.split_once(';')?.0.split_once(" = "));
    let named: BTreeMap<&str, &str> = names.collect();
    functions(&text, "pub fn ", |t| vec![named.get(t).unwrap_or(&t).to_string()])
}

/// The exports of crate `mooringeye` and of those that are compiled by themselves: a slice is a pointer and a length, any other reference a pointer.
fn exported() -> Functions {
    let kind = |t: &str| -> Vec<String> {
        let Some(to) = t.strip_prefix('&') else { return vec![t.to_string()] };
        let (word, to) = match to.strip_prefix("mut ") {
            Some(to) => ("mut", to),
            None => ("const", to),
        };
        let number: String = to.chars().skip_while(|c| *c == '[').take_while(|c| c.is_alphanumeric()).collect();
        let pointer = format!("*{word} {number}");
        if to.starts_with('[') && !to.contains(';') {
            vec![pointer, "usize".into()]
        } else {
            vec![pointer]
        }
    };
    let mut all = Functions::new();
    for folder in ["mooringeye", "mooringeye_take", "mooringeye_burst", "mooringeye_lines", "mooringeye_lines_as"] {
        for entry in std::fs::read_dir(root().join("crates").join(folder).join("src")).unwrap() {
            let text = bare(&text(entry.unwrap().path()));
            all.extend(functions(&text.replace("<'a>", "").replace("&'a ", "&"), "pub extern \"C\" fn ", kind));
        }
    }
    all
}

/// Compares the sources: this file alone, compiled by `rustc --test`, does it before the library is built.
mod sources {
    use super::*;

    #[test]
    fn the_header_is_what_is_declared_here() {
        assert!(header().len() >= 33);
        assert_eq!(header(), declared());
    }

    #[test]
    fn the_header_is_what_is_exported() {
        assert_eq!(header(), exported());
    }

    #[test]
    fn the_benchmarks_declare_what_the_header_has() {
        let header = header();
        for entry in std::fs::read_dir(root().join("bench/src")).unwrap() {
            let path = entry.unwrap().path();
            for (name, kinds) in functions(&bare(&text(&path)), "fn ", |t| vec![t.to_string()]) {
                assert_eq!(Some(&kinds), header.get(&name), "{name} in {}", path.display());
            }
        }
    }
}

/// Compares what was built from them.
mod built {
    use super::*;

    /// The lines of `nm` that name what a file defines.
    fn defined(words: &[&str], file: &str) -> Vec<String> {
        let out = Command::new("nm").args(words).arg("--defined-only").arg(library(file)).output().expect("nm runs");
        assert!(out.status.success(), "nm {file}");
        String::from_utf8(out.stdout).unwrap().lines().map(String::from).collect()
    }

    /// The functions among them.
    fn symbols(lines: &[String]) -> Vec<String> {
        let functions = lines.iter().filter_map(|l| l.split_once(" T "));
        let mut names: Vec<String> = functions.map(|(_, name)| name.split('@').next().unwrap().to_string()).collect();
        names.sort();
        names
    }

    fn names() -> Vec<String> {
        header().into_keys().collect()
    }

    #[test]
    fn the_archive_has_these_symbols() {
        assert_eq!(symbols(&defined(&[], "libmooringeye.a")), names());
    }

    #[test]
    fn the_shared_object_exports_these_symbols_and_no_others() {
        let lines = defined(&["-D"], "libmooringeye.so");
        assert_eq!(symbols(&lines), names());
        let others: Vec<&String> = lines.iter().filter(|l| !l.contains(" T ") && !l.contains(" A MOORINGEYE_")).collect();
        assert!(others.is_empty(), "{others:?}");
    }
}
