//! Help, messages for wrong words, man pages and completions: all from one table.
mod common;
use common::*;
use std::fs;

const COMMANDS: &[&str] = &[
    "collect",
    "archive verify",
    "archive list",
    "archive append",
    "archive salvage",
    "archive remove",
    "archive sheet",
    "archive picture",
    "picture",
    "heard",
    "status",
    "plan",
    "site",
    "read",
    "build",
    "generate",
    "version",
];

fn out(words: &str) -> String {
    run(words, &root(), b"").with(0).out
}

/// The options that the help of a command lists.
fn options(help: &str) -> Vec<&str> {
    help.lines().filter_map(|line| line.strip_prefix("  --")).map(|line| line.split(' ').next().unwrap()).collect()
}

#[test]
fn every_command_helps() {
    let all = out("help");
    assert_eq!([out("-h"), out("--help")], [all.clone(), all.clone()]);
    let listed: Vec<&str> = all.lines().filter_map(|l| l.strip_prefix("  ")).map(|l| l.split("  ").next().unwrap()).collect();
    assert_eq!(listed, COMMANDS, "a new command goes into this list");
    for command in COMMANDS {
        let help = out(&format!("help {command}"));
        assert!(help.starts_with(&format!("usage: mooringeye {command}")), "{help}");
        assert!(help.lines().all(|line| line.len() <= 100), "{help}");
        for words in [format!("{command} --help"), format!("{command} -h"), format!("{command} help"), format!("{command} some words -h")] {
            assert_eq!(out(&words), help, "{words}");
        }
        assert_eq!(out(&format!("{command} --version")), out("version"), "{command}");
    }
    let group = out("archive --help");
    assert!(group.contains("  archive verify") && !group.contains("  collect"), "{group}");
    assert_eq!([out("archive help"), out("help archive"), out("archive -h")], [group.clone(), group.clone(), group.clone()]);
}

#[test]
fn wrong_words_say_what_to_write() {
    let pairs = [
        ("", "usage: mooringeye COMMAND"),
        ("colect", "colect: no such command. Write `mooringeye collect`."),
        ("verify a", "verify: no such command. Write `mooringeye archive verify`."),
        ("archive", "archive: a command is missing."),
        ("archive lsit a", "archive lsit: no such command. Write `mooringeye archive list`."),
        ("xyzzy", "xyzzy: no such command. `mooringeye help` lists the commands."),
        ("help xyzzy", "xyzzy: no such command."),
        ("collect plant.txt", "plant.txt: collect takes options only. To read the file plant.txt, write --log plant.txt or <plant.txt."),
        ("site plan", "It reads standard input: write `mooringeye site <FILE`."),
        ("archive list --form 3 a", "--form: not an option of archive list. Write --from."),
        ("archive list -x", "-x: not an option of archive list. `mooringeye archive list --help` lists the options"),
        ("archive list a --from", "--from: its value is missing. Write --from TIME."),
        ("archive list a --count 1 --count 2", "--count is given twice. Give it once."),
        ("collect --follow=1", "--follow takes no value. Write --follow alone."),
        ("collect --level 3", "--level: 3 is wrong. Write 0, 1 or 2."),
        ("archive list", "archive list: 0 words are given that are not options. Write `mooringeye archive list FILE..`."),
        ("plan standard 1", "plan: 2 words are given that are not options. Write `mooringeye plan RULE LEVEL DURATION`."),
        ("generate html x", "Write `mooringeye generate man DIR` or `mooringeye generate completions DIR`."),
    ];
    for (words, text) in pairs {
        run(words, &root(), b"").with(2).says(text);
    }
}

#[test]
fn pages_and_completions_have_every_option() {
    let dir = folder("help_pages");
    run("generate man man", &dir, b"").with(0);
    run("generate completions some/shells", &dir, b"").with(0);
    let [bash, zsh, fish] =
        ["mooringeye.bash", "_mooringeye", "mooringeye.fish"].map(|n| fs::read_to_string(dir.join("some/shells").join(n)).unwrap());
    let front = fs::read_to_string(dir.join("man/mooringeye.1")).unwrap();
    for command in COMMANDS {
        let name = format!("mooringeye-{}", command.replace(' ', "-"));
        let page = fs::read_to_string(dir.join(format!("man/{name}.1"))).unwrap();
        assert!(front.contains(&format!(".Xr {name} 1")));
        let help = out(&format!("help {command}"));
        assert!(options(&help).len() >= 2, "{help}");
        for option in options(&help) {
            assert!(page.contains(&format!("\n.It Fl -{option}")), "{name} --{option}");
            let part = |text: &str, from: &str| text[text.find(from).unwrap()..].to_string();
            assert!(part(&bash, &format!("'{command}')")).contains(&format!("--{option}")), "bash {command} --{option}");
            assert!(part(&zsh, &format!("('{command}')")).contains(&format!("'*--{option}[")), "zsh {command} --{option}");
            let seen: Vec<String> = command.split(' ').map(|w| format!("__fish_seen_subcommand_from {w}")).collect();
            assert!(fish.contains(&format!("-n '{}' -l {option} ", seen.join("; and "))), "fish {command} --{option}");
        }
    }
    assert_eq!(fs::read_dir(dir.join("man")).unwrap().count(), COMMANDS.len() + 1);
    fs::write(dir.join("file"), "").unwrap();
    run("generate man file", &dir, b"").with(1).says("cannot make the folder file");
}
