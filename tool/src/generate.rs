//! `mooringeye generate`: man pages and completions from the table of commands.
use crate::args::Args;
use crate::failure::Failure;
use crate::options::{Command, Opt, Takes, COMMANDS, COMMON};
use std::collections::BTreeMap;
use std::fs;
use std::path::Path;

/// The date on the man pages.
const DAY: &str = "November 17, 2026";

pub fn run(args: &Args) -> Result<(), Failure> {
    let [kind, dir] = args.exactly()?;
    let files = match kind.to_str() {
        Some("man") => pages(),
        Some("completions") => vec![("mooringeye.bash".into(), bash()), ("_mooringeye".into(), zsh()), ("mooringeye.fish".into(), fish())],
        _ => return Err(args.wrong()),
    };
    let dir = Path::new(dir);
    fs::create_dir_all(dir).map_err(|e| Failure::of(format!("make the folder {}", dir.display()), &e))?;
    for (name, text) in files {
        let path = dir.join(name);
        fs::write(&path, text).map_err(|e| Failure::of(format!("write {}", path.display()), &e))?;
    }
    Ok(())
}

/// The name of a command's page, for example `mooringeye-archive-list`.
fn page_name(command: &Command) -> String {
    format!("mooringeye-{}", command.name.replace(' ', "-"))
}

/// Every page with the name of its file.
fn pages() -> Vec<(String, String)> {
    let mut pages: Vec<_> = COMMANDS.iter().map(|c| (format!("{}.1", page_name(c)), page(c))).collect();
    pages.push(("mooringeye.1".into(), front_page()));
    pages
}

/// A text for mdoc: a new line for each sentence, short lines, and no line that mdoc takes for a request.
fn mdoc(text: &str) -> String {
    let mut out = String::new();
    let mut width = 0;
    for word in text.replace('\\', "\\e").replace('`', "\"").split_ascii_whitespace() {
        if width > 0 && (width + 1 + word.len() > 78 || out.ends_with('.') && !out.ends_with("..")) {
            out.push('\n');
            width = 0;
        } else if width > 0 {
            out.push(' ');
            width += 1;
        }
        let word = if width == 0 && word.starts_with(['.', '\'']) { format!("\\&{word}") } else { word.into() };
        width += word.len();
        out += &word;
    }
    out + "\n"
}

fn page_head(name: &str, brief: &str) -> String {
    format!(".Dd {DAY}\n.Dt {} 1\n.Os\n.Sh NAME\n.Nm {name}\n.Nd {brief}\n.Sh SYNOPSIS\n", name.to_uppercase())
}

/// The page of the whole tool.
fn front_page() -> String {
    let mut out = page_head("mooringeye", "EnOcean collector that runs at a plant, and the tools for its archives");
    out += ".Nm\n.Ar command\n.Op Ar option ...\n.Op Ar file ...\n.Sh DESCRIPTION\nThe commands are:\n.Bl -tag -width Ds\n";
    for command in COMMANDS {
        out += &format!(".It Cm {}\n{}.\nSee\n.Xr {} 1 .\n", command.name, command.brief, page_name(command));
    }
    out += ".El\n.Pp\nThese options go with every command:\n.Bl -tag -width Ds\n";
    COMMON.iter().for_each(|option| put_option(&mut out, option));
    out += ".El\n.Sh EXIT STATUS\n";
    out += &mdoc(
        "0 where all went well; 1 where an input or output failed or what was read is refused; 2 for wrong usage; 3 for a damaged state or archive.",
    );
    out + ".Sh SEE ALSO\n" + &see_also("mooringeye")
}

/// The page of a command.
fn page(command: &Command) -> String {
    let mut out = page_head(&page_name(command), command.brief);
    for form in command.forms {
        out += &format!(".Nm mooringeye {}\n", command.name);
        if !command.options.is_empty() {
            out += ".Op Ar option ...\n";
        }
        for word in form.split_ascii_whitespace() {
            out += &match (word.strip_prefix("--"), word.strip_suffix("..")) {
                (Some(option), _) => format!(".Fl -{option}\n"),
                (None, Some(word)) => format!(".Ar {word} ...\n"),
                (None, None) if word.chars().all(|c| c.is_lowercase()) => format!(".Cm {word}\n"),
                (None, None) => format!(".Ar {word}\n"),
            };
        }
    }
    out += ".Sh DESCRIPTION\n";
    let about = if command.about.is_empty() {
        vec![format!("This command {}.", command.brief)]
    } else {
        command.about.iter().map(|p| p.to_string()).collect()
    };
    out += &about.iter().map(|paragraph| mdoc(paragraph)).collect::<Vec<_>>().join(".Pp\n");
    out += ".Pp\nThe options are:\n.Bl -tag -width Ds\n";
    command.options.iter().chain(COMMON).for_each(|option| put_option(&mut out, option));
    out += &format!(".El\n.Sh EXIT STATUS\n{}", mdoc(command.ends));
    out + ".Sh SEE ALSO\n" + &see_also(&page_name(command))
}

fn put_option(out: &mut String, option: &Opt) {
    let value = if option.value.is_empty() { String::new() } else { format!(" Ar {}", option.value) };
    *out += &format!(".It Fl -{}{value}\n{}", option.name, mdoc(option.what));
}

/// The other pages, in the order of their names.
fn see_also(own: &str) -> String {
    let mut names: Vec<String> = COMMANDS.iter().map(page_name).chain(["mooringeye".into()]).filter(|n| n != own).collect();
    names.sort();
    let last = names.len() - 1;
    names.iter().enumerate().map(|(i, name)| format!(".Xr {name} 1{}\n", if i < last { " ," } else { "" })).collect()
}

/// The words that may come first, and those that may follow the name of a group.
fn first_words() -> BTreeMap<&'static str, Vec<&'static str>> {
    let mut groups: BTreeMap<&str, Vec<&str>> = BTreeMap::new();
    for command in COMMANDS {
        match command.name.split_once(' ') {
            Some((group, word)) => groups.entry(group).or_default().push(word),
            None => groups.entry(command.name).or_default().extend(command.words_of_first()),
        }
    }
    groups
}

impl Command {
    /// The words that its first word may be, if the table lists them.
    fn words_of_first(&self) -> Vec<&'static str> {
        match self.words {
            Takes::Words(words) => words.to_vec(),
            Takes::Folder => self.forms.iter().filter_map(|form| form.split(' ').next()).collect(),
            _ => Vec::new(),
        }
    }

    fn all_options(&self) -> impl Iterator<Item = &'static Opt> {
        self.options.iter().chain(COMMON)
    }
}

/// How bash completes a value.
fn bash_value(takes: Takes) -> String {
    match takes {
        Takes::Words(words) => format!("COMPREPLY=($(compgen -W '{}' -- \"$now\"))", words.join(" ")),
        Takes::File => "COMPREPLY=($(compgen -f -- \"$now\"))".into(),
        Takes::Folder => "COMPREPLY=($(compgen -d -- \"$now\"))".into(),
        Takes::Nothing | Takes::Text => "COMPREPLY=()".into(),
    }
}

fn bash() -> String {
    let mut out = String::from("# Completion of mooringeye for bash, written by `mooringeye generate completions`.\n");
    out += "# shellcheck disable=SC2207 # words without blanks\n_mooringeye() {\n    local now=$2 before=$3 command=${COMP_WORDS[1]}\n";
    out += "    COMPREPLY=()\n    if [ \"$COMP_CWORD\" -eq 1 ]; then\n";
    let groups = first_words();
    let names = groups.keys().copied().chain(["help"]).collect::<Vec<_>>().join(" ");
    out += &format!("        COMPREPLY=($(compgen -W '{names}' -- \"$now\"))\n        return\n    fi\n    case $command in\n");
    for (group, words) in groups.iter().filter(|(name, _)| COMMANDS.iter().all(|c| c.name != **name)) {
        out += &format!("    {group})\n        if [ \"$COMP_CWORD\" -eq 2 ]; then\n");
        out += &format!("            COMPREPLY=($(compgen -W '{}' -- \"$now\"))\n            return\n        fi\n", words.join(" "));
        out += "        command=\"$command ${COMP_WORDS[2]}\" ;;\n";
    }
    out += "    esac\n    case \"$command $before\" in\n";
    for command in COMMANDS {
        for option in command.all_options().filter(|o| o.takes != Takes::Nothing) {
            out += &format!("    '{} --{}')\n        {}\n        return ;;\n", command.name, option.name, bash_value(option.takes));
        }
    }
    out += "    esac\n    case $command in\n";
    for command in COMMANDS {
        let options = command.all_options().map(|o| format!("--{}", o.name)).collect::<Vec<_>>().join(" ");
        let first = command.words_of_first().join(" ");
        let other = match command.words {
            Takes::File => "compgen -f -- \"$now\"".to_string(),
            Takes::Folder => format!("compgen -d -W '{first}' -- \"$now\""),
            Takes::Words(_) => format!("compgen -W '{first}' -- \"$now\""),
            Takes::Nothing | Takes::Text => ":".into(),
        };
        out += &format!("    '{}')\n        case $now in\n        -*) COMPREPLY=($(compgen -W '{options}' -- \"$now\")) ;;\n", command.name);
        out += &format!("        *) COMPREPLY=($({other})) ;;\n        esac ;;\n");
    }
    out + "    esac\n}\ncomplete -o filenames -F _mooringeye mooringeye\n"
}

/// A text between single quotes of a shell, without the characters that would end it or that zsh's _arguments interprets.
fn quoted(text: &str) -> String {
    text.replace('\'', "").replace(['[', ']', ':', '\\', '`'], " ").split_ascii_whitespace().collect::<Vec<_>>().join(" ")
}

fn zsh_value(takes: Takes, name: &str) -> String {
    match takes {
        Takes::Nothing => String::new(),
        Takes::Words(words) => format!(":{name}:({})", words.join(" ")),
        Takes::File => format!(":{name}:_files"),
        Takes::Folder => format!(":{name}:_files -/"),
        Takes::Text => format!(":{name}: "),
    }
}

fn zsh() -> String {
    let mut out = String::from("#compdef mooringeye\n# Completion of mooringeye for zsh, written by `mooringeye generate completions`.\n");
    out += "_mooringeye() {\n    local command=$words[2] skip=1\n    if (( CURRENT == 2 )); then\n        local -a all=(\n";
    let groups = first_words();
    for name in groups.keys() {
        let brief = COMMANDS.iter().find(|c| c.name == *name).map_or("commands for archives", |c| c.brief);
        out += &format!("            '{name}:{}'\n", quoted(brief));
    }
    out += "        )\n        _describe command all\n        return\n    fi\n";
    for (group, _) in groups.iter().filter(|(name, _)| COMMANDS.iter().all(|c| c.name != **name)) {
        out += &format!("    if [[ $command == {group} ]]; then\n        if (( CURRENT == 3 )); then\n            local -a all=(\n");
        for command in COMMANDS.iter().filter(|c| c.name.starts_with(&format!("{group} "))) {
            out += &format!("                '{}:{}'\n", &command.name[group.len() + 1..], quoted(command.brief));
        }
        out += "            )\n            _describe command all\n            return\n        fi\n        command=\"$command $words[3]\"\n        skip=2\n    fi\n";
    }
    out += "    shift $skip words\n    (( CURRENT -= skip ))\n    case $command in\n";
    for command in COMMANDS {
        out += &format!("    ('{}') _arguments \\\n", command.name);
        for option in command.all_options() {
            out += &format!("        '*--{}[{}]{}' \\\n", option.name, quoted(option.what), zsh_value(option.takes, option.value));
        }
        let words = match command.words {
            Takes::Folder => format!("'1:kind:({})' '2:folder:_files -/'", command.words_of_first().join(" ")),
            Takes::Words(words) => format!("'1:word:({})' '*:word: '", words.join(" ")),
            Takes::File => "'*:file:_files'".into(),
            Takes::Nothing | Takes::Text => "'*: : '".into(),
        };
        out += &format!("        {words} ;;\n");
    }
    out + "    esac\n}\n_mooringeye \"$@\"\n"
}

fn fish() -> String {
    let mut out = String::from("# Completion of mooringeye for fish, written by `mooringeye generate completions`.\ncomplete -c mooringeye -f\n");
    let groups = first_words();
    for (name, words) in &groups {
        let brief = COMMANDS.iter().find(|c| c.name == *name).map_or("commands for archives", |c| c.brief);
        out += &format!("complete -c mooringeye -n __fish_use_subcommand -a {name} -d '{}'\n", quoted(brief));
        if !words.is_empty() {
            let some = words.join(" ");
            out +=
                &format!("complete -c mooringeye -n '__fish_seen_subcommand_from {name}; and not __fish_seen_subcommand_from {some}' -a '{some}'\n");
        }
    }
    for command in COMMANDS {
        let seen = command.name.split(' ').map(|word| format!("__fish_seen_subcommand_from {word}")).collect::<Vec<_>>().join("; and ");
        if matches!(command.words, Takes::File | Takes::Folder) {
            out += &format!("complete -c mooringeye -n '{seen}' -F\n");
        }
        for option in command.all_options() {
            let value = match option.takes {
                Takes::Nothing => String::new(),
                Takes::Words(words) => format!(" -x -a '{}'", words.join(" ")),
                Takes::File | Takes::Folder => " -r -F".into(),
                Takes::Text => " -x".into(),
            };
            out += &format!("complete -c mooringeye -n '{seen}' -l {}{value} -d '{}'\n", option.name, quoted(option.what));
        }
    }
    out
}
