//! The table of commands and options. Parsing, help, man pages and completions come from it, so they can't differ.
use crate::args::Args;
use crate::failure::Failure;
use crate::{archive, collect, generate, heard, list, picture, plans, receptions, status, telegrams};

/// What an option or a word of a command is.
#[derive(Clone, Copy, Debug, PartialEq, Eq)]
pub enum Takes {
    Nothing,
    /// One of these words.
    Words(&'static [&'static str]),
    /// The name of a file.
    File,
    /// The name of a folder.
    Folder,
    /// Any other text.
    Text,
}

/// An option `--name`.
#[derive(Debug)]
pub struct Opt {
    pub name: &'static str,
    /// The name of its value; empty if it takes none.
    pub value: &'static str,
    pub takes: Takes,
    /// What it does.
    pub what: &'static str,
}

#[derive(Debug)]
pub struct Command {
    /// Its words: `archive list`.
    pub name: &'static str,
    /// The words after them, in each of its forms.
    pub forms: &'static [&'static str],
    /// What those words are.
    pub words: Takes,
    pub brief: &'static str,
    /// What it does, in paragraphs.
    pub about: &'static [&'static str],
    pub options: &'static [Opt],
    /// Its exit status.
    pub ends: &'static str,
    pub run: fn(&Args) -> Result<(), Failure>,
}

impl Command {
    /// The option of a name, of this command or of all of them.
    pub fn option(&self, name: &str) -> Option<&'static Opt> {
        self.options.iter().chain(COMMON).find(|o| o.name == name)
    }
}

const fn plain(name: &'static str, what: &'static str) -> Opt {
    Opt { name, value: "", takes: Takes::Nothing, what }
}

const fn text(name: &'static str, value: &'static str, what: &'static str) -> Opt {
    Opt { name, value, takes: Takes::Text, what }
}

const fn file(name: &'static str, what: &'static str) -> Opt {
    Opt { name, value: "FILE", takes: Takes::File, what }
}

const fn words(name: &'static str, value: &'static str, words: &'static [&'static str], what: &'static str) -> Opt {
    Opt { name, value, takes: Takes::Words(words), what }
}

/// The options of every command.
pub const COMMON: &[Opt] = &[
    plain("quiet", "prints nothing on standard error except why it fails"),
    plain("help", "prints this help (also -h)"),
    plain("version", "prints the versions of the tool and of its library"),
];

const TXID: Opt = text("txid", "ID", "only rows of this transmitter, eight hexadecimal digits; may be given several times");
const FROM: Opt = text("from", "TIME", "no rows before this time: ms, 2026-11-16, 2026-11-16T08:00:00Z or 2026-11-16T09:00:00+01:00");
const TO: Opt = text("to", "TIME", "no rows after this time; a day is taken to its end");
const TIMES: Opt = words("times", "FORM", &["ms", "iso"], "how times are printed: ms since 1970, or iso as 2026-11-16T08:00:00.000Z");
const NAMES: Opt = file("names", "the names of transmitters, which are printed too: lines of an ID, a comma and a name");

const ENDS: &str = "0; 1 where an input or output failed or a row is refused; 2 for wrong usage; 3 for a damaged archive.";

pub const COMMANDS: &[Command] = &[
    Command {
        name: "collect",
        forms: &[""],
        words: Takes::Nothing,
        brief: "takes receptions and prints a row for each",
        about: &[
            "Reads lines of a time in ms and a reception in hexadecimal digits, from standard input or from a log, and prints a row for each.",
            "SIGTERM, SIGINT and SIGHUP stop it normally; SIGUSR1 prints the totals on standard error.",
        ],
        options: &[
            words("level", "N", &["0", "1", "2"], "the repeater setting; not needed if the first line is `level N`"),
            file("state", "continues from this state and keeps it up to date; starts a new collector if there is none"),
            file("archive", "KEPT and LOOSE rows go to this archive; ### in its name is replaced by the number of the file"),
            text("blocks", "N", "with ### in the name of the archive: a new file begins when one has N blocks of 15 rows"),
            file("log", "reads this log from the state's position on, and rotated ones (FILE.1, FILE-20260117) before it"),
            plain("follow", "with --log: waits for more lines at its end, also after it was rotated by rename"),
            plain("replay", "standard input is the whole log from its first line: lines that the state has taken are skipped"),
            file("out", "rows go to this file, each once, and not to standard output"),
            file("heard", "a line for each telegram when it closes goes to this file, once: opened,txid,level,copies,interrupted"),
            file("metrics", "totals go to this file in Prometheus' text format; it is replaced in one step after each batch"),
            words("rows", "FORMAT", &["text", "csv", "json"], "text, csv (with a heading) or json (a line each)"),
            words("sync", "WHEN", &["batch", "row"], "batch: state and archive are on disk before what was read at once is printed; row: before each row"),
            plain("new-state", "starts a new collector; the old state is kept as FILE.aside-1"),
            plain("fresh", "the same as --new-state"),
            plain("adopt-archive", "continues with the archive as it is, or without one, whatever the state says of its rows"),
            plain("begin", "the same as --adopt-archive"),
            plain("adopt-log", "takes the log from its first byte, whatever the state says of it"),
        ],
        ends: "0 where the input ended or a signal came; 1 where an input or output failed; 2 for wrong usage; 3 for a state, archive or log \
               that is damaged or not the one that was taken.",
        run: collect::run,
    },
    Command {
        name: "archive verify",
        forms: &["FILE.."],
        words: Takes::File,
        brief: "says how many rows archives have, or which block does not match",
        about: &["Reads each file whole and names every damaged one."],
        options: &[],
        ends: ENDS,
        run: archive::verify,
    },
    Command {
        name: "archive list",
        forms: &["FILE.."],
        words: Takes::File,
        brief: "prints the rows of archives",
        about: &[
            "Rows have numbers that go on from file to file; the first is 1, or what --first says. Files whose names differ in a number alone are \
             read in the order of their numbers.",
            "The formats tsv and binary, PostgreSQL's COPY BINARY, print the numbers too; months says how many rows each month has.",
        ],
        options: &[
            words("rows", "FORMAT", &["text", "csv", "json", "tsv", "binary", "months"], "how rows are printed; text by default"),
            FROM,
            TO,
            TXID,
            text("after", "ROW", "only rows after the one with this number; earlier ones are not read"),
            text("count", "N", "at most N rows"),
            text("first", "ROW", "the number of the first row"),
            TIMES,
            NAMES,
        ],
        ends: ENDS,
        run: list::run,
    },
    Command {
        name: "archive append",
        forms: &["FILE"],
        words: Takes::File,
        brief: "appends rows of standard input to an archive",
        about: &["Takes rows as `mooringeye archive list` prints them as text: all of them or none."],
        options: &[],
        ends: ENDS,
        run: archive::append,
    },
    Command {
        name: "archive salvage",
        forms: &["DAMAGED NEW"],
        words: Takes::File,
        brief: "packs the rows of every undamaged block into a new archive",
        about: &["Prints the positions of the blocks that were dropped. The damaged file stays as it is."],
        options: &[],
        ends: ENDS,
        run: archive::salvage,
    },
    Command {
        name: "archive remove",
        forms: &["FILE --txid ID.."],
        words: Takes::File,
        brief: "removes the rows of transmitters from an archive",
        about: &["The rows of up to 32 transmitters are removed; the file keeps its length."],
        options: &[text("txid", "ID", "a transmitter, eight hexadecimal digits; may be given several times")],
        ends: ENDS,
        run: archive::remove,
    },
    Command {
        name: "archive sheet",
        forms: &["FILE.."],
        words: Takes::File,
        brief: "adds up the rows of each transmitter",
        about: &["Prints KEPT and LOOSE rows, earliest and latest time of each transmitter, over up to 64 files and 256 transmitters."],
        options: &[
            words("rows", "FORMAT", &["text", "csv"], "how lines are printed; text by default"),
            text("received", "N", "prints the share of the rows in N receptions, in whole thousandths rounded down"),
            TIMES,
            NAMES,
        ],
        ends: ENDS,
        run: archive::sheet,
    },
    Command {
        name: "archive picture",
        forms: &["FILE.."],
        words: Takes::File,
        brief: "draws the rows of archives as an HTML page",
        about: &[
            "Prints one page that needs no other file: a lane for each transmitter, a mark for each row at its time, coloured by RORG and data, a \
             triangle for a LOOSE row, and a table of the rows. It has at most 20000 rows; choose them by --from, --to and --txid.",
        ],
        options: &[FROM, TO, TXID, NAMES, plain("svg", "prints the picture alone, as SVG")],
        ends: ENDS,
        run: picture::run,
    },
    Command {
        name: "picture",
        forms: &["LOG.."],
        words: Takes::File,
        brief: "draws the receptions of logs as an HTML page",
        about: &[
            "Takes logs through a collector of their own, the oldest first, and prints one page that needs no other file: a lane for each transmitter and \
             repeater level, a mark for each reception by its answer (KEPT, COPY, LOOSE, LATE), a lane for damaged ones, and a table. The 100 ms in which a \
             telegram is open are shaded, and the first 40 of them darker.",
            "It has at most 20000 receptions; choose them by --from, --to and --txid. A log is read from its first line: what is open depends on what came \
             before.",
        ],
        options: &[
            words("level", "N", &["0", "1", "2"], "the repeater setting; not needed if the first line is `level N`"),
            FROM,
            TO,
            TXID,
            NAMES,
            plain("svg", "prints the picture alone, as SVG"),
        ],
        ends: "0; 1 where a log can't be read or has too many receptions; 2 for wrong usage.",
        run: receptions::run,
    },
    Command {
        name: "heard",
        forms: &["FILE.."],
        words: Takes::File,
        brief: "says how often the telegrams of each transmitter were heard",
        about: &[
            "Reads the files of collect --heard, lines opened,txid,level,copies,interrupted: the time in ms at which a telegram was opened, its \
             transmitter, the level at which it was first heard, and how often it was heard again. Those with 1 as interrupted are left out: the \
             collector was stopped while they were open, and they may have been heard more often. This column may be missing.",
            "Prints for each transmitter, as a whole and by week: telegrams, those that were heard once, their share rounded down to thousandths, \
             the median and the least number of copies. The greatest share comes first: that transmitter is at the edge of reach.",
        ],
        options: &[
            words("rows", "FORMAT", &["text", "csv"], "how lines are printed; text by default"),
            NAMES,
            plain("picture", "prints one HTML page instead: a bar for each transmitter, and a field for each of its weeks"),
        ],
        ends: "0; 1 where a file can't be read or a line is wrong; 2 for wrong usage.",
        run: heard::run,
    },
    Command {
        name: "status",
        forms: &["--state FILE"],
        words: Takes::Nothing,
        brief: "prints what a state file says of its collector",
        about: &["Prints lines, totals, open telegrams with their copies, the position in the log, the archive and the latest reception. Nothing is locked or changed."],
        options: &[file("state", "the state of a collector"), plain("json", "prints one JSON object")],
        ends: "0; 1 where the file can't be read; 2 for wrong usage; 3 for a damaged state.",
        run: status::run,
    },
    Command {
        name: "plan",
        forms: &["RULE LEVEL DURATION"],
        words: Takes::Words(&["standard", "compressed", "paused"]),
        brief: "prints the slot plan of a repeater",
        about: &["The slots in which a repeater sends: RULE is standard, compressed or paused, LEVEL the level sent, DURATION the time on air in microseconds."],
        options: &[
            text("count", "N", "how many transmissions; by default as many as the rule has at that level, 3 at level 0 with a pause"),
            text("draw", "D", "which of the lawful plans: the one at D modulo their number, counted from 0; 0 by default"),
        ],
        ends: "0; 1 where no plan is lawful (9); 2 for an argument that is out of its range (10).",
        run: plans::plan,
    },
    Command {
        name: "site",
        forms: &[""],
        words: Takes::Nothing,
        brief: "checks that the transmissions of the repeaters of a site do not overlap",
        about: &[
            "Reads a line for each repeater from standard input: RULE LEVEL DURATION FIRST SECOND [THIRD], the rule by its name, the duration in \
             microseconds, the slots as numbers. Empty lines and lines that begin with # are skipped.",
            "Says whether every plan is lawful and no two transmissions overlap.",
        ],
        options: &[],
        ends: "0; 1 where a plan is not lawful (18) or two overlap (19); 2 for more than 32 repeaters or a value that is out of its range (10).",
        run: plans::site,
    },
    Command {
        name: "read",
        forms: &["HEX", "--erp2 HEX"],
        words: Takes::Text,
        brief: "prints the fields of a telegram",
        about: &["Prints the fields of a subtelegram, or with --erp2 of an ERP2 telegram with its length byte."],
        options: &[plain("erp2", "the telegram is an ERP2 telegram")],
        ends: "0; 1 where the telegram is refused; 2 for wrong usage.",
        run: telegrams::read,
    },
    Command {
        name: "build",
        forms: &["RORG DATA TXID", "--erp2 CONTROL TYPE ORIGINATOR DATA"],
        words: Takes::Text,
        brief: "prints the telegram of fields",
        about: &["Prints a subtelegram with its HASH, or an ERP2 telegram in its long form. CONTROL, TYPE and N are numbers; all others are hexadecimal digits."],
        options: &[
            plain("erp2", "builds an ERP2 telegram"),
            text("status", "HEX", "STATUS, 00 by default; 80 and above select the CRC"),
            text("to", "ID", "to whom it is addressed"),
            text("subtype", "HEX", "the extended telegram type, given exactly if TYPE is 15"),
            text("hops", "N", "repeater count of an extended header"),
            text("optional", "HEX", "its optional data"),
        ],
        ends: "0; 1 where the fields are refused; 2 for a value that is out of its range (10).",
        run: telegrams::build,
    },
    Command {
        name: "generate",
        forms: &["man DIR", "completions DIR"],
        words: Takes::Folder,
        brief: "writes the man pages, or the completions of shells",
        about: &[
            "`man` writes mooringeye.1 and a page for each command. `completions` writes mooringeye.bash, _mooringeye for zsh and mooringeye.fish.",
            "The folder is made if it is missing.",
        ],
        options: &[],
        ends: "0; 1 where a file can't be written; 2 for wrong usage.",
        run: generate::run,
    },
    Command {
        name: "version",
        forms: &[""],
        words: Takes::Nothing,
        brief: "prints the versions of the tool and of its library",
        about: &[],
        options: &[],
        ends: "0.",
        run: crate::version,
    },
];
