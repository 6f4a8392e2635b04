//! `mooringeye status`: the content of a state file, for people and for programs. The file is only read, so a collector may run meanwhile.
use crate::args::Args;
use crate::failure::Failure;
use crate::journal::{State, LENGTH};
use crate::names::json;
use crate::rows;
use crate::streams::{quietly, Output};
use crate::times::iso;
use mooringeye::Totals;
use std::fs::File;
use std::io::Read;
use std::path::Path;
use std::time::{SystemTime, UNIX_EPOCH};

/// Times before 2000 are counted by a gateway from its start; they are not dates.
const FIRST_DATE: u64 = 946_684_800_000;

pub fn run(args: &Args) -> Result<(), Failure> {
    args.no_rest()?;
    let path = args.path("state")?.ok_or_else(|| Failure::Usage("status: --state is missing. Write `mooringeye status --state FILE`.".into()))?;
    let state = read(&path)?;
    let now = SystemTime::now().duration_since(UNIX_EPOCH).map_or(0, |since| since.as_millis() as u64);
    let text = if args.has("json") { as_json(&state, now) } else { as_text(&state, now) };
    quietly(Output::standard()?.write(text.as_bytes()))
}

fn read(path: &Path) -> Result<State, Failure> {
    let cannot = |e| Failure::of(format!("read {}", path.display()), &e);
    let mut bytes = Vec::new();
    let file = File::open(path).map_err(cannot)?;
    let about = file.metadata().map_err(cannot)?;
    let length = if about.is_file() { about.len().to_string() } else { format!("more than {LENGTH}") };
    file.take(LENGTH as u64 + 1).read_to_end(&mut bytes).map_err(cannot)?;
    let damaged = |why| Failure::Damaged(format!("{}: damaged: {why}. The file was not changed.", path.display()));
    match bytes.len() > LENGTH {
        true => Err(damaged(format!("{length} bytes, expected {LENGTH}"))),
        false => State::of_bytes(&bytes).map_err(damaged),
    }
}

/// How often each open telegram was received again.
fn open(state: &State) -> Vec<u16> {
    (0..state.collector.open()).filter_map(|entry| state.collector.copies(entry)).collect()
}

/// Rows of the archive's file.
pub fn archive_rows(state: &State) -> Option<u64> {
    state.archive.as_ref().map(|archive| state.counted() - archive.counted + archive.had)
}

/// How long ago the latest reception was, if its time is a date.
fn age(state: &State, now: u64) -> Option<u64> {
    let latest = state.collector.latest();
    now.checked_sub(latest).filter(|_| latest >= FIRST_DATE)
}

/// A duration in ms, in its two largest units.
fn duration(ms: u64) -> String {
    let (seconds, minutes, hours) = (ms / 1_000, ms / 60_000, ms / 3_600_000);
    match (hours / 24, hours, minutes) {
        (0, 0, 0) => format!("{seconds}.{:03} s", ms % 1_000),
        (0, 0, _) => format!("{minutes} min {} s", seconds % 60),
        (0, _, _) => format!("{hours} h {} min", minutes % 60),
        (days, _, _) => format!("{days} d {} h", hours % 24),
    }
}

fn joined(numbers: &[u16], between: &str) -> String {
    numbers.iter().map(u16::to_string).collect::<Vec<_>>().join(between)
}

fn as_text(state: &State, now: u64) -> String {
    let mut out = String::new();
    let mut line = |name: &str, value: String| out += &format!("{name:<18}{value}\n");
    line("lines taken", state.lines.to_string());
    line("totals", rows::totals(&state.collector.totals()));
    let open = open(state);
    let copies = if open.is_empty() { String::new() } else { format!(", heard again {} times", joined(&open, ", ")) };
    line("open telegrams", format!("{}{copies}", open.len()));
    line(
        "log",
        match &state.log {
            None => "its position is not known".into(),
            Some(log) if log.inode == 0 => format!("standard input, {} bytes taken", log.offset),
            Some(log) => format!("byte {} of the file with inode {}", log.offset, log.inode),
        },
    );
    if let (Some(archive), Some(rows)) = (&state.archive, archive_rows(state)) {
        let number = if archive.name.contains(&b'#') { format!(", file {}", archive.number) } else { String::new() };
        line("archive", format!("{}{number}, {rows} rows", String::from_utf8_lossy(&archive.name)));
    }
    if let Some(kept) = state.out {
        line("rows file", format!("{} bytes", kept.length));
    }
    let latest = state.collector.latest();
    line(
        "latest reception",
        match age(state, now) {
            Some(age) => format!("{}, {} ago", iso(latest), duration(age)),
            None if latest >= FIRST_DATE => format!("{}, {} ahead of this computer's clock", iso(latest), duration(latest - now)),
            None => format!("{latest} ms"),
        },
    );
    out
}

fn as_json(state: &State, now: u64) -> String {
    let Totals { received, kept, copies, loose, damaged, late } = state.collector.totals();
    let log = state.log.as_ref().map(|l| format!("{{\"offset\":{},\"device\":{},\"inode\":{}}}", l.offset, l.device, l.inode));
    let archive = state.archive.as_ref().zip(archive_rows(state)).map(|(archive, rows)| {
        let name = json(&String::from_utf8_lossy(&archive.name));
        format!("{{\"name\":{name},\"file\":{},\"rows\":{rows}}}", archive.number)
    });
    let out = state.out.map(|out| format!("{{\"bytes\":{}}}", out.length));
    let null = |value: Option<String>| value.unwrap_or_else(|| "null".into());
    format!(
        "{{\"lines\":{},\"received\":{received},\"kept\":{kept},\"copies\":{copies},\"loose\":{loose},\"damaged\":{damaged},\"late\":{late},\
         \"open\":[{}],\"log\":{},\"archive\":{},\"out\":{},\"latest\":{},\"age_ms\":{}}}\n",
        state.lines,
        joined(&open(state), ","),
        null(log),
        null(archive),
        null(out),
        state.collector.latest(),
        null(age(state, now).map(|age| age.to_string())),
    )
}
