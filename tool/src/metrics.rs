//! `collect --metrics FILE`: totals in Prometheus' text format, for the textfile collector of its node exporter.
use crate::failure::tell;
use crate::files::with_suffix;
use crate::journal::State;
use crate::status::archive_rows;
use mooringeye::Totals;
use std::fmt::{Display, Write};
use std::fs::{self, Permissions};
use std::os::unix::fs::PermissionsExt;
use std::path::PathBuf;

/// Another program reads the file, whatever umask this one has.
const MODE: u32 = 0o644;

/// The file, which is replaced in one step. It is not synced: after a power cut, the next batch writes it.
pub struct Metrics {
    path: Option<PathBuf>,
    /// Whether a failure was reported. A collector continues without its metrics.
    told: bool,
}

impl Metrics {
    pub fn of(path: Option<PathBuf>) -> Metrics {
        Metrics { path, told: false }
    }

    /// Writes the numbers of a state.
    pub fn write(&mut self, state: &State) {
        let Some(path) = &self.path else { return };
        let beside = with_suffix(path, ".new");
        let readable = |()| match fs::metadata(&beside)?.permissions().mode() & 0o777 {
            MODE => Ok(()),
            _ => fs::set_permissions(&beside, Permissions::from_mode(MODE)),
        };
        let written = fs::write(&beside, text(state)).and_then(readable).and_then(|()| fs::rename(&beside, path));
        if let (Err(error), false) = (&written, self.told) {
            tell(format!("cannot write the metrics {}: {error}. The collector continues without them.", path.display()));
        }
        self.told = written.is_err();
    }
}

fn text(state: &State) -> String {
    let Totals { received, kept, copies, loose, damaged, late } = state.collector.totals();
    let mut out = String::new();
    let mut metric = |name: &str, kind: &str, help: &str, values: &[(&str, &dyn Display)]| {
        let _ = writeln!(out, "# HELP mooringeye_{name} {help}\n# TYPE mooringeye_{name} {kind}");
        for (label, value) in values {
            let _ = writeln!(out, "mooringeye_{name}{label} {value}");
        }
    };
    metric("lines_total", "counter", "Lines that were taken.", &[("", &state.lines)]);
    metric("receptions_total", "counter", "Receptions that were taken.", &[("", &received)]);
    let answers: [(&str, &dyn Display); 5] = [
        ("{answer=\"KEPT\"}", &kept),
        ("{answer=\"COPY\"}", &copies),
        ("{answer=\"LOOSE\"}", &loose),
        ("{answer=\"DAMAGED\"}", &damaged),
        ("{answer=\"LATE\"}", &late),
    ];
    metric("answers_total", "counter", "Receptions by their answer.", &answers);
    metric("open_telegrams", "gauge", "Telegrams that are open.", &[("", &state.collector.open())]);
    let latest = state.collector.latest();
    let latest = format!("{}.{:03}", latest / 1_000, latest % 1_000);
    metric("latest_time_seconds", "gauge", "Time of the latest reception, as the log has it.", &[("", &latest)]);
    if let Some(log) = &state.log {
        metric("log_offset_bytes", "gauge", "Bytes of the log that were taken.", &[("", &log.offset)]);
    }
    if let Some(rows) = archive_rows(state) {
        metric("archive_rows", "gauge", "Rows of the archive file that is being written.", &[("", &rows)]);
    }
    out
}
