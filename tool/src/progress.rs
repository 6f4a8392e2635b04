//! The progress of long work, on standard error if that is a terminal: one line, which is written again each second and removed at the end.
use crate::failure::{is_quiet, set_line};
use std::io::{self, IsTerminal, Write};
use std::time::{Duration, Instant};

pub struct Progress {
    name: String,
    /// How many bytes there are, if that is known.
    total: Option<u64>,
    done: u64,
    started: Instant,
    /// When it was last shown, or began; none if nobody sees it.
    shown: Option<Instant>,
    is_shown: bool,
}

impl Progress {
    pub fn of(name: String, total: Option<u64>) -> Progress {
        let started = Instant::now();
        let shown = (io::stderr().is_terminal() && !is_quiet()).then_some(started);
        Progress { name, total, done: 0, started, shown, is_shown: false }
    }

    /// `more` bytes are done; `rows` says how many rows all of them are. It is shown once a second, so work of less than a second shows nothing.
    pub fn show(&mut self, more: u64, rows: impl FnOnce(u64) -> String) {
        self.done += more;
        let Some(last) = self.shown else { return };
        if last.elapsed() >= Duration::from_secs(1) {
            let text = line(self.done, self.total, &rows(self.done), self.started.elapsed());
            let _ = write!(io::stderr(), "\r{}: {text}\x1b[K", self.name);
            set_line(true);
            (self.shown, self.is_shown) = (Some(Instant::now()), true);
        }
    }
}

/// How much is done of a number of bytes, how fast, and how long the rest takes.
fn line(done: u64, total: Option<u64>, rows: &str, elapsed: Duration) -> String {
    let mega = |bytes: f64| bytes / 1e6;
    let rate = done as f64 / elapsed.as_secs_f64().max(0.001);
    let (of, left) = match total {
        None => (String::new(), String::new()),
        Some(total) => (format!(" of {:.0}", mega(total as f64)), format!(", {:.0} s left", total.saturating_sub(done) as f64 / rate.max(1.0))),
    };
    format!("{:.0}{of} MB, {rows}, {:.0} MB/s{left}", mega(done as f64), mega(rate))
}

impl Drop for Progress {
    fn drop(&mut self) {
        if self.is_shown && set_line(false) {
            let _ = write!(io::stderr(), "\r\x1b[K");
        }
    }
}

#[cfg(test)]
mod tests {
    use super::*;

    #[test]
    fn lines() {
        let of = |total| line(512_000_000, total, "up to 15000000 rows", Duration::from_secs(2));
        assert_eq!(of(Some(2_048_000_000)), "512 of 2048 MB, up to 15000000 rows, 256 MB/s, 6 s left");
        assert_eq!(of(None), "512 MB, up to 15000000 rows, 256 MB/s");
        // A file that grew while it was read.
        assert_eq!(of(Some(1)), "512 of 0 MB, up to 15000000 rows, 256 MB/s, 0 s left");
    }
}
