//! Why a command fails, and the exit status for it.
use mooringeye::{Refusal, Refused};
use std::fmt::Display;
use std::io;
use std::sync::atomic::{AtomicBool, Ordering};

/// What went wrong, as a message for standard error.
#[derive(Debug)]
pub enum Failure {
    /// An input or an output failed, or what was read is refused: status 1.
    Failed(String),
    /// Nobody reads standard output any more: status 1, or 0 for a command that only prints.
    Closed(String),
    /// Wrong usage: status 2.
    Usage(String),
    /// A damaged state or archive: status 3.
    Damaged(String),
}

impl Failure {
    pub fn status(&self) -> u8 {
        match self {
            Failure::Failed(_) | Failure::Closed(_) => 1,
            Failure::Usage(_) => 2,
            Failure::Damaged(_) => 3,
        }
    }

    pub fn text(&self) -> &str {
        let (Failure::Failed(text) | Failure::Closed(text) | Failure::Usage(text) | Failure::Damaged(text)) = self;
        text
    }

    /// An input or output that failed: what was requested, and the system's own words.
    pub fn of(asked: impl Display, error: &io::Error) -> Failure {
        Failure::Failed(format!("cannot {asked}: {error}"))
    }

    /// A refusal of the library. 11, 12 and 16 are reported for states and archives, 10 for an argument.
    pub fn refused(what: impl Display, why: Refusal) -> Failure {
        let text = format!("{what}: {why}");
        match why {
            Refusal::NotAccepted | Refusal::Mismatch | Refusal::Size => Failure::Damaged(text),
            Refusal::Argument => Failure::Usage(text),
            _ => Failure::Failed(text),
        }
    }

    /// The same with the position of a block.
    pub fn refused_at(what: impl Display, refused: Refused) -> Failure {
        match refused.why {
            Refusal::Mismatch => Failure::Damaged(format!("{what}: {refused}")),
            why => Failure::refused(what, why),
        }
    }
}

/// Whether `--quiet` is given.
static IS_QUIET: AtomicBool = AtomicBool::new(false);

pub fn set_quiet(is_quiet: bool) {
    IS_QUIET.store(is_quiet, Ordering::Relaxed);
}

pub fn is_quiet() -> bool {
    IS_QUIET.load(Ordering::Relaxed)
}

/// Writes a message to standard error, except with `--quiet`.
pub fn tell(text: impl Display) {
    if !is_quiet() {
        complain(text);
    }
}

/// Whether a line of progress is on the terminal.
static HAS_LINE: AtomicBool = AtomicBool::new(false);

/// Notes whether one is there now, and returns whether one was before.
pub fn set_line(is_there: bool) -> bool {
    HAS_LINE.swap(is_there, Ordering::Relaxed)
}

/// Writes why a command fails, over a line of progress. If standard error cannot be written, nothing more can be done.
pub fn complain(text: impl Display) {
    use io::Write;
    let front = if set_line(false) { "\r\x1b[K" } else { "" };
    let _ = writeln!(io::stderr(), "{front}mooringeye: {text}");
}
