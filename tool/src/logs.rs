//! `--log FILE`: the log is read from the position in the state, followed as it grows, and through rotation by rename.
//!
//! A log is known by its inode and by its last bytes before the position (`LogPlace`). Rotated logs are files in the same folder with its name and a
//! number or a date: of FILE.1, FILE.2, .. the first is the newest; of others, the one that was changed earlier is older. If a log was cut
//! (copytruncate) or is gone, nothing can be known, so it is refused.
use crate::failure::{tell, Failure};
use crate::files;
use crate::journal::LogPlace;
use crate::signals::Signals;
use crate::streams::Got;
use crate::sys;
use std::cmp::Reverse;
use std::collections::VecDeque;
use std::ffi::{CString, OsStr};
use std::fs::{self, File};
use std::io::{self, Read};
use std::os::fd::AsRawFd;
use std::os::unix::ffi::OsStrExt;
use std::os::unix::fs::{FileExt, MetadataExt};
use std::path::{Path, PathBuf};
use std::time::SystemTime;

/// How long the tool waits at the end of a log, in milliseconds: if its growth is watched, and if it is not.
const WATCHED: i32 = 1_000;
const POLLED: i32 = 20;
/// The endings of rotated logs that are packed.
const PACKED: [&str; 6] = [".gz", ".xz", ".bz2", ".zst", ".lz4", ".zip"];

/// A log that is open.
struct Opened {
    path: PathBuf,
    file: File,
    device: u64,
    inode: u64,
}

impl Opened {
    fn of(path: &Path) -> io::Result<Opened> {
        let file = File::open(path)?;
        let metadata = file.metadata()?;
        Ok(Opened { path: path.into(), file, device: metadata.dev(), inode: metadata.ino() })
    }

    fn length(&self) -> Result<u64, Failure> {
        self.file.metadata().map(|m| m.len()).map_err(|e| self.cannot(&e))
    }

    fn cannot(&self, error: &io::Error) -> Failure {
        Failure::of(format!("read {}", self.path.display()), error)
    }

    /// Whether the bytes before a position are those that were taken; if not, the first byte that differs.
    fn compare(&self, place: &LogPlace) -> Result<Result<(), u64>, Failure> {
        let length = self.length()?;
        if length < place.offset {
            return Ok(Err(length));
        }
        let first = place.offset - place.tail.len() as u64;
        let mut bytes = vec![0; place.tail.len()];
        self.file.read_exact_at(&mut bytes, first).map_err(|e| self.cannot(&e))?;
        Ok(match differ(&bytes, &place.tail) {
            Some(at) => Err(first + at),
            None => Ok(()),
        })
    }
}

/// Where two texts first differ.
pub fn differ(one: &[u8], other: &[u8]) -> Option<u64> {
    let at = one.iter().zip(other).position(|(a, b)| a != b);
    at.or((one.len() != other.len()).then(|| one.len().min(other.len()))).map(|at| at as u64)
}

pub struct Log {
    path: PathBuf,
    current: Opened,
    at: u64,
    /// Newer logs that are to be read next.
    newer: VecDeque<Opened>,
    follows: bool,
    watcher: Option<File>,
}

impl Log {
    /// Opens the log at a position; at its first byte if there is none.
    pub fn open(path: &Path, follows: bool, place: Option<&LogPlace>) -> Result<Log, Failure> {
        let (current, newer, at) = match place {
            Some(place) if place.inode != 0 => find(path, place)?,
            Some(place) => (named(path)?, VecDeque::new(), place.offset),
            None => (named(path)?, VecDeque::new(), 0),
        };
        if let Some(place) = place {
            let shown = current.path.display();
            if let Err(byte) = current.compare(place)? {
                let text = match current.length()? < place.offset {
                    true => format!("{shown} was cut to {byte} bytes, but {} were read before", place.offset),
                    false => format!("{shown} is not the log that was read before: it differs at byte {byte}"),
                };
                return Err(Failure::Damaged(format!("{text}. Nothing was changed. Use --adopt-log to take it from its first byte.")));
            }
        }
        let mut log = Log { path: path.into(), current, at, newer, follows, watcher: None };
        log.watch();
        Ok(log)
    }

    /// The position before anything is read: of a log that is begun, or of the one in the state.
    pub fn place(&self) -> LogPlace {
        LogPlace { offset: 0, device: self.current.device, inode: self.current.inode, tail: Vec::new() }
    }

    /// Device and inode of the log that is read.
    pub fn identity(&self) -> (u64, u64) {
        (self.current.device, self.current.inode)
    }

    pub fn path(&self) -> &Path {
        &self.current.path
    }

    /// How many bytes there are to read now; none if more is waited for.
    pub fn left(&self) -> Option<u64> {
        let newer = self.newer.iter().filter_map(|log| log.length().ok()).sum::<u64>();
        (!self.follows).then(|| self.current.length().unwrap_or(0).saturating_sub(self.at) + newer)
    }

    /// The first bytes of the log that is read.
    pub fn front(&self) -> Result<Vec<u8>, Failure> {
        let mut bytes = vec![0; 16];
        let read = self.current.file.read_at(&mut bytes, 0).map_err(|e| self.current.cannot(&e))?;
        bytes.truncate(read);
        Ok(bytes)
    }

    /// Watches the log that is read, and its folder for a new one.
    fn watch(&mut self) {
        if !self.follows {
            return;
        }
        self.watcher = sys::watcher().ok();
        let Some(watcher) = &self.watcher else { return };
        let own = CString::new(format!("/proc/self/fd/{}", self.current.file.as_raw_fd())).expect("no zero");
        let folder = CString::new(files::folder(&self.path).as_os_str().as_bytes()).expect("a path has no zero");
        let watched = sys::watch(watcher, &own, sys::IN_MODIFY | sys::IN_MOVE_SELF);
        if watched.and(sys::watch(watcher, &folder, sys::IN_CREATE | sys::IN_MOVED_TO)).is_err() {
            self.watcher = None;
        }
    }

    pub fn read(&mut self, buffer: &mut [u8], signals: &Signals) -> Result<Got, Failure> {
        loop {
            if sys::is_signalled() {
                return Ok(Got::Signal);
            }
            match self.current.file.read_at(buffer, self.at) {
                Ok(0) => {}
                Ok(n) => {
                    self.at += n as u64;
                    return Ok(Got::Bytes(n));
                }
                Err(error) if error.kind() == io::ErrorKind::Interrupted => continue,
                Err(error) => return Err(self.current.cannot(&error)),
            }
            if self.current.length()? < self.at {
                return Err(cut(&self.current.path, self.current.length()?, self.at));
            }
            match self.next()? {
                Next::Read => continue,
                Next::Log => return Ok(Got::Next),
                Next::End => return Ok(Got::End),
                Next::Wait(timeout) => {
                    signals.rest(self.watcher.as_ref(), timeout).map_err(|e| self.current.cannot(&e))?;
                    if let Some(mut watcher) = self.watcher.as_ref() {
                        let _ = watcher.read(&mut [0; 4096]);
                    }
                }
            }
        }
    }

    /// What to do at the end of the log that is read.
    fn next(&mut self) -> Result<Next, Failure> {
        if let Some(next) = self.newer.pop_front() {
            return self.go_on(next);
        }
        let named = fs::metadata(&self.path).ok();
        let is_current = named.as_ref().is_some_and(|m| (m.dev(), m.ino()) == self.identity());
        match named {
            None if !self.follows => Ok(Next::End),
            Some(_) if is_current && !self.follows => Ok(Next::End),
            None => Ok(Next::Wait(POLLED)), // renamed, and the new one is not there yet
            Some(_) if is_current => Ok(Next::Wait(if self.watcher.is_some() { WATCHED } else { POLLED })),
            // As long as the new one is empty, the old one may still be written.
            Some(metadata) if metadata.len() == 0 && self.follows => Ok(Next::Wait(POLLED)),
            Some(_) => {
                self.newer = newer_than(&self.path, self.identity().1)?;
                Ok(Next::Read)
            }
        }
    }

    /// The log that is read has ended: it is read once more, because something may have been written before it was renamed.
    fn go_on(&mut self, next: Opened) -> Result<Next, Failure> {
        if self.current.length()? > self.at {
            self.newer.push_front(next);
            return Ok(Next::Read);
        }
        (self.current, self.at) = (next, 0);
        self.watch();
        Ok(Next::Log)
    }
}

enum Next {
    Read,
    /// The next log was opened.
    Log,
    End,
    Wait(i32),
}

fn named(path: &Path) -> Result<Opened, Failure> {
    Opened::of(path).map_err(|e| Failure::of(format!("open {}", path.display()), &e))
}

fn cut(path: &Path, length: u64, taken: u64) -> Failure {
    let text = "Its lines may be lost. Rotate it by rename, not by copytruncate.";
    Failure::Damaged(format!("{} was cut to {length} bytes, but {taken} were read. {text}", path.display()))
}

/// The log with the inode that was taken, and the newer ones in order.
fn find(path: &Path, place: &LogPlace) -> Result<(Opened, VecDeque<Opened>, u64), Failure> {
    let mut all = rotated(path)?;
    let Some(at) = all.iter().position(|o| o.inode == place.inode) else {
        // A copy of the same log, for example from a backup, will do as well.
        let own = all.pop_back();
        return match own {
            Some(own) if own.path == path && own.compare(place)?.is_ok() => Ok((own, VecDeque::new(), place.offset)),
            _ => Err(Failure::Damaged(format!(
                "the log that was taken is neither {} nor a rotated one beside it (inode {}). Nothing was changed. \
                 Use --adopt-log to take {} from its first byte.",
                path.display(),
                place.inode,
                path.display()
            ))),
        };
    };
    let newer = all.split_off(at + 1);
    let current = all.pop_back().expect("found there");
    Ok((current, newer, place.offset))
}

/// The logs that are newer than the one with this inode.
fn newer_than(path: &Path, inode: u64) -> Result<VecDeque<Opened>, Failure> {
    let mut all = rotated(path)?;
    match all.iter().position(|o| o.inode == inode) {
        Some(at) => Ok(all.split_off(at + 1)),
        None => {
            tell(format!("the log that was read is no longer next to {}: continuing with that one", path.display()));
            Ok(all.split_off(all.len().saturating_sub(1)))
        }
    }
}

/// Which of two rotated logs is older: the one with the larger number, or the one that was changed earlier.
#[derive(PartialEq, Eq, PartialOrd, Ord)]
enum Age {
    Numbered(Reverse<u64>),
    Changed(SystemTime),
}

/// The log and the rotated ones in its folder, the oldest first. They may be renamed meanwhile: the search is repeated until nothing changes.
fn rotated(path: &Path) -> Result<VecDeque<Opened>, Failure> {
    for _ in 0..1_000 {
        let listed = list(path)?;
        let opened: VecDeque<Opened> = listed.iter().filter_map(|(path, _)| Opened::of(path).ok()).collect();
        let is_still = opened.iter().map(|o| o.inode).eq(listed.iter().map(|(_, inode)| *inode)) && list(path)? == listed;
        if is_still {
            return Ok(opened);
        }
    }
    Err(Failure::Failed(format!(
        "{} and the rotated logs next to it were renamed again and again while they were listed. Try again.",
        path.display()
    )))
}

/// Paths and inodes of the log and the rotated ones, the oldest first.
fn list(path: &Path) -> Result<Vec<(PathBuf, u64)>, Failure> {
    let folder = files::folder(path);
    let cannot = |e: io::Error| Failure::of(format!("read {}", folder.display()), &e);
    let name = path.file_name().unwrap_or_default();
    let mut found = Vec::new();
    for entry in fs::read_dir(folder).map_err(cannot)? {
        let entry = entry.map_err(cannot)?;
        let Some(number) = rotation(name, &entry.file_name()) else { continue };
        let Ok(metadata) = entry.metadata() else { continue };
        if metadata.is_file() {
            let changed = metadata.modified().unwrap_or(SystemTime::UNIX_EPOCH);
            let age = number.map_or(Age::Changed(changed), |n| Age::Numbered(Reverse(n)));
            found.push((age, folder.join(entry.file_name()), metadata.ino()));
        }
    }
    found.sort();
    let own = fs::metadata(path).ok().map(|m| (path.to_path_buf(), m.ino()));
    Ok(found.into_iter().map(|(_, path, inode)| (path, inode)).chain(own).collect())
}

/// Whether a file is a rotated log by its name, and its number: FILE.N, or FILE with a date after it or before its extension.
fn rotation(name: &OsStr, other: &OsStr) -> Option<Option<u64>> {
    let (name, other) = (name.to_str()?, other.to_str()?);
    if PACKED.iter().any(|ending| other.ends_with(ending)) {
        return None;
    }
    let is_date = |text: &str| {
        text.len() >= 8 && text.starts_with(|c: char| c.is_ascii_digit()) && text.bytes().all(|c| c.is_ascii_digit() || b"-_.:T".contains(&c))
    };
    if let Some(rest) = other.strip_prefix(name) {
        let rest = rest.strip_prefix(['.', '-', '_'])?;
        return match rest.parse::<u64>() {
            Ok(number) if rest.len() < 8 => Some(Some(number)),
            _ => is_date(rest).then_some(None),
        };
    }
    let (stem, ending) = name.rsplit_once('.')?;
    let rest = other.strip_prefix(stem)?.strip_suffix(ending)?.strip_suffix('.')?.strip_prefix(['.', '-', '_'])?;
    is_date(rest).then_some(None)
}

#[cfg(test)]
mod tests {
    use super::*;

    #[test]
    fn names_of_rotated_logs() {
        let of = |other: &str| rotation(OsStr::new("gateway.log"), OsStr::new(other));
        assert_eq!(of("gateway.log.1"), Some(Some(1)));
        assert_eq!(of("gateway.log.12"), Some(Some(12)));
        assert_eq!(of("gateway.log-20260117"), Some(None));
        assert_eq!(of("gateway.log-2026-01-17T00"), Some(None));
        assert_eq!(of("gateway-20260117.log"), Some(None));
        for other in ["gateway.log", "gateway.log.1.gz", "gateway.log.old", "gateway.logs", "gateway.state", "other.log.1", "gateway.log-20260117.gz"]
        {
            assert_eq!(of(other), None, "{other}");
        }
    }

    #[test]
    fn where_texts_differ() {
        assert_eq!(differ(b"abc", b"abc"), None);
        assert_eq!(differ(b"abc", b"axc"), Some(1));
        assert_eq!(differ(b"abc", b"ab"), Some(2));
    }
}
