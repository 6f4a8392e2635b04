//! The few functions of the C library that std lacks. This is the only module with `unsafe`.
//!
//! - `signal`: std has no signals, and the collector must end in order at SIGTERM, SIGINT and SIGHUP;
//! - `write`: the one thing that a handler may do to wake the program;
//! - `poll`: std cannot wait for a descriptor and a signal at once;
//! - `__errno_location`: a handler must leave the number of the last error as it found it;
//! - `inotify_init1`, `inotify_add_watch`: std cannot wait until a file grows;
//! - `lseek`: std cannot ask where a sparse file has data;
//! - `fcntl`: std opens /dev/null where a standard descriptor is closed, so that has to be asked before std begins.
//!
//! Locks, the sync of a folder and aligned writes at an offset are in std.
#![allow(unsafe_code)]
use std::ffi::CStr;
use std::fs::File;
use std::io;
use std::os::fd::{AsRawFd, BorrowedFd, FromRawFd, OwnedFd, RawFd};
use std::sync::atomic::{AtomicBool, AtomicI32, Ordering};

mod c {
    #[repr(C)]
    pub struct PollFd {
        pub fd: i32,
        pub events: i16,
        pub revents: i16,
    }

    extern "C" {
        pub fn signal(number: i32, handler: usize) -> usize;
        pub fn write(fd: i32, bytes: *const u8, len: usize) -> isize;
        pub fn poll(fds: *mut PollFd, count: std::ffi::c_ulong, timeout: i32) -> i32;
        pub fn __errno_location() -> *mut i32;
        pub fn fcntl(fd: i32, command: i32, ...) -> i32;
        pub fn lseek(fd: i32, offset: i64, whence: i32) -> i64;
        pub fn inotify_init1(flags: i32) -> i32;
        pub fn inotify_add_watch(fd: i32, path: *const std::ffi::c_char, mask: u32) -> i32;
    }
}

pub const SIGHUP: i32 = 1;
pub const SIGINT: i32 = 2;
pub const SIGUSR1: i32 = 10;
pub const SIGTERM: i32 = 15;
/// Sent if a file would grow past the limit of its size; if it is ignored, the write fails with a message of its own.
const SIGXFSZ: i32 = 25;
const SIG_IGN: usize = 1;
const F_GETFD: i32 = 1;
const EBADF: i32 = 9;
pub const POLLIN: i16 = 1;
pub const POLLOUT: i16 = 4;

/// Whether standard input, output and error were closed when the program began.
static CLOSED: [AtomicBool; 3] = [const { AtomicBool::new(false) }; 3];

/// Run by the loader before std, which opens /dev/null for closed descriptors: rows would be lost there without a message.
#[used]
#[link_section = ".init_array"]
static AT_START: extern "C" fn() = note_closed;

extern "C" fn note_closed() {
    for (fd, closed) in CLOSED.iter().enumerate() {
        // SAFETY: only numbers; the answer for a descriptor that is not open is -1.
        closed.store(unsafe { c::fcntl(fd as i32, F_GETFD) } == -1, Ordering::Relaxed);
    }
}

/// The failure that a closed standard descriptor would give.
pub fn was_open(fd: usize) -> io::Result<()> {
    match CLOSED[fd].load(Ordering::Relaxed) {
        true => Err(io::Error::from_raw_os_error(EBADF)),
        false => Ok(()),
    }
}

/// The signal that asked to stop, or 0.
static STOP: AtomicI32 = AtomicI32::new(0);
/// Whether the totals were asked for.
static TOTALS: AtomicBool = AtomicBool::new(false);
/// Where a handler writes a byte, to end a wait.
static WAKE: AtomicI32 = AtomicI32::new(-1);

/// It only stores into atomics and calls `write`: both are allowed in a handler.
extern "C" fn handle(number: i32) {
    match number {
        SIGUSR1 => TOTALS.store(true, Ordering::Relaxed),
        number => STOP.store(number, Ordering::Relaxed),
    }
    // SAFETY: one byte of a constant; the answer for a full or closed descriptor is -1. The location of the error number belongs to this thread.
    unsafe {
        let errno = c::__errno_location();
        let before = *errno;
        c::write(WAKE.load(Ordering::Relaxed), b"!".as_ptr(), 1);
        *errno = before;
    }
}

/// From now on, the signals that end the collector in order, and SIGUSR1, are noted and wake a wait on the other end of `wake`.
pub fn catch_signals(wake: RawFd) {
    WAKE.store(wake, Ordering::Relaxed);
    let handler = handle as extern "C" fn(i32) as usize;
    for number in [SIGINT, SIGTERM, SIGHUP, SIGUSR1] {
        // SAFETY: the handler is a function of this type that lives as long as the program and does only what a handler may.
        let before = unsafe { c::signal(number, handler) };
        // `nohup` asked for SIGHUP to be ignored.
        if number == SIGHUP && before == SIG_IGN {
            // SAFETY: SIG_IGN is a disposition that every signal but two can have.
            unsafe { c::signal(number, SIG_IGN) };
        }
    }
}

/// A file that would grow past its limit, or a reader that closed its pipe, makes a write fail and does not end the process.
pub fn ignore_file_size_signal() {
    // SAFETY: SIG_IGN is a disposition that this signal can have. std has done the same for SIGPIPE.
    unsafe { c::signal(SIGXFSZ, SIG_IGN) };
}

/// The signal that asked to stop.
pub fn stop_signal() -> Option<i32> {
    Some(STOP.load(Ordering::Relaxed)).filter(|n| *n != 0)
}

/// Whether a signal came that was not handled yet.
pub fn is_signalled() -> bool {
    stop_signal().is_some() || TOTALS.load(Ordering::Relaxed)
}

/// Whether the totals were asked for since the last time.
pub fn take_totals_request() -> bool {
    TOTALS.swap(false, Ordering::Relaxed)
}

/// Waits until one of two descriptors is ready for `events`, or `timeout` milliseconds are over (-1: no limit). Returns for each whether it is ready;
/// after an interrupted wait, none is.
pub fn wait(one: (BorrowedFd<'_>, i16), other: (BorrowedFd<'_>, i16), timeout: i32) -> io::Result<[bool; 2]> {
    let mut fds = [one, other].map(|(fd, events)| c::PollFd { fd: fd.as_raw_fd(), events, revents: 0 });
    // SAFETY: two records that live during the call, and their number.
    let answer = unsafe { c::poll(fds.as_mut_ptr(), 2, timeout) };
    match answer {
        -1 => match io::Error::last_os_error() {
            error if error.kind() == io::ErrorKind::Interrupted => Ok([false; 2]),
            error => Err(error),
        },
        _ => Ok(fds.map(|fd| fd.revents != 0)),
    }
}

const IN_NONBLOCK: i32 = 0o4000;
const IN_CLOEXEC: i32 = 0o2_000_000;
/// A file was written, or renamed.
pub const IN_MODIFY: u32 = 0x2;
pub const IN_MOVE_SELF: u32 = 0x800;
/// A file was made in a folder, or renamed into it.
pub const IN_MOVED_TO: u32 = 0x80;
pub const IN_CREATE: u32 = 0x100;

/// A descriptor that is ready to be read when something happens to what it watches; an error if the system has none.
pub fn watcher() -> io::Result<File> {
    // SAFETY: numbers alone.
    match unsafe { c::inotify_init1(IN_NONBLOCK | IN_CLOEXEC) } {
        -1 => Err(io::Error::last_os_error()),
        // SAFETY: a new descriptor that nobody else has.
        fd => Ok(File::from(unsafe { OwnedFd::from_raw_fd(fd) })),
    }
}

/// Watches this path too, from now on.
pub fn watch(watcher: &File, path: &CStr, events: u32) -> io::Result<()> {
    // SAFETY: a string that ends with a zero and lives during the call.
    match unsafe { c::inotify_add_watch(watcher.as_raw_fd(), path.as_ptr(), events) } {
        -1 => Err(io::Error::last_os_error()),
        _ => Ok(()),
    }
}

const SEEK_DATA: i32 = 3;
/// No data from there on, or the file ends before that offset.
const ENXIO: i32 = 6;

/// Whether a file may have data from this offset on; where there is no data, it reads as zeros. If the system does not know, it may have. If the file
/// ends there or before, it may have too, so that a read fails. This moves the file's own offset, which is not used: all reads and writes are at
/// offsets.
pub fn has_data_from(file: &File, at: u64) -> bool {
    let Ok(offset) = i64::try_from(at) else { return true };
    // SAFETY: numbers alone, of a descriptor that is open.
    let found = unsafe { c::lseek(file.as_raw_fd(), offset, SEEK_DATA) };
    found != -1 || io::Error::last_os_error().raw_os_error() != Some(ENXIO) || file.metadata().map_or(true, |m| m.len() <= at)
}

#[cfg(test)]
mod tests {
    use super::*;

    /// A hole at the end has no data. If a file became shorter than its reader believes, there is no hole: the read must fail.
    #[test]
    fn data_in_a_file_that_ends() {
        let path = std::env::temp_dir().join(format!("mooringeye-data-{}", std::process::id()));
        let file = File::options().create(true).truncate(true).read(true).write(true).open(&path).unwrap();
        std::fs::remove_file(&path).unwrap();
        file.set_len(1 << 20).unwrap();
        assert!(!has_data_from(&file, 0) && !has_data_from(&file, (1 << 20) - 1));
        assert!(has_data_from(&file, 1 << 20) && has_data_from(&file, 1 << 21));
        file.set_len(512).unwrap();
        assert!(!has_data_from(&file, 0) && has_data_from(&file, 512) && has_data_from(&file, 4_096));
    }
}
