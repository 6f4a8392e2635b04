//! Signals, and waiting for a descriptor while they may come.
use crate::sys;
use std::io::{self, Read};
use std::os::fd::{AsFd, AsRawFd};
use std::os::unix::net::UnixStream;

/// Wakes a wait when a signal comes.
pub struct Signals {
    woken: UnixStream,
    wake: UnixStream,
}

/// How a wait ended.
#[derive(PartialEq, Eq)]
pub enum Waited {
    Ready,
    /// A signal came, or the time is over.
    Not,
}

impl Signals {
    pub fn catch() -> io::Result<Signals> {
        let signals = Signals::none()?;
        sys::catch_signals(signals.wake.as_raw_fd());
        Ok(signals)
    }

    /// For a command that has nothing to clean up: signals do what they do by default.
    pub fn none() -> io::Result<Signals> {
        let (woken, wake) = UnixStream::pair()?;
        woken.set_nonblocking(true)?;
        wake.set_nonblocking(true)?;
        Ok(Signals { woken, wake })
    }

    /// Returns at once if a signal came before: the caller handles it first.
    pub fn wait_to_read(&self, from: &impl AsFd) -> io::Result<Waited> {
        match sys::is_signalled() {
            true => Ok(Waited::Not),
            false => self.wait(from, sys::POLLIN, -1),
        }
    }

    /// Waits at most `timeout` milliseconds, or until something can be read, if there is something to read from.
    pub fn rest(&self, from: Option<&impl AsFd>, timeout: i32) -> io::Result<()> {
        match (sys::is_signalled(), from) {
            (true, _) => Ok(()),
            (false, Some(from)) => self.wait(from, sys::POLLIN, timeout).map(|_| ()),
            (false, None) => self.wait(&self.wake, 0, timeout).map(|_| ()),
        }
    }

    pub fn wait_to_write(&self, to: &impl AsFd, timeout: i32) -> io::Result<Waited> {
        self.wait(to, sys::POLLOUT, timeout)
    }

    fn wait(&self, fd: &impl AsFd, events: i16, timeout: i32) -> io::Result<Waited> {
        let [ready, woken] = sys::wait((fd.as_fd(), events), (self.woken.as_fd(), sys::POLLIN), timeout)?;
        if woken {
            let _ = (&self.woken).read(&mut [0; 64]);
        }
        Ok(if ready && !woken { Waited::Ready } else { Waited::Not })
    }
}

/// The signal that asked to stop, by its name.
pub fn stop() -> Option<&'static str> {
    sys::stop_signal().map(|number| match number {
        sys::SIGINT => "SIGINT",
        sys::SIGHUP => "SIGHUP",
        _ => "SIGTERM",
    })
}
