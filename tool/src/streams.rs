//! Standard input and output, read and written piece by piece. A descriptor that would block is waited for, an interrupted call is made again, and a
//! signal that asks to stop ends every wait.
use crate::failure::Failure;
use crate::signals::{self, Signals, Waited};
use crate::sys;
use std::fs::{File, Metadata};
use std::io::{self, ErrorKind, IsTerminal, Read, Write};
use std::os::fd::AsFd;
use std::os::unix::fs::FileTypeExt;
use std::time::{Duration, Instant};

/// How long the tool waits, after a signal, for an output that takes nothing.
const GRACE: Duration = Duration::from_secs(5);
/// A pipe that is ready takes this many bytes without blocking, all of them or none (PIPE_BUF).
const PIPE_PART: usize = 4096;

pub struct Input {
    file: File,
}

/// What a read gave.
pub enum Got {
    Bytes(usize),
    End,
    /// A signal came: it asks to stop, or for the totals.
    Signal,
    /// The next log begins: what was read before belongs to the log before it.
    Next,
}

impl Input {
    pub fn standard() -> Result<Input, Failure> {
        let open = || {
            sys::was_open(0)?;
            Ok(File::from(io::stdin().as_fd().try_clone_to_owned()?))
        };
        open().map(|file| Input { file }).map_err(cannot_read)
    }

    /// Its length, if it is a file.
    pub fn length(&self) -> Option<u64> {
        self.file.metadata().ok().filter(Metadata::is_file).map(|m| m.len())
    }

    pub fn read(&mut self, buffer: &mut [u8], signals: &Signals) -> Result<Got, Failure> {
        loop {
            if signals.wait_to_read(&self.file).map_err(cannot_read)? == Waited::Not {
                return Ok(Got::Signal);
            }
            match self.file.read(buffer) {
                Ok(0) => return Ok(Got::End),
                Ok(n) => return Ok(Got::Bytes(n)),
                Err(error) if is_temporary(&error) => {}
                Err(error) => return Err(cannot_read(error)),
            }
        }
    }
}

pub struct Output {
    file: File,
    /// A pipe, a socket or a terminal, which takes little without blocking.
    may_block: bool,
}

impl Output {
    pub fn standard() -> Result<Output, Failure> {
        let open = || {
            sys::was_open(1)?;
            let file = File::from(io::stdout().as_fd().try_clone_to_owned()?);
            let kind = file.metadata()?.file_type();
            Ok(Output { may_block: kind.is_fifo() || kind.is_socket() || file.is_terminal(), file })
        };
        open().map_err(cannot_write)
    }

    /// Writes all, and waits as long as it takes.
    pub fn write(&mut self, mut bytes: &[u8]) -> Result<(), Failure> {
        while !bytes.is_empty() {
            match self.file.write(bytes) {
                Ok(0) => return Err(cannot_write(ErrorKind::WriteZero.into())),
                Ok(n) => bytes = &bytes[n..],
                Err(error) if error.kind() == ErrorKind::Interrupted => {}
                Err(error) if error.kind() == ErrorKind::WouldBlock => self.wait().map_err(cannot_write)?,
                Err(error) => return Err(cannot_write(error)),
            }
        }
        Ok(())
    }

    fn wait(&self) -> io::Result<()> {
        let fd = self.file.as_fd();
        sys::wait((fd, sys::POLLOUT), (fd, 0), -1).map(|_| ())
    }

    /// Writes all; after a signal that asks to stop, the reader has a few seconds to take the rest.
    pub fn write_until_stopped(&mut self, mut bytes: &[u8], signals: &Signals) -> Result<(), Failure> {
        if !self.may_block {
            return self.write(bytes);
        }
        let mut last = None;
        while !bytes.is_empty() {
            if signals::stop().is_some() {
                let since = *last.get_or_insert_with(Instant::now);
                if since.elapsed() > GRACE {
                    let text = format!("stopped while nobody reads standard output: {} bytes of rows are not written", bytes.len());
                    return Err(Failure::Failed(text));
                }
            }
            let timeout = if last.is_some() { 100 } else { -1 };
            if signals.wait_to_write(&self.file, timeout).map_err(cannot_write)? == Waited::Not {
                continue;
            }
            match self.file.write(pipe_part(bytes)) {
                Ok(n) => bytes = &bytes[n..],
                Err(error) if is_temporary(&error) => {}
                Err(error) => return Err(cannot_write(error)),
            }
        }
        Ok(())
    }
}

/// What a pipe takes at once: whole lines, so its reader finds no part of a line if the tool is stopped or killed; a part of a line only if the line
/// is longer.
fn pipe_part(bytes: &[u8]) -> &[u8] {
    let most = &bytes[..bytes.len().min(PIPE_PART)];
    most.iter().rposition(|c| *c == b'\n').map_or(most, |at| &most[..=at])
}

/// For a command that only prints: a reader that closed the pipe, as `head` does, has all it wanted.
pub fn quietly(done: Result<(), Failure>) -> Result<(), Failure> {
    match done {
        Err(Failure::Closed(_)) => Ok(()),
        done => done,
    }
}

/// More characters than any line of rows or repeaters has.
const MAX_TEXT: usize = 1_000;

/// Every line of standard input with its number, from 1; a last line without a newline counts.
pub fn each_line(mut take: impl FnMut(u64, &str) -> Result<(), Failure>) -> Result<(), Failure> {
    let (mut input, signals) = (Input::standard()?, Signals::none().map_err(cannot_read)?);
    let mut buffer = Vec::new();
    let mut number = 0;
    loop {
        let start = buffer.len();
        buffer.resize(start + (1 << 16), 0);
        let got = input.read(&mut buffer[start..], &signals)?;
        let is_end = matches!(got, Got::End);
        buffer.truncate(match got {
            Got::Bytes(n) => start + n,
            _ => start,
        });
        if is_end && !buffer.is_empty() && !buffer.ends_with(b"\n") {
            buffer.push(b'\n');
        }
        let end = buffer.iter().rposition(|c| *c == b'\n').map_or(0, |at| at + 1);
        for line in buffer[..end].split_inclusive(|c| *c == b'\n') {
            number += 1;
            let line = std::str::from_utf8(&line[..line.len() - 1]).unwrap_or("\u{FFFD}");
            take(number, line)?;
        }
        buffer.drain(..end);
        if buffer.len() > MAX_TEXT {
            return Err(Failure::Failed(format!("line {} of standard input is too long", number + 1)));
        }
        if is_end {
            return Ok(());
        }
    }
}

fn is_temporary(error: &io::Error) -> bool {
    matches!(error.kind(), ErrorKind::Interrupted | ErrorKind::WouldBlock)
}

fn cannot_read(error: io::Error) -> Failure {
    Failure::of("read standard input", &error)
}

fn cannot_write(error: io::Error) -> Failure {
    match (error.kind(), Failure::of("write standard output", &error)) {
        (ErrorKind::BrokenPipe, Failure::Failed(text)) => Failure::Closed(text),
        (_, failure) => failure,
    }
}

#[cfg(test)]
mod tests {
    use super::*;

    #[test]
    fn a_pipe_takes_whole_lines() {
        let rows = "1000 KEPT\n".repeat(1_000);
        assert_eq!(pipe_part(rows.as_bytes()).len(), PIPE_PART / 10 * 10);
        assert_eq!(pipe_part(b"1000 KEPT\n1006 COPY\n").len(), 20);
        assert_eq!(pipe_part(b"1000 KEPT\n1006").len(), 10);
        assert_eq!(pipe_part(&[b'x'; 5_000]).len(), PIPE_PART);
        assert_eq!(pipe_part(b"").len(), 0);
    }
}
