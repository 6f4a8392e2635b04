//! The file operations on which crash safety depends (docs/CRASH.md), in one small trait: the real ones, and those of a simulated disk with a
//! volatile cache (`powercut`), which shows that their order is right.
use crate::failure::tell;
use crate::sys;
use std::ffi::OsString;
use std::fmt::Display;
use std::fs::{self, File, Metadata, OpenOptions, TryLockError};
use std::io;
use std::os::unix::fs::{FileExt, MetadataExt};
use std::path::Path;
use std::rc::Rc;
use std::time::SystemTime;

/// What the system says of a file.
#[derive(Clone, Copy, Debug)]
pub struct Facts {
    pub device: u64,
    pub inode: u64,
    pub length: u64,
    pub is_file: bool,
    pub changed: SystemTime,
}

impl Facts {
    /// Whether both are of one file.
    pub fn is_same(&self, other: &Facts) -> bool {
        (self.device, self.inode) == (other.device, other.inode)
    }
}

#[derive(Clone, Copy, Debug, PartialEq, Eq)]
pub enum Open {
    /// An existing file, to be read.
    Read,
    /// A file to be read and written; it is created if it is missing.
    OrNew,
    /// An empty file, whatever was there.
    Empty,
}

/// An open file.
pub trait Handle {
    /// Reads the bytes from an offset on; fewer at the end of the file.
    fn read_at(&self, buffer: &mut [u8], at: u64) -> io::Result<usize>;
    fn write_at(&self, bytes: &[u8], at: u64) -> io::Result<()>;
    /// Cuts the file, or grows it by zeros.
    fn set_length(&self, length: u64) -> io::Result<()>;
    /// Returns when its bytes and its length would survive a power cut.
    fn sync(&self) -> io::Result<()>;
    fn facts(&self) -> io::Result<Facts>;
    /// Takes the file's lock, or says that another process has it.
    fn lock(&self) -> io::Result<bool>;
    /// Gives the same users access as another file does.
    fn share_as(&self, other: &Path) -> io::Result<()>;
    /// Whether there may be data from this offset on; if not, only zeros follow.
    fn has_data_from(&self, _at: u64) -> bool {
        true
    }

    fn read_all_at(&self, mut buffer: &mut [u8], mut at: u64) -> io::Result<()> {
        while !buffer.is_empty() {
            match self.read_at(buffer, at) {
                Ok(0) => return Err(io::ErrorKind::UnexpectedEof.into()),
                Ok(n) => (buffer, at) = (&mut buffer[n..], at + n as u64),
                Err(error) if error.kind() == io::ErrorKind::Interrupted => {}
                Err(error) => return Err(error),
            }
        }
        Ok(())
    }
}

/// File names, and the operations on them.
pub trait Disk {
    fn open(&self, path: &Path, how: Open) -> io::Result<Box<dyn Handle>>;
    /// The facts of the file at a path, through symbolic links; none if there is no file.
    fn facts(&self, path: &Path) -> io::Result<Option<Facts>>;
    fn rename(&self, from: &Path, to: &Path) -> io::Result<()>;
    fn remove(&self, path: &Path) -> io::Result<()>;
    /// Returns when what was created, renamed or removed in a folder would survive a power cut.
    fn sync_folder(&self, folder: &Path) -> io::Result<()>;
    fn names(&self, folder: &Path) -> io::Result<Vec<OsString>>;
    /// Writes a message to standard error.
    fn tell(&self, text: &dyn Display);
}

pub type Shared = Rc<dyn Disk>;

fn facts_of(metadata: &Metadata) -> Facts {
    let changed = metadata.modified().unwrap_or(SystemTime::UNIX_EPOCH);
    Facts { device: metadata.dev(), inode: metadata.ino(), length: metadata.len(), is_file: metadata.is_file(), changed }
}

impl Handle for File {
    fn read_at(&self, buffer: &mut [u8], at: u64) -> io::Result<usize> {
        FileExt::read_at(self, buffer, at)
    }

    fn write_at(&self, bytes: &[u8], at: u64) -> io::Result<()> {
        self.write_all_at(bytes, at)
    }

    fn set_length(&self, length: u64) -> io::Result<()> {
        self.set_len(length)
    }

    fn sync(&self) -> io::Result<()> {
        self.sync_data()
    }

    fn facts(&self) -> io::Result<Facts> {
        self.metadata().map(|m| facts_of(&m))
    }

    fn lock(&self) -> io::Result<bool> {
        match self.try_lock() {
            Ok(()) => Ok(true),
            Err(TryLockError::WouldBlock) => Ok(false),
            Err(TryLockError::Error(error)) => Err(error),
        }
    }

    fn share_as(&self, other: &Path) -> io::Result<()> {
        match fs::metadata(other) {
            Ok(metadata) => self.set_permissions(metadata.permissions()),
            Err(_) => Ok(()),
        }
    }

    fn has_data_from(&self, at: u64) -> bool {
        sys::has_data_from(self, at)
    }
}

impl From<File> for Box<dyn Handle> {
    fn from(file: File) -> Box<dyn Handle> {
        Box::new(file)
    }
}

/// The machine's own disk.
pub struct Real;

impl Disk for Real {
    fn open(&self, path: &Path, how: Open) -> io::Result<Box<dyn Handle>> {
        let mut options = OpenOptions::new();
        options.read(true).write(how != Open::Read).create(how != Open::Read).truncate(how == Open::Empty);
        Ok(options.open(path)?.into())
    }

    fn facts(&self, path: &Path) -> io::Result<Option<Facts>> {
        match fs::metadata(path) {
            Ok(metadata) => Ok(Some(facts_of(&metadata))),
            Err(error) if error.kind() == io::ErrorKind::NotFound => Ok(None),
            Err(error) => Err(error),
        }
    }

    fn rename(&self, from: &Path, to: &Path) -> io::Result<()> {
        fs::rename(from, to)
    }

    fn remove(&self, path: &Path) -> io::Result<()> {
        fs::remove_file(path)
    }

    /// Some file systems cannot (EINVAL).
    fn sync_folder(&self, folder: &Path) -> io::Result<()> {
        match File::open(folder).and_then(|f| f.sync_all()) {
            Err(error) if error.kind() == io::ErrorKind::InvalidInput => Ok(()),
            synced => synced,
        }
    }

    fn names(&self, folder: &Path) -> io::Result<Vec<OsString>> {
        fs::read_dir(folder)?.map(|entry| entry.map(|e| e.file_name())).collect()
    }

    fn tell(&self, text: &dyn Display) {
        tell(text);
    }
}
