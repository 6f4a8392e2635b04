//! The file of `--out`: each row is in it once. The state has its length, and at a start it is cut to that length: the bytes after it are rows of a
//! batch that did not end, which comes again. The file of `--heard` (`closings`) is such a file too, but the state does not have its length.
use crate::disk::{Facts, Handle, Shared};
use crate::failure::Failure;
use crate::files;
use crate::journal::OutPlace;
use std::io;
use std::path::{Path, PathBuf};

/// The option that names a file.
#[derive(Clone, Copy, Debug, PartialEq, Eq)]
pub enum Named {
    Out,
    Heard,
}

impl Named {
    fn not_a_file(self, path: &Path) -> Failure {
        let shown = path.display();
        Failure::Usage(match self {
            Named::Out => format!("--out {shown}: not a regular file; rows for a pipe go to standard output"),
            Named::Heard => format!("--heard {shown}: not a regular file"),
        })
    }

    /// What it contains.
    fn content(self) -> &'static str {
        match self {
            Named::Out => "rows",
            Named::Heard => "lines of --heard",
        }
    }
}

pub struct Out {
    disk: Shared,
    named: Named,
    path: PathBuf,
    file: Box<dyn Handle>,
    facts: Facts,
    /// How many bytes of it are rows.
    length: u64,
    is_unsynced: bool,
}

impl Out {
    /// Opens the file, creates it if it is missing, and finds how much of it the state counts. Nothing in it is changed yet.
    pub fn open(disk: &Shared, named: Named, path: &Path, kept: Option<OutPlace>) -> Result<Out, Failure> {
        let file = files::open_kept(&**disk, path)?;
        let facts = file.facts().map_err(|e| cannot(path, &e))?;
        if !facts.is_file {
            return Err(named.not_a_file(path));
        }
        let mut out = Out { disk: disk.clone(), named, path: path.into(), file, facts, length: facts.length, is_unsynced: false };
        let Some(kept) = kept else { return Ok(out) };
        if kept.inode != facts.inode {
            return Ok(out); // another file: the old one was renamed or removed
        }
        if facts.length < kept.length {
            let text = "Nothing was changed. Move it away to begin a new one.";
            let shown = path.display();
            return Err(Failure::Damaged(format!("{shown} has {} bytes, but the state has written {}. {text}", facts.length, kept.length)));
        }
        out.length = kept.length;
        Ok(out)
    }

    /// Cuts off what the state does not count, and reports it before.
    pub fn settle(&mut self) -> Result<(), Failure> {
        if self.facts.length > self.length {
            let (shown, cut) = (self.path.display(), self.facts.length - self.length);
            self.disk.tell(&format!("{shown}: the last {cut} bytes are cut, because the state does not count them"));
            self.file.set_length(self.length).map_err(|e| cannot(&self.path, &e))?;
            self.file.sync().map_err(|e| cannot(&self.path, &e))?;
        }
        Ok(())
    }

    pub fn place(&self) -> OutPlace {
        OutPlace { length: self.length, device: self.facts.device, inode: self.facts.inode }
    }

    /// How much of it counts.
    pub fn length(&self) -> u64 {
        self.length
    }

    /// Sets how much of it counts.
    pub fn count(&mut self, length: u64) {
        self.length = length;
    }

    /// The bytes after this many, of the file that was opened.
    pub fn read_from(&self, from: u64) -> Result<Vec<u8>, Failure> {
        let mut bytes = vec![0; self.facts.length.saturating_sub(from) as usize];
        self.file.read_all_at(&mut bytes, from).map_err(|e| Failure::of(format!("read {}", self.path.display()), &e))?;
        Ok(bytes)
    }

    /// Whether it begins with this text.
    pub fn starts_with(&self, text: &[u8]) -> Result<bool, Failure> {
        let mut bytes = vec![0; text.len()];
        match self.facts.length < text.len() as u64 {
            true => Ok(false),
            false => {
                self.file.read_all_at(&mut bytes, 0).map_err(|e| Failure::of(format!("read {}", self.path.display()), &e))?;
                Ok(bytes == text)
            }
        }
    }

    pub fn path(&self) -> &Path {
        &self.path
    }

    pub fn is_empty(&self) -> bool {
        self.length == 0
    }

    /// Whether the path still names the open file. It does not if the file was renamed or removed, as in log rotation.
    pub fn is_named(&self) -> Result<bool, Failure> {
        let named = self.disk.facts(&self.path).map_err(|e| cannot(&self.path, &e))?;
        Ok(named.is_some_and(|named| named.is_same(&self.facts)))
    }

    /// Writes rows after the others.
    pub fn write(&mut self, rows: &[u8]) -> Result<(), Failure> {
        if !rows.is_empty() {
            self.file.write_at(rows, self.length).map_err(|e| cannot(&self.path, &e))?;
            self.length += rows.len() as u64;
            self.is_unsynced = true;
        }
        Ok(())
    }

    pub fn sync(&mut self) -> Result<(), Failure> {
        if std::mem::take(&mut self.is_unsynced) {
            self.file.sync().map_err(|e| cannot(&self.path, &e))?;
        }
        Ok(())
    }

    /// The file that the path names now.
    pub fn again(&self) -> Result<Out, Failure> {
        self.disk.tell(&format!("{} was renamed or removed: {} go to a new file of that name", self.path.display(), self.named.content()));
        Out::open(&self.disk, self.named, &self.path, None)
    }
}

fn cannot(path: &Path, error: &io::Error) -> Failure {
    Failure::of(format!("write {}", path.display()), error)
}
