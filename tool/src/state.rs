//! The state file: one file, replaced in one step, so its parts never disagree (docs/FORMATS.md, "State file of mooringeye collect"). Its content is
//! `journal::State`.
use crate::disk::{Handle, Open, Shared};
use crate::failure::Failure;
use crate::files::{self, with_suffix};
use crate::journal::{State, LENGTH, MAX_NAME};
use std::path::{Path, PathBuf};

/// A state file that only this process writes.
pub struct StateFile {
    disk: Shared,
    path: PathBuf,
    _lock: Box<dyn Handle>,
}

impl StateFile {
    pub fn lock(disk: &Shared, path: &Path) -> Result<StateFile, Failure> {
        let path = files::resolved(path);
        Ok(StateFile { disk: disk.clone(), _lock: files::lock_beside(disk, &path)?, path })
    }

    /// The content of the file; none if there is no file. Anything else is refused and left unchanged.
    pub fn read(&self) -> Result<Option<State>, Failure> {
        let shown = self.path.display();
        let damaged = |why: String| {
            let text = "The file was not changed. Use --new-state to start over; the old file is kept.";
            Failure::Damaged(format!("{shown}: damaged: {why}. {text}"))
        };
        let cannot = |e| Failure::of(format!("read {shown}"), &e);
        let Some(facts) = self.disk.facts(&self.path).map_err(cannot)? else { return Ok(None) };
        if !facts.is_file {
            return Err(Failure::Damaged(format!("{shown}: not a regular file. Name another one by --state.")));
        }
        if facts.length > LENGTH as u64 {
            return Err(damaged(format!("{} bytes, expected {LENGTH}", facts.length)));
        }
        let mut bytes = vec![0; facts.length as usize];
        let file = self.disk.open(&self.path, Open::Read).map_err(cannot)?;
        file.read_all_at(&mut bytes, 0).map_err(cannot)?;
        State::of_bytes(&bytes).map(Some).map_err(damaged)
    }

    /// Replaces the file: after a crash it has the old state or the new one.
    pub fn write(&self, state: &State) -> Result<(), Failure> {
        let beside = with_suffix(&self.path, ".new");
        let bytes = state.to_bytes().map_err(|why| Failure::refused(self.path.display(), why))?;
        let write = || {
            let file = self.disk.open(&beside, Open::Empty)?;
            file.share_as(&self.path)?;
            file.write_at(&bytes, 0)?;
            file.sync()
        };
        write().map_err(|error| {
            let _ = self.disk.remove(&beside);
            Failure::of(format!("write {}", beside.display()), &error)
        })?;
        files::put_in_place(&self.disk, &beside, &self.path)
    }

    /// Puts an existing state aside, and returns where it is.
    pub fn put_aside(&self) -> Result<Option<PathBuf>, Failure> {
        match self.disk.facts(&self.path).map_err(|e| Failure::of(format!("read {}", self.path.display()), &e))? {
            None => Ok(None),
            Some(facts) if facts.is_file => files::put_aside(&self.disk, &self.path).map(Some),
            Some(_) => Err(Failure::Damaged(format!("{}: not a regular file. It stays; name another one by --state.", self.path.display()))),
        }
    }
}

/// The name by which a state knows its archive: the part after the last slash.
pub fn name_of(path: &Path) -> Result<Vec<u8>, Failure> {
    use std::os::unix::ffi::OsStrExt;
    let name = path.file_name().map(|n| n.as_bytes()).unwrap_or_default();
    match name.len() {
        1..=MAX_NAME => Ok(name.into()),
        _ => Err(Failure::Usage(format!("{} cannot be the name of an archive", path.display()))),
    }
}
