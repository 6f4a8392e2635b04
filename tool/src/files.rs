//! Files: locks, replacement by rename, and reading in pieces.
use crate::appender::MAX_BLOCKS;
use crate::disk::{Disk, Handle, Open, Real, Shared};
use crate::failure::{tell, Failure};
use crate::progress::Progress;
use mooringeye::{Archive, Refusal, Scan};
use std::ffi::OsString;
use std::fs::{self, File, OpenOptions, TryLockError};
use std::io::{self, Write};
use std::path::{Path, PathBuf};
use std::thread;

/// How much of an archive is read at once.
pub const PIECE: usize = 1 << 20;
const BLOCK: u64 = Archive::BLOCK as u64;

/// A path with a suffix after its name.
pub fn with_suffix(path: &Path, suffix: &str) -> PathBuf {
    let mut name = OsString::from(path);
    name.push(suffix);
    PathBuf::from(name)
}

pub fn folder(path: &Path) -> &Path {
    match path.parent() {
        Some(parent) if !parent.as_os_str().is_empty() => parent,
        _ => Path::new("."),
    }
}

/// The target of a symbolic link: a rename would replace the link itself.
pub fn resolved(path: &Path) -> PathBuf {
    match fs::symlink_metadata(path) {
        Ok(metadata) if metadata.is_symlink() => fs::canonicalize(path).unwrap_or_else(|_| path.into()),
        _ => path.into(),
    }
}

/// Returns when what was created, renamed or removed in the folder of a file would survive a power cut.
pub fn sync_folder(disk: &dyn Disk, path: &Path) -> Result<(), Failure> {
    let folder = folder(path);
    disk.sync_folder(folder).map_err(|e| Failure::of(format!("sync {}", folder.display()), &e))
}

/// Takes the lock of a file that others write too, or says who has it.
fn lock(file: &dyn Handle, path: &Path) -> Result<(), Failure> {
    match file.lock().map_err(|e| Failure::of(format!("lock {}", path.display()), &e))? {
        true => Ok(()),
        false => Err(Failure::Failed(format!("another process is writing {}: it is locked", path.display()))),
    }
}

/// The lock of a file that is replaced by rename: another file in the same folder, which stays. To lock it, it only has to be readable.
pub fn lock_beside(disk: &Shared, path: &Path) -> Result<Box<dyn Handle>, Failure> {
    let beside = with_suffix(path, ".lock");
    let opened = match disk.open(&beside, Open::Read) {
        Err(error) if error.kind() == io::ErrorKind::NotFound => disk.open(&beside, Open::OrNew),
        opened => opened,
    };
    let file = opened.map_err(|error| match error.kind() {
        io::ErrorKind::PermissionDenied => {
            let what = "This user may not open it. Change its owner, or remove it while no collector runs.";
            Failure::Failed(format!("cannot open the lock file {}: {error}. {what}", beside.display()))
        }
        _ => Failure::of(format!("open the lock file {}", beside.display()), &error),
    })?;
    lock(&*file, path)?;
    Ok(file)
}

/// Locks an open file, and checks whether its path still names it.
fn own(disk: &dyn Disk, file: &dyn Handle, path: &Path) -> Result<(), Failure> {
    lock(file, path)?;
    let cannot = |e: io::Error| Failure::of(format!("open {}", path.display()), &e);
    // Between the two steps another process may have replaced the file.
    let (mine, named) = (file.facts().map_err(cannot)?, disk.facts(path).map_err(cannot)?);
    match named.is_some_and(|named| named.is_same(&mine)) {
        true => Ok(()),
        false => Err(Failure::Failed(format!("{} was replaced by another process in the meantime", path.display()))),
    }
}

/// Opens an archive to be written, creates it if it is missing and `create` allows it, and locks it.
pub fn open_locked(path: &Path, create: bool) -> Result<File, Failure> {
    let cannot = |e: io::Error| Failure::of(format!("open {}", path.display()), &e);
    let file = OpenOptions::new().create(create).truncate(false).read(true).write(true).open(path).map_err(cannot)?;
    own(&Real, &file, path)?;
    Ok(file)
}

/// The same on any disk; a file that was created survives a power cut.
pub fn open_kept(disk: &dyn Disk, path: &Path) -> Result<Box<dyn Handle>, Failure> {
    let file = disk.open(path, Open::OrNew).map_err(|e| Failure::of(format!("open {}", path.display()), &e))?;
    own(disk, &*file, path)?;
    sync_folder(disk, path)?;
    Ok(file)
}

/// Replaces a file by one that is complete and synced.
pub fn put_in_place(disk: &Shared, from: &Path, to: &Path) -> Result<(), Failure> {
    disk.rename(from, to).map_err(|e| Failure::of(format!("replace {}", to.display()), &e))?;
    sync_folder(&**disk, to)
}

/// The first free name made of a path, a word and a number.
pub fn free_name(disk: &dyn Disk, path: &Path, word: &str) -> Result<PathBuf, Failure> {
    for n in 1.. {
        let name = with_suffix(path, &format!(".{word}-{n}"));
        let cannot = |e: io::Error| Failure::of(format!("read {}", name.display()), &e);
        if disk.facts(&name).map_err(cannot)?.is_none() {
            return Ok(name);
        }
    }
    unreachable!("there are fewer files than numbers")
}

/// Moves a file aside, to the first free name, and returns that name.
pub fn put_aside(disk: &Shared, path: &Path) -> Result<PathBuf, Failure> {
    let aside = free_name(&**disk, path, "aside")?;
    disk.rename(path, &aside).map_err(|e| Failure::of(format!("put {} aside", path.display()), &e))?;
    sync_folder(&**disk, path)?;
    Ok(aside)
}

/// New content of a file: written to a file of another name, with the same permissions, which then replaces the file in one step.
pub struct Replacement {
    pub file: File,
    target: PathBuf,
    beside: PathBuf,
    done: bool,
}

impl Replacement {
    pub fn of(target: &Path) -> Result<Replacement, Failure> {
        let beside = with_suffix(target, ".new");
        let file = OpenOptions::new().create(true).truncate(true).read(true).write(true).open(&beside);
        let file = file.map_err(|e| Failure::of(format!("write {}", beside.display()), &e))?;
        let replacement = Replacement { file, target: target.into(), beside, done: false };
        if let Ok(old) = fs::metadata(target) {
            replacement.file.set_permissions(old.permissions()).map_err(|e| replacement.cannot("write", &e))?;
        }
        Ok(replacement)
    }

    pub fn write(&mut self, bytes: &[u8]) -> Result<(), Failure> {
        self.file.write_all(bytes).map_err(|e| self.cannot("write", &e))
    }

    fn cannot(&self, verb: &str, error: &io::Error) -> Failure {
        Failure::of(format!("{verb} {}", self.beside.display()), error)
    }

    /// Replaces the file: from now on, and after a power cut, it has all of the new content.
    pub fn commit(mut self) -> Result<(), Failure> {
        self.file.sync_all().map_err(|e| self.cannot("sync", &e))?;
        fs::rename(&self.beside, &self.target).map_err(|e| Failure::of(format!("replace {}", self.target.display()), &e))?;
        self.done = true;
        sync_folder(&Real, &self.target)
    }

    /// The same if there must not be a file yet.
    pub fn commit_new(mut self) -> Result<(), Failure> {
        self.file.sync_all().map_err(|e| self.cannot("sync", &e))?;
        let cannot = |e: io::Error| Failure::of(format!("make {}", self.target.display()), &e);
        match fs::hard_link(&self.beside, &self.target) {
            Ok(()) => fs::remove_file(&self.beside).map_err(|e| self.cannot("remove", &e))?,
            // A file system without hard links, for example on a USB stick.
            Err(error) if error.kind() != io::ErrorKind::AlreadyExists && fs::symlink_metadata(&self.target).is_err() => {
                fs::rename(&self.beside, &self.target).map_err(cannot)?;
            }
            Err(error) => return Err(cannot(error)),
        }
        self.done = true;
        sync_folder(&Real, &self.target)
    }
}

impl Drop for Replacement {
    fn drop(&mut self) {
        if !self.done {
            let _ = fs::remove_file(&self.beside);
        }
    }
}

fn not_a_file(path: &Path) -> Failure {
    let shown = path.display();
    Failure::Failed(format!("cannot read {shown}: it is not a file. An archive is a regular file; write what a pipe gives to one first."))
}

/// Opens an archive to be read. A pipe is refused before it is opened, because opening it would wait for its writer.
pub fn open_archive(path: &Path) -> Result<File, Failure> {
    let cannot = |e: io::Error| Failure::of(format!("open {}", path.display()), &e);
    match fs::metadata(path).map_err(cannot)?.is_file() {
        true => File::open(path).map_err(cannot),
        false => Err(not_a_file(path)),
    }
}

/// The length of an archive in blocks; 16 for one that is not whole blocks.
pub fn blocks_of(file: &dyn Handle, path: &Path) -> Result<u64, Failure> {
    let facts = file.facts().map_err(|e| Failure::of(format!("read {}", path.display()), &e))?;
    if !facts.is_file {
        return Err(not_a_file(path));
    }
    match facts.length {
        n if n / BLOCK > MAX_BLOCKS => {
            let text = format!("{n} bytes, but an archive has at most 2^32 blocks of {BLOCK} bytes");
            Err(Failure::Damaged(format!("{}: not an archive: {text}. It was not read.", path.display())))
        }
        n if n % BLOCK == 0 => Ok(n / BLOCK),
        n => Err(Failure::refused(format!("{} has {n} bytes", path.display()), Refusal::Size)),
    }
}

/// The blocks of an archive, in pieces.
pub struct Pieces<'a> {
    file: &'a dyn Handle,
    path: &'a Path,
    buffer: Vec<u8>,
    /// The next byte, and the end.
    at: u64,
    end: u64,
    progress: Progress,
}

impl<'a> Pieces<'a> {
    /// The blocks `from` to `to`.
    pub fn of(file: &'a dyn Handle, path: &'a Path, from: u64, to: u64) -> Pieces<'a> {
        let size = PIECE.min(((to - from) * BLOCK) as usize);
        Pieces {
            file,
            path,
            buffer: vec![0; size],
            at: from * BLOCK,
            end: to * BLOCK,
            progress: Progress::of(path.display().to_string(), Some((to - from) * BLOCK)),
        }
    }

    /// The next piece. If the file has no data from there on, as a sparse file at its end, there is none: only zeros follow, and zeros at the end of
    /// an archive have no meaning.
    pub fn next(&mut self) -> Result<Option<&[u8]>, Failure> {
        if self.at == self.end || !self.file.has_data_from(self.at) {
            return Ok(None);
        }
        let size = self.buffer.len().min((self.end - self.at) as usize);
        let piece = &mut self.buffer[..size];
        let place = |e: io::Error| Failure::of(format!("read {} at byte {}", self.path.display(), self.at), &e);
        self.file.read_all_at(piece, self.at).map_err(place)?;
        self.at += size as u64;
        self.progress.show(size as u64, |bytes| format!("up to {} rows", bytes / BLOCK * Archive::ROWS_PER_BLOCK as u64));
        Ok(Some(piece))
    }
}

/// Scans all pieces. Two threads share each long piece except the first.
pub fn scan(mut pieces: Pieces) -> Result<Scan, Failure> {
    let mut scan = Scan::new();
    let path = pieces.path;
    while let Some(piece) = pieces.next()? {
        let fed = if piece.len() == PIECE && scan.blocks() > 0 { scan_by_two(scan, piece) } else { scan.feed(piece).map(|()| scan) };
        scan = fed.map_err(|why| Failure::refused(path.display(), why))?;
    }
    Ok(scan)
}

/// The scan after a piece. Another thread scans its second half as if all blocks before it were full; if they are not, the half is scanned again.
fn scan_by_two(mut scan: Scan, piece: &[u8]) -> Result<Scan, Refusal> {
    let blocks = piece.len() / Archive::BLOCK / 2;
    let (front, back) = piece.split_at(blocks * Archive::BLOCK);
    let mut second = Scan::behind(scan.blocks() + blocks as u64);
    let (fed, ahead) = thread::scope(|threads| {
        let ahead = thread::Builder::new().spawn_scoped(threads, move || second.feed(back).map(|()| second));
        (scan.feed(front), ahead.ok().and_then(|thread| thread.join().ok()))
    });
    fed?;
    let are_full = scan.end() == Ok(scan.blocks() as usize * Archive::ROWS_PER_BLOCK);
    match ahead {
        Some(ahead) if are_full => ahead,
        _ => scan.feed(back).map(|()| scan),
    }
}

/// Copies an archive of `blocks` blocks; zeros at its end use no disk space.
pub fn copy(from: &File, path: &Path, blocks: u64, to: &mut Replacement) -> Result<(), Failure> {
    let mut pieces = Pieces::of(from, path, 0, blocks);
    while let Some(piece) = pieces.next()? {
        to.write(piece)?;
    }
    to.file.set_len(blocks * BLOCK).map_err(|e| to.cannot("write", &e))
}

/// Adds to a failure of a damaged file that someone is writing it, if that is so.
pub fn while_written(failure: Failure, file: &File, path: &Path) -> Failure {
    if matches!(failure, Failure::Damaged(_)) && matches!(file.try_lock_shared(), Err(TryLockError::WouldBlock)) {
        tell(format!("{} is being written: a block may have been read half old and half new. Try again.", path.display()));
    }
    failure
}

#[cfg(test)]
mod tests {
    use super::*;
    use mooringeye::Block;

    const PRESS: [u8; 8] = [0xD5, 0x09, 1, 2, 3, 4, 0, 0xE8];
    const BLOCKS: usize = 7;

    /// Seven blocks after `before` full ones, with `rows` rows in them; the rest is zero.
    fn piece(before: usize, rows: usize) -> Vec<u8> {
        let first = before * Archive::ROWS_PER_BLOCK;
        let mut blocks = vec![Block::default(); BLOCKS];
        for n in 0..rows {
            blocks[n / Archive::ROWS_PER_BLOCK].put(first + n, &PRESS, n as u64, false).unwrap();
        }
        blocks.iter().flat_map(|block| *block.as_bytes()).collect()
    }

    /// Both ways to scan a piece give the same numbers.
    fn compare(before: usize, piece: &[u8]) {
        let mut scan = Scan::behind(before as u64);
        let by_two = scan_by_two(scan.clone(), piece).unwrap();
        scan.feed(piece).unwrap();
        assert_eq!(format!("{by_two:?}"), format!("{scan:?}"));
    }

    #[test]
    fn two_threads_say_what_one_says() {
        for before in [0, 5] {
            for rows in 0..=BLOCKS * Archive::ROWS_PER_BLOCK {
                let whole = piece(before, rows);
                compare(before, &whole);
                for block in 0..BLOCKS {
                    let mut damaged = whole.clone();
                    damaged[block * Archive::BLOCK + 100] ^= 1;
                    compare(before, &damaged);
                    damaged[block * Archive::BLOCK..][..Archive::BLOCK].fill(0);
                    compare(before, &damaged);
                }
            }
        }
        for blocks in 0..BLOCKS {
            compare(0, &piece(0, 40)[..blocks * Archive::BLOCK]);
        }
        assert_eq!(scan_by_two(Scan::new(), &[0; 700]).unwrap_err(), Refusal::Size);
        assert_eq!(scan_by_two(Scan::behind(1 << 32), &[0; 1024]).unwrap_err(), Refusal::Size);
    }
}
