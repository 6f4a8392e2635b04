//! A simulated disk with a volatile cache: after a power cut, what was not synced may be there or not, in any part.
use crate::disk::{Disk, Facts, Handle, Open, Shared};
use std::cell::RefCell;
use std::collections::BTreeMap;
use std::ffi::OsString;
use std::fmt::Display;
use std::io;
use std::path::{Path, PathBuf};
use std::rc::Rc;
use std::time::SystemTime;

const SECTOR: usize = 512;

/// A fixed-seed generator (splitmix64).
#[derive(Clone)]
pub struct Random(pub u64);

impl Random {
    pub fn next(&mut self) -> u64 {
        self.0 = self.0.wrapping_add(0x9E37_79B9_7F4A_7C15);
        let mut z = self.0;
        z = (z ^ (z >> 30)).wrapping_mul(0xBF58_476D_1CE4_E5B9);
        z = (z ^ (z >> 27)).wrapping_mul(0x94D0_49BB_1331_11EB);
        z ^ (z >> 31)
    }

    pub fn below(&mut self, n: usize) -> usize {
        (self.next() % n as u64) as usize
    }
}

/// A fault that is planted, to see that it is found.
#[derive(Clone, Copy, Debug, PartialEq, Eq)]
pub enum Fault {
    None,
    /// A sync of files with this text in their name does nothing.
    NotSynced(&'static str),
    FolderNotSynced,
}

#[derive(Clone)]
enum Change {
    Write(usize, Vec<u8>),
    Length(usize),
}

/// A file: what would survive a power cut, what is read, and the changes between the two.
#[derive(Clone, Default)]
struct Node {
    name: PathBuf,
    inode: u64,
    durable: Vec<u8>,
    now: Vec<u8>,
    pending: Vec<Change>,
}

#[derive(Clone)]
enum Naming {
    Made(PathBuf, usize),
    Renamed(PathBuf, PathBuf, usize),
    Removed(PathBuf),
}

/// All files, by their names.
#[derive(Clone, Default)]
pub struct Content {
    nodes: Vec<Node>,
    durable: BTreeMap<PathBuf, usize>,
    now: BTreeMap<PathBuf, usize>,
    pending: Vec<Naming>,
}

/// How many of the changes that were not synced survive a power cut.
#[derive(Clone, Copy)]
enum Leaves {
    None,
    All,
    Some,
}

impl Leaves {
    fn any(random: &mut Random) -> Leaves {
        match random.below(6) {
            0 => Leaves::None,
            1 => Leaves::All,
            _ => Leaves::Some,
        }
    }

    fn this(self, random: &mut Random) -> bool {
        match self {
            Leaves::None => false,
            Leaves::All => true,
            Leaves::Some => random.below(2) == 0,
        }
    }
}

/// Puts bytes over what is there; a file grows by zeros.
fn overwrite(file: &mut Vec<u8>, at: usize, bytes: &[u8]) {
    if file.len() < at + bytes.len() {
        file.resize(at + bytes.len(), 0);
    }
    file[at..at + bytes.len()].copy_from_slice(bytes);
}

impl Node {
    /// What a power cut may leave of it: for each sector that was written, the old bytes, the new ones, or both, split anywhere; and any length
    /// between the old one and the new one.
    fn left(&self, random: &mut Random) -> Vec<u8> {
        let leaves = Leaves::any(random);
        let mut file = self.durable.clone();
        for change in &self.pending {
            match change {
                Change::Length(length) if leaves.this(random) => file.resize(*length, 0),
                Change::Length(_) => {}
                Change::Write(at, bytes) => leave_sectors(&mut file, *at, bytes, leaves, random),
            }
        }
        let (least, most) = (self.durable.len().min(self.now.len()), self.durable.len().max(self.now.len()));
        if let (Leaves::Some, true) = (leaves, least < most && random.below(3) == 0) {
            file.resize(least + random.below(most - least + 1), 0);
        }
        file
    }
}

fn leave_sectors(file: &mut Vec<u8>, at: usize, bytes: &[u8], leaves: Leaves, random: &mut Random) {
    let mut start = 0;
    while start < bytes.len() {
        let end = bytes.len().min((at + start) / SECTOR * SECTOR + SECTOR - at);
        let sector = &bytes[start..end];
        match leaves {
            Leaves::Some if random.below(4) == 0 => {
                let parted = random.below(sector.len());
                match random.below(2) {
                    0 => overwrite(file, at + start, &sector[..parted]),
                    _ => overwrite(file, at + start + parted, &sector[parted..]),
                }
            }
            leaves if leaves.this(random) => overwrite(file, at + start, sector),
            _ => {}
        }
        start = end;
    }
}

impl Content {
    /// A disk as a power cut may leave it.
    pub fn left(&self, random: &mut Random) -> Content {
        let leaves = Leaves::any(random);
        let mut names = self.durable.clone();
        for naming in &self.pending {
            if leaves.this(random) {
                apply(&mut names, naming);
            }
        }
        let mut left = Content::default();
        for (name, node) in names {
            let file = self.nodes[node].left(random);
            left.nodes.push(Node { inode: self.nodes[node].inode, durable: file.clone(), now: file, name: name.clone(), pending: Vec::new() });
            left.now.insert(name.clone(), left.nodes.len() - 1);
            left.durable.insert(name, left.nodes.len() - 1);
        }
        left
    }

    /// The files whose names begin with this text, and their contents.
    pub fn files(&self, start: &str) -> BTreeMap<String, &[u8]> {
        let named = self.now.iter().map(|(name, node)| (name.to_str().expect("a plain name").to_string(), &self.nodes[*node].now[..]));
        named.filter(|(name, _)| name.starts_with(start)).collect()
    }
}

fn apply(names: &mut BTreeMap<PathBuf, usize>, naming: &Naming) {
    match naming {
        Naming::Made(name, node) => {
            names.insert(name.clone(), *node);
        }
        Naming::Removed(name) => {
            names.remove(name);
        }
        Naming::Renamed(from, to, node) => {
            if names.get(from) == Some(node) {
                names.remove(from);
            }
            names.insert(to.clone(), *node);
        }
    }
}

/// The disk of one run, in which the power may be cut.
pub struct Simulated {
    content: RefCell<Content>,
    fault: Fault,
    /// How many more changes are made before the power is cut.
    left: RefCell<usize>,
    /// The disk before each change, if these are recorded.
    pub history: Option<RefCell<Vec<Content>>>,
    pub told: RefCell<Vec<String>>,
}

impl Simulated {
    pub fn of(content: Content, fault: Fault, changes: usize, keeps_history: bool) -> Rc<Simulated> {
        let history = keeps_history.then(|| RefCell::new(Vec::new()));
        Rc::new(Simulated { content: RefCell::new(content), fault, left: RefCell::new(changes), history, told: RefCell::default() })
    }

    pub fn content(&self) -> Content {
        self.content.borrow().clone()
    }

    /// Makes a change, unless the power was cut.
    fn change<T>(&self, make: impl FnOnce(&mut Content) -> T) -> io::Result<T> {
        let mut left = self.left.borrow_mut();
        if *left == 0 {
            return Err(io::Error::other("the power was cut"));
        }
        *left -= 1;
        let made = make(&mut self.content.borrow_mut());
        if let Some(history) = &self.history {
            history.borrow_mut().push(self.content());
        }
        Ok(made)
    }
}

fn inode_of(name: &Path) -> u64 {
    name.to_str().expect("a plain name").bytes().fold(7, |hash: u64, b| hash.wrapping_mul(31).wrapping_add(b.into()))
}

/// A disk that is shared by the files that are open on it.
pub struct Sharing(pub Rc<Simulated>);

impl Sharing {
    pub fn of(disk: &Rc<Simulated>) -> Shared {
        Rc::new(Sharing(disk.clone()))
    }
}

struct Opened {
    disk: Rc<Simulated>,
    node: usize,
}

impl Disk for Sharing {
    fn open(&self, path: &Path, how: Open) -> io::Result<Box<dyn Handle>> {
        let found = self.0.content.borrow().now.get(path).copied();
        let node = match (found, how) {
            (Some(node), Open::Empty) => {
                let opened = Opened { disk: self.0.clone(), node };
                opened.set_length(0)?;
                node
            }
            (Some(node), _) => node,
            (None, Open::Read) => return Err(io::ErrorKind::NotFound.into()),
            (None, _) => self.0.change(|content| {
                content.nodes.push(Node { name: path.into(), inode: inode_of(path), ..Node::default() });
                let node = content.nodes.len() - 1;
                content.now.insert(path.into(), node);
                content.pending.push(Naming::Made(path.into(), node));
                node
            })?,
        };
        Ok(Box::new(Opened { disk: self.0.clone(), node }))
    }

    fn facts(&self, path: &Path) -> io::Result<Option<Facts>> {
        let content = self.0.content.borrow();
        Ok(content.now.get(path).map(|node| facts_of(&content.nodes[*node])))
    }

    fn rename(&self, from: &Path, to: &Path) -> io::Result<()> {
        self.0.change(|content| {
            let node = content.now[from];
            let naming = Naming::Renamed(from.into(), to.into(), node);
            apply(&mut content.now, &naming);
            content.pending.push(naming);
        })
    }

    fn remove(&self, path: &Path) -> io::Result<()> {
        self.0.change(|content| {
            let naming = Naming::Removed(path.into());
            apply(&mut content.now, &naming);
            content.pending.push(naming);
        })
    }

    fn sync_folder(&self, _: &Path) -> io::Result<()> {
        if self.0.fault == Fault::FolderNotSynced {
            return self.0.change(|_| ());
        }
        self.0.change(|content| {
            content.durable = content.now.clone();
            content.pending.clear();
            // Files without a name use no space in the recorded disk.
            for (at, node) in content.nodes.iter_mut().enumerate() {
                if !content.now.values().any(|named| *named == at) {
                    *node = Node::default();
                }
            }
        })
    }

    fn names(&self, _: &Path) -> io::Result<Vec<OsString>> {
        Ok(self.0.content.borrow().now.keys().map(|name| name.clone().into()).collect())
    }

    fn tell(&self, text: &dyn Display) {
        self.0.told.borrow_mut().push(text.to_string());
    }
}

fn facts_of(node: &Node) -> Facts {
    Facts { device: 1, inode: node.inode, length: node.now.len() as u64, is_file: true, changed: SystemTime::UNIX_EPOCH }
}

impl Handle for Opened {
    fn read_at(&self, buffer: &mut [u8], at: u64) -> io::Result<usize> {
        let content = self.disk.content.borrow();
        let file = &content.nodes[self.node].now;
        let rest = &file[file.len().min(at as usize)..];
        let count = rest.len().min(buffer.len());
        buffer[..count].copy_from_slice(&rest[..count]);
        Ok(count)
    }

    fn write_at(&self, bytes: &[u8], at: u64) -> io::Result<()> {
        self.disk.change(|content| {
            let node = &mut content.nodes[self.node];
            overwrite(&mut node.now, at as usize, bytes);
            node.pending.push(Change::Write(at as usize, bytes.to_vec()));
        })
    }

    fn set_length(&self, length: u64) -> io::Result<()> {
        self.disk.change(|content| {
            let node = &mut content.nodes[self.node];
            node.now.resize(length as usize, 0);
            node.pending.push(Change::Length(length as usize));
        })
    }

    fn sync(&self) -> io::Result<()> {
        let fault = self.disk.fault;
        self.disk.change(|content| {
            let node = &mut content.nodes[self.node];
            let name = node.name.to_str().expect("a plain name");
            if !matches!(fault, Fault::NotSynced(part) if name.starts_with(part)) {
                node.durable = node.now.clone();
                node.pending.clear();
            }
        })
    }

    fn facts(&self) -> io::Result<Facts> {
        Ok(facts_of(&self.disk.content.borrow().nodes[self.node]))
    }

    fn lock(&self) -> io::Result<bool> {
        Ok(true)
    }

    fn share_as(&self, _: &Path) -> io::Result<()> {
        Ok(())
    }
}
