//! What `benchmarks open` times, with a lock: a plain tree in memory and a map of shared profiles, both in one RwLock of
//! std. It takes IMAGE, OPENS and REST, and prints lines like those of that program.
//!
//! The tree is the same: four symbolic links, a directory aside, and 16 directories, each in the one before, each with six files.
//! A directory has a BTreeMap of its children by their names, which is faster than a HashMap for seven; a node knows its own
//! name, and which directory it is in. An open takes the read lock once: it finds the profile, walks (`.`, `..`, symbolic links,
//! 40 of them at most), writes the file's name from its end to its front into the thread's own buffer, and runs the name through
//! the profile's table, a row of 256 states for each state, from IMAGE, which `aa-trace compile` made of the same text; the
//! record that this leads to gives the verdict. An open allocates no memory. A thread that renames or replaces takes the write
//! lock, and does all of the work under it.
use std::collections::{BTreeMap, HashMap};
use std::sync::atomic::{AtomicBool, Ordering};
use std::sync::{Arc, RwLock};
use std::thread;
use std::time::{Duration, Instant};
use std::{env, fs};

const PROFILE: &[u8] = b"profile";
const LONGEST_PATH: usize = 4095;
const LONGEST_COMPONENT: usize = 255;
const MOST_LINKS: u32 = 40;

#[derive(Clone, Copy, Debug, PartialEq, Eq)]
enum Errno {
    NoEntry,
    NoDirectory,
    IsDirectory,
    Exists,
    Invalid,
    TooLong,
    TooManyLinks,
}

struct Node {
    directory: usize,
    name: Box<[u8]>,
    kind: Kind,
}

enum Kind {
    Directory(BTreeMap<Box<[u8]>, usize>),
    File,
    Link(Box<[u8]>),
}

/// The nodes, of which the first is the root.
struct Tree {
    nodes: Vec<Node>,
}

impl Tree {
    fn new() -> Tree {
        Tree { nodes: vec![Node { directory: 0, name: Box::default(), kind: Kind::Directory(BTreeMap::new()) }] }
    }

    /// The node that a path leads to from a directory.
    fn resolve(&self, from: usize, path: &[u8], links: &mut u32) -> Result<usize, Errno> {
        let mut here = if path.first() == Some(&b'/') { 0 } else { from };
        for component in path.split(|&byte| byte == b'/') {
            let Kind::Directory(children) = &self.nodes[here].kind else {
                return Err(Errno::NoDirectory);
            };
            here = match component {
                b"" | b"." => here,
                b".." => self.nodes[here].directory,
                _ => self.follow(here, *children.get(component).ok_or(Errno::NoEntry)?, links)?,
            };
        }
        Ok(here)
    }

    /// The node itself, or what it leads to if it is a link.
    fn follow(&self, directory: usize, node: usize, links: &mut u32) -> Result<usize, Errno> {
        let Kind::Link(text) = &self.nodes[node].kind else {
            return Ok(node);
        };
        *links += 1;
        if *links > MOST_LINKS {
            return Err(Errno::TooManyLinks);
        }
        self.resolve(directory, text, links)
    }

    /// Writes the name of a node to the end of the room, and returns where it begins.
    fn name(&self, node: usize, room: &mut [u8; LONGEST_PATH]) -> Result<usize, Errno> {
        let mut start = LONGEST_PATH;
        let mut below = node;
        while below != 0 {
            let Node { directory, name, .. } = &self.nodes[below];
            let front = start.checked_sub(name.len() + 1).ok_or(Errno::TooLong)?;
            room[front] = b'/';
            room[front + 1..start].copy_from_slice(name);
            start = front;
            below = *directory;
        }
        Ok(start)
    }

    /// The directory of a path's last component, and this component.
    fn place<'a>(&self, path: &'a [u8]) -> Result<(usize, &'a [u8]), Errno> {
        let slash = path.iter().rposition(|&byte| byte == b'/').ok_or(Errno::NoEntry)?;
        let directory = self.resolve(0, &path[..slash + 1], &mut 0)?;
        if path.len() > LONGEST_PATH || path.len() - slash - 1 > LONGEST_COMPONENT {
            return Err(Errno::TooLong);
        }
        Ok((directory, &path[slash + 1..]))
    }

    fn children(&mut self, node: usize) -> Result<&mut BTreeMap<Box<[u8]>, usize>, Errno> {
        match &mut self.nodes[node].kind {
            Kind::Directory(children) => Ok(children),
            _ => Err(Errno::NoDirectory),
        }
    }

    fn make(&mut self, path: &[u8], kind: Kind) -> Result<(), Errno> {
        let (directory, name) = self.place(path)?;
        let node = self.nodes.len();
        let children = self.children(directory)?;
        if children.contains_key(name) {
            return Err(Errno::Exists);
        }
        children.insert(name.into(), node);
        self.nodes.push(Node { directory, name: name.into(), kind });
        Ok(())
    }

    /// Moves an entry to a place where none is.
    fn rename(&mut self, old: &[u8], new: &[u8]) -> Result<(), Errno> {
        let (old_directory, old_name) = self.place(old)?;
        let (new_directory, new_name) = self.place(new)?;
        let node = *self.children(old_directory)?.get(old_name).ok_or(Errno::NoEntry)?;
        if self.children(new_directory)?.contains_key(new_name) {
            return Err(Errno::Exists);
        }
        if self.is_below(new_directory, node) {
            return Err(Errno::Invalid);
        }
        self.children(old_directory)?.remove(old_name);
        self.children(new_directory)?.insert(new_name.into(), node);
        self.nodes[node].directory = new_directory;
        self.nodes[node].name = new_name.into();
        Ok(())
    }

    fn is_below(&self, node: usize, above: usize) -> bool {
        let mut node = node;
        while node != 0 {
            if node == above {
                return true;
            }
            node = self.nodes[node].directory;
        }
        false
    }
}

/// A profile's table, with a row of 256 states for each state.
struct Table {
    rows: Vec<u32>,
    accept: Vec<u32>,
    /// For each of r w l k m the least allow rule and the least deny rule, 0 where there is none.
    records: Vec<[u16; 10]>,
}

/// The little-endian numbers from `start` on, one after another.
fn numbers(image: &[u8], start: usize, count: usize) -> Vec<u32> {
    let bytes = &image[start..start + 4 * count];
    bytes.chunks_exact(4).map(|word| u32::from_le_bytes(word.try_into().unwrap())).collect()
}

impl Table {
    fn of_image(image: &[u8]) -> Table {
        assert_eq!(&image[..4], b"PTAB");
        // Version 2 has a depth for each state, and 24 bytes a record.
        let (per_state, per_record) = if image[4] == 2 { (16, 24) } else { (12, 20) };
        let counts = numbers(image, 8, 3);
        let (states, cells, records) = (counts[0] as usize, counts[1] as usize, counts[2] as usize);
        let default = numbers(image, 20, states);
        let base = numbers(image, 20 + 4 * states, states);
        let accept = numbers(image, 20 + 8 * states, states);
        let depth = if image[4] == 2 { numbers(image, 20 + 12 * states, states) } else { vec![0; states] };
        let next = numbers(image, 20 + per_state * states, cells);
        let check = numbers(image, 20 + per_state * states + 4 * cells, cells);
        let target = |mut state: usize, byte: usize| loop {
            let cell = base[state] as usize + byte;
            if check[cell] == state as u32 {
                return next[cell];
            }
            if depth[state] == 0 {
                return default[state];
            }
            state = default[state] as usize;
        };
        let rows = (0..256 * states).map(|k| target(k / 256, k % 256)).collect();
        let record = |bytes: &[u8]| std::array::from_fn(|k| u16::from_le_bytes([bytes[2 * k], bytes[2 * k + 1]]));
        let records = image[20 + per_state * states + 8 * cells..][..per_record * records].chunks_exact(per_record).map(record).collect();
        Table { rows, accept, records }
    }

    /// The verdict on a name and a set of permissions, of which each is a bit.
    fn judge(&self, name: &[u8], ask: u8) -> Verdict {
        let mut state = 1;
        for &byte in name {
            state = self.rows[256 * state as usize + byte as usize];
        }
        let record = &self.records[self.accept[state as usize] as usize];
        let asked = (0..5).filter(|k| ask >> k & 1 == 1);
        let denied = asked.clone().map(|k| record[2 * k + 1]).filter(|&rule| rule > 0).min();
        if let Some(rule) = denied {
            return Verdict::Denied(rule);
        }
        match asked.filter(|&k| record[2 * k] == 0).fold(0, |set, k| set | 1 << k) {
            0 => Verdict::Allowed,
            missing => Verdict::NoRule(missing),
        }
    }
}

#[derive(Clone, Copy)]
enum Verdict {
    Allowed,
    Denied(#[allow(dead_code)] u16),
    NoRule(#[allow(dead_code)] u8),
}

/// What the lock protects, with the versions of both.
struct World {
    tree: Tree,
    tree_version: u64,
    profiles: HashMap<Vec<u8>, Arc<Table>>,
    policy_version: u64,
}

#[allow(dead_code)]
enum Answer {
    Judged { verdict: Verdict, node: usize, tree_version: u64, policy_version: u64 },
    Failed { errno: Errno, tree_version: u64 },
    NoProfile { policy_version: u64 },
}

impl World {
    fn open(&self, path: &[u8], ask: u8, room: &mut [u8; LONGEST_PATH]) -> Answer {
        let (tree_version, policy_version) = (self.tree_version, self.policy_version);
        let Some(profile) = self.profiles.get(PROFILE) else {
            return Answer::NoProfile { policy_version };
        };
        match self.reach(path, room) {
            Ok((node, start)) => {
                let verdict = profile.judge(&room[start..], ask);
                Answer::Judged { verdict, node, tree_version, policy_version }
            }
            Err(errno) => Answer::Failed { errno, tree_version },
        }
    }

    fn reach(&self, path: &[u8], room: &mut [u8; LONGEST_PATH]) -> Result<(usize, usize), Errno> {
        if path.len() > LONGEST_PATH {
            return Err(Errno::TooLong);
        }
        let node = self.tree.resolve(0, path, &mut 0)?;
        if let Kind::Directory(_) = self.tree.nodes[node].kind {
            return Err(Errno::IsDirectory);
        }
        Ok((node, self.tree.name(node, room)?))
    }

    fn rename(&mut self, old: &[u8], new: &[u8]) {
        self.tree.rename(old, new).unwrap();
        self.tree_version += 1;
    }

    fn publish(&mut self, profile: &Arc<Table>) {
        self.profiles.insert(PROFILE.to_vec(), Arc::clone(profile));
        self.policy_version += 1;
    }
}

const DIRECTORIES: &[u8] = b"/d01/d02/d03/d04/d05/d06/d07/d08/d09/d10/d11/d12/d13/d14/d15/d16";

fn grown() -> Tree {
    let mut tree = Tree::new();
    let directory = || Kind::Directory(BTreeMap::new());
    for (name, text) in [("/one", "d01/d02/d03/d04"), ("/two", "one"), ("/three", "two"), ("/four", "three")] {
        tree.make(name.as_bytes(), Kind::Link(text.as_bytes().into())).unwrap();
    }
    tree.make(b"/aside", directory()).unwrap();
    for depth in 1..=16 {
        let above = &DIRECTORIES[..4 * depth];
        tree.make(above, directory()).unwrap();
        for file in ["/conf", "/data", "/lock", "/log", "/state", "/file"] {
            tree.make(&[above, file.as_bytes()].concat(), Kind::File).unwrap();
        }
    }
    tree
}

/// What is changed while files are opened.
#[derive(Clone, Copy, PartialEq, Eq)]
enum Meanwhile {
    Nothing,
    OtherName,
    OwnName,
    Profile,
}

/// Opens of one file, in each of `threads` threads.
struct Side<'a> {
    path: &'a [u8],
    /// The names that its directory has in turn.
    names: [&'a [u8]; 2],
    meanwhile: Meanwhile,
    threads: usize,
    opens: u64,
    rest: Duration,
}

/// Opens a file for reading `opens` times, and returns how many of the opens were refused since no entry had the name.
fn open_often(world: &RwLock<World>, side: &Side) -> u64 {
    let mut room = [0; LONGEST_PATH];
    let mut missing = 0;
    for _ in 0..side.opens {
        let answer = world.read().unwrap().open(side.path, 1, &mut room);
        match answer {
            Answer::Judged { verdict: Verdict::Allowed, .. } => {}
            Answer::Failed { errno: Errno::NoEntry, .. } if side.meanwhile == Meanwhile::OwnName => missing += 1,
            _ => panic!("an open wasn't answered by what is there"),
        }
    }
    missing
}

/// Changes what is to be changed until the opens are done, and returns how often; at the end the names are as before.
fn change_until(world: &RwLock<World>, side: &Side, profiles: &[Arc<Table>; 2], done: &AtomicBool) -> u64 {
    let mut changes = 0;
    let [name, other]: [&[u8]; 2] = if side.meanwhile == Meanwhile::OtherName { [b"/aside", b"/away"] } else { side.names };
    while side.meanwhile != Meanwhile::Nothing && !done.load(Ordering::SeqCst) {
        for turn in 0..2 {
            match side.meanwhile {
                Meanwhile::Profile => world.write().unwrap().publish(&profiles[turn]),
                _ if turn == 0 => world.write().unwrap().rename(name, other),
                _ => world.write().unwrap().rename(other, name),
            }
            changes += 1;
            if !side.rest.is_zero() {
                thread::sleep(side.rest);
            }
        }
    }
    changes
}

/// How long the opens of all threads took, how many were refused, and how many changes were made meanwhile.
fn measure(world: &RwLock<World>, side: &Side, profiles: &[Arc<Table>; 2]) -> (Duration, u64, u64) {
    let done = AtomicBool::new(false);
    thread::scope(|scope| {
        let changer = scope.spawn(|| change_until(world, side, profiles, &done));
        let start = Instant::now();
        let openers: Vec<_> = (0..side.threads).map(|_| scope.spawn(|| open_often(world, side))).collect();
        let missing = openers.into_iter().map(|opener| opener.join().unwrap()).sum();
        let took = start.elapsed();
        done.store(true, Ordering::SeqCst);
        (took, missing, changer.join().unwrap())
    })
}

fn main() {
    let words: Vec<String> = env::args().collect();
    let image = fs::read(&words[1]).expect("IMAGE");
    let opens: u64 = words[2].parse().expect("OPENS");
    let rest = Duration::from_micros(words[3].parse().expect("REST"));
    let profiles = [Arc::new(Table::of_image(&image)), Arc::new(Table::of_image(&image))];
    let world = RwLock::new(World { tree: grown(), tree_version: 117, profiles: HashMap::new(), policy_version: 0 });
    world.write().unwrap().publish(&profiles[0]);
    let kinds = [
        ("nothing", Meanwhile::Nothing),
        ("other_name", Meanwhile::OtherName),
        ("own_name", Meanwhile::OwnName),
        ("profile", Meanwhile::Profile),
    ];
    for (kind, meanwhile) in kinds {
        for (name, path, depth) in [
            ("down_1", "", 1),
            ("down_2", "", 2),
            ("down_4", "", 4),
            ("down_8", "", 8),
            ("down_16", "", 16),
            ("links_1", "/one/file", 4),
            ("links_4", "/four/file", 4),
        ] {
            let directory = &DIRECTORIES[..4 * depth];
            let renamed = [&directory[..4 * depth - 4], b"/gone"].concat();
            let own = [directory, b"/file"].concat();
            let path = if path.is_empty() { own.as_slice() } else { path.as_bytes() };
            for threads in [1, 4] {
                let side = Side { path, names: [directory, &renamed], meanwhile, threads, opens, rest };
                let (took, missing, changes) = measure(&world, &side, &profiles);
                let count = opens * threads as u64;
                println!("{name} {kind} {threads} {count} {} 0 {missing} {changes}", took.as_nanos());
            }
        }
    }
}
