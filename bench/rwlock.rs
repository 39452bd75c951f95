//! What `benchmarks registry` times, with a lock: a map of shared profiles with its version, in std's RwLock. It takes
//! READS, and prints how many reads a second one thread and four make, with READS reads in each thread: once where each of the
//! four reads all names, and once where it has names of its own.
use std::collections::HashMap;
use std::env;
use std::sync::{Arc, RwLock};
use std::thread;
use std::time::Instant;

const NAMES: usize = 64;

struct Profile {
    table: Vec<u32>,
}

struct Store {
    profiles: HashMap<Vec<u8>, Arc<Profile>>,
    version: u64,
}

/// A share of the profile under a name, and the version.
fn get(store: &RwLock<Store>, name: &[u8]) -> (Option<Arc<Profile>>, u64) {
    let store = store.read().unwrap();
    (store.profiles.get(name).cloned(), store.version)
}

/// Reads each of a thread's names in turn, from `start` on.
fn read_names(store: &RwLock<Store>, names: &[Vec<u8>], start: usize, reads: u64) -> u64 {
    let mut found = 0;
    let mut next = start;
    for _ in 0..reads {
        if next >= names.len() {
            next = 0;
        }
        if let (Some(profile), 1..) = get(store, &names[next]) {
            found += profile.table.len() as u64;
        }
        next += 1;
    }
    found
}

fn rate(store: &RwLock<Store>, names: &[Vec<u8>], threads: usize, own: bool, reads: u64) -> u64 {
    let start = Instant::now();
    let found: u64 = thread::scope(|scope| {
        let work: Vec<_> = (0..threads)
            .map(|k| {
                let (names, start) = if own { (&names[k * 16..k * 16 + 16], 0) } else { (names, k * 16) };
                scope.spawn(move || read_names(store, names, start, reads))
            })
            .collect();
        work.into_iter().map(|work| work.join().unwrap()).sum()
    });
    (found as u128 * 1_000_000_000 / start.elapsed().as_nanos()) as u64
}

fn main() {
    let reads = env::args().nth(1).and_then(|word| word.parse().ok()).expect("READS");
    let names: Vec<Vec<u8>> = (0..NAMES).map(|k| format!("daemon_{k:02}").into_bytes()).collect();
    let profiles = names.iter().map(|name| (name.clone(), Arc::new(Profile { table: vec![0] }))).collect();
    let store = RwLock::new(Store { profiles, version: NAMES as u64 });
    println!("one: {} reads a second", rate(&store, &names, 1, false, reads));
    println!("four_all: {} reads a second", rate(&store, &names, 4, false, reads));
    println!("four_own: {} reads a second", rate(&store, &names, 4, true, reads));
}
