//! The group `texts`: peers that threads share, on texts of 20 bytes under the standard library's own hasher.

use crate::shared::{self, parts, sixteen, Padded};
use crate::streams::{value, Streams};
use crate::{check, line};
use std::collections::hash_map::RandomState;
use std::collections::HashMap;
use std::hash::{BuildHasher, Hash, Hasher};
use std::sync::RwLock;

/// A map of texts that threads share.
pub trait Texts: Sync {
    fn new() -> Self;
    fn insert(&self, k: String, v: u64);
    fn get(&self, k: &String) -> Option<u64>;
    fn sum(&self) -> u64;
}

/// Sixteen locks round sixteen maps, as one would write it by hand: the hash picks the map, which hashes anew.
pub struct Sharded {
    shards: Vec<Padded<RwLock<HashMap<String, u64, RandomState>>>>,
    hasher: RandomState,
}

impl Sharded {
    fn shard(&self, k: &String) -> &RwLock<HashMap<String, u64, RandomState>> {
        let mut state = self.hasher.build_hasher();
        k.hash(&mut state);
        &self.shards[(state.finish() >> 60) as usize].0
    }
}

impl Texts for Sharded {
    fn new() -> Self {
        let hasher = RandomState::new();
        Sharded { shards: sixteen(|| RwLock::new(HashMap::with_hasher(hasher.clone()))), hasher }
    }
    fn insert(&self, k: String, v: u64) {
        self.shard(&k).write().unwrap().insert(k, v);
    }
    fn get(&self, k: &String) -> Option<u64> {
        self.shard(k).read().unwrap().get(k).copied()
    }
    fn sum(&self) -> u64 {
        let of = |m: &HashMap<String, u64, RandomState>| m.values().fold(0u64, |s, v| s.wrapping_add(*v));
        self.shards.iter().fold(0u64, |s, p| s.wrapping_add(of(&p.0.read().unwrap())))
    }
}

#[cfg(with_dashmap)]
impl Texts for dashmap::DashMap<String, u64, RandomState> {
    fn new() -> Self {
        dashmap::DashMap::with_hasher(RandomState::new())
    }
    fn insert(&self, k: String, v: u64) {
        self.insert(k, v);
    }
    fn get(&self, k: &String) -> Option<u64> {
        self.get(k).map(|v| *v)
    }
    fn sum(&self) -> u64 {
        self.iter().fold(0u64, |s, p| s.wrapping_add(*p.value()))
    }
}

type Line = (String, u64);

fn lines_of(keys: &[u64]) -> Vec<Line> {
    keys.iter().map(|&k| (format!("{k:020}"), value(k))).collect()
}

fn insert_all<M: Texts>(m: &M, lines: &[Line]) -> u64 {
    for (k, v) in lines {
        m.insert(k.clone(), *v);
    }
    0
}

fn read_all<M: Texts>(m: &M, lines: &[Line]) -> u64 {
    lines.iter().fold(0u64, |s, (k, _)| s.wrapping_add(m.get(k).unwrap_or(0)))
}

/// Has each of so many threads go through its part: nanoseconds an operation, and the sum of the answers.
fn run<M: Texts>(m: &M, lines: &[Line], threads: usize, part: fn(&M, &[Line]) -> u64) -> (f64, u64) {
    let (ns, sum) = shared::run(&parts(lines, threads), |own: &&[Line]| part(m, own));
    (ns / lines.len() as f64, sum)
}

/// Runs a workload once to warm up and then `runs` times. `once` answers nanoseconds an operation and the sum.
fn run_often(peer: &str, work: &str, threads: usize, runs: u32, once: impl Fn() -> (f64, u64)) {
    let work = format!("{work}_t{threads}");
    for run in 0..=runs {
        let (ns, sum) = once();
        if run > 0 {
            line(&work, peer, ns);
        }
        if run == runs {
            check(&work, peer, sum);
        }
    }
}

pub fn texts<M: Texts>(peer: &str, runs: u32, streams: &Streams) {
    let (inserted, accessed) = (lines_of(&streams.inserted()), lines_of(&streams.accessed()));
    for threads in [1, 2, 4] {
        run_often(peer, "texts_insert", threads, runs, || {
            let m = M::new();
            let (ns, _) = run(&m, &inserted, threads, insert_all);
            (ns, m.sum())
        });
    }
    let m = M::new();
    insert_all(&m, &accessed);
    for threads in [1, 2, 4] {
        run_often(peer, "texts_read", threads, runs, || run(&m, &accessed, threads, read_all));
    }
}
