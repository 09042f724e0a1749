//! The peers that threads share, in the groups `shared`, `tail4`, `index` and `cache` of crates/bench_shared.

use crate::streams::{value, Streams};
use crate::{check, line, quantiles, Fold};
use std::collections::HashMap;
use std::hash::{BuildHasher, Hasher};
use std::sync::{Mutex, RwLock};
use std::time::Instant;

/// A map that threads share.
pub trait Shared: Sync {
    fn new() -> Self;
    fn upsert(&self, k: u64, v: u64);
    /// Whether the key was missing.
    fn insert_missing(&self, k: u64, v: u64) -> bool;
    fn get(&self, k: u64) -> Option<u64>;
    fn remove(&self, k: u64) -> bool;
    fn sum(&self) -> u64;
}

/// Each in lines of memory of its own.
#[repr(align(128))]
pub struct Padded<T>(pub T);

pub fn sixteen<T>(make: impl Fn() -> T) -> Vec<Padded<T>> {
    (0..16).map(|_| Padded(make())).collect()
}

/// Which of sixteen the key belongs to.
fn shard(k: u64) -> usize {
    let mut hasher = Fold.build_hasher();
    hasher.write_u64(k);
    (hasher.finish() >> 60) as usize
}

/// Sixteen maps, each behind a lock.
pub struct Sharded(Vec<Padded<RwLock<HashMap<u64, u64, Fold>>>>);

impl Shared for Sharded {
    fn new() -> Self {
        Sharded(sixteen(|| RwLock::new(HashMap::with_hasher(Fold))))
    }
    #[inline]
    fn upsert(&self, k: u64, v: u64) {
        self.0[shard(k)].0.write().unwrap().insert(k, v);
    }
    #[inline]
    fn insert_missing(&self, k: u64, v: u64) -> bool {
        match self.0[shard(k)].0.write().unwrap().entry(k) {
            std::collections::hash_map::Entry::Vacant(place) => {
                place.insert(v);
                true
            }
            _ => false,
        }
    }
    #[inline]
    fn get(&self, k: u64) -> Option<u64> {
        self.0[shard(k)].0.read().unwrap().get(&k).copied()
    }
    #[inline]
    fn remove(&self, k: u64) -> bool {
        self.0[shard(k)].0.write().unwrap().remove(&k).is_some()
    }
    fn sum(&self) -> u64 {
        let of = |m: &HashMap<u64, u64, Fold>| m.values().fold(0u64, |s, v| s.wrapping_add(*v));
        self.0.iter().fold(0u64, |s, p| s.wrapping_add(of(&p.0.read().unwrap())))
    }
}

#[cfg(with_dashmap)]
impl Shared for dashmap::DashMap<u64, u64, Fold> {
    fn new() -> Self {
        dashmap::DashMap::with_hasher(Fold)
    }
    #[inline]
    fn upsert(&self, k: u64, v: u64) {
        self.insert(k, v);
    }
    #[inline]
    fn insert_missing(&self, k: u64, v: u64) -> bool {
        match self.entry(k) {
            dashmap::mapref::entry::Entry::Vacant(place) => {
                place.insert(v);
                true
            }
            _ => false,
        }
    }
    #[inline]
    fn get(&self, k: u64) -> Option<u64> {
        self.get(&k).map(|v| *v)
    }
    #[inline]
    fn remove(&self, k: u64) -> bool {
        self.remove(&k).is_some()
    }
    fn sum(&self) -> u64 {
        self.iter().fold(0u64, |s, p| s.wrapping_add(*p.value()))
    }
}

/// Has each thread do its part: the nanoseconds of all together, and the sum of the answers.
pub fn run<T: Sync>(parts: &[T], part: impl Fn(&T) -> u64 + Sync) -> (f64, u64) {
    let part = &part;
    let t = Instant::now();
    let sum = std::thread::scope(|s| {
        let threads: Vec<_> = parts.iter().map(|own| s.spawn(move || part(own))).collect();
        threads.into_iter().fold(0u64, |sum, one| sum.wrapping_add(one.join().unwrap()))
    });
    (t.elapsed().as_nanos() as f64, sum)
}

fn fill<M: Shared>(streams: &Streams) -> M {
    let m = M::new();
    for k in streams.inserted() {
        m.upsert(k, value(k));
    }
    m
}

/// A key, and a number below 100 that picks what is done with it.
type Step = (u64, u64);

/// The steps of a workload: its name, the stream that is drawn from, and the place of the key that was drawn.
struct Work {
    name: &'static str,
    stream: u64,
    place: fn(drawn: u64, entries: u64, thread: u64, threads: u64) -> u64,
    /// Below that percentile keys are read, else written; 0 if they are inserted and removed too.
    percent: u64,
}

const WORKS: [Work; 4] = [
    Work { name: "shared_read95", stream: 100, place: |r, n, _, _| r % n, percent: 95 },
    Work { name: "shared_read50", stream: 200, place: |r, n, _, _| r % n, percent: 50 },
    Work { name: "shared_mixed_disjoint", stream: 300, place: |r, n, i, t| r % (2 * n / t).max(1) * t + i, percent: 0 },
    Work { name: "shared_mixed_hot", stream: 400, place: hot, percent: 0 },
];

fn hot(drawn: u64, entries: u64, _: u64, _: u64) -> u64 {
    if (drawn >> 48) % 8 == 0 {
        drawn % (2 * entries)
    } else {
        drawn % 1024
    }
}

fn steps(streams: &Streams, work: &Work, threads: u64) -> Vec<Vec<Step>> {
    let step = |thread: u64, number: u64| {
        let drawn = streams.key(work.stream + thread, number);
        let place = (work.place)(drawn, streams.entries, thread, threads);
        (streams.inserted_key(place), (drawn >> 32) % 100)
    };
    (0..threads).map(|thread| (0..streams.entries).map(|number| step(thread, number)).collect()).collect()
}

fn read_or_write<M: Shared>(m: &M, steps: &[Step], percent: u64) -> u64 {
    let mut sum = 0u64;
    for &(k, percentile) in steps {
        if percentile < percent {
            sum = sum.wrapping_add(m.get(k).unwrap_or(0));
        } else {
            m.upsert(k, value(k));
        }
    }
    sum
}

fn mix<M: Shared>(m: &M, steps: &[Step]) -> u64 {
    let mut sum = 0u64;
    for &(k, percentile) in steps {
        let answer = if percentile < 10 {
            u64::from(m.insert_missing(k, value(k)))
        } else if percentile < 20 {
            u64::from(m.remove(k))
        } else {
            m.get(k).unwrap_or(0)
        };
        sum = sum.wrapping_add(answer);
    }
    sum
}

/// Goes through the steps once to warm up and then `runs` times. Where keys are inserted and removed, the sum of the
/// first time is told, and none of several threads on the same keys.
fn work_often<M: Shared>(peer: &str, runs: u32, streams: &Streams, work: &Work, threads: u64) {
    let all = steps(streams, work, threads);
    let m: M = fill(streams);
    let name = format!("{}_t{threads}", work.name);
    let told = if work.percent > 0 { Some(runs) } else if work.stream == 300 || threads == 1 { Some(0) } else { None };
    for number in 0..=runs {
        let (ns, sum) = run(&all, |own: &Vec<Step>| match work.percent {
            0 => mix(&m, own),
            percent => read_or_write(&m, own, percent),
        });
        if number > 0 {
            line(&name, peer, ns / (streams.entries * threads) as f64);
        }
        if told == Some(number) {
            check(&name, peer, sum.wrapping_add(m.sum()));
        }
    }
}

/// As many keys in a row for each thread.
pub fn parts<K>(keys: &[K], threads: usize) -> Vec<&[K]> {
    let each = keys.len() / threads;
    (0..threads).map(|i| &keys[i * each..(i + 1) * each]).collect()
}

fn insert_often<M: Shared>(peer: &str, runs: u32, streams: &Streams, threads: usize) {
    let keys = streams.inserted();
    let name = format!("shared_insert_t{threads}");
    for number in 0..=runs {
        let m = M::new();
        let (ns, _) = run(&parts(&keys, threads), |own: &&[u64]| {
            own.iter().for_each(|&k| m.upsert(k, value(k)));
            0
        });
        if number > 0 {
            line(&name, peer, ns / keys.len() as f64);
        }
        if number == runs {
            check(&name, peer, m.sum());
        }
    }
}

fn shared<M: Shared>(peer: &str, runs: u32, streams: &Streams) {
    for threads in [1, 2, 4] {
        work_often::<M>(peer, runs, streams, &WORKS[0], threads);
        work_often::<M>(peer, runs, streams, &WORKS[1], threads);
        insert_often::<M>(peer, runs, streams, threads as usize);
        work_often::<M>(peer, runs, streams, &WORKS[2], threads);
        work_often::<M>(peer, runs, streams, &WORKS[3], threads);
    }
}

/// Single insertions by four threads, each between two readings of the clock.
fn tail<M: Shared>(peer: &str, runs: u32, streams: &Streams) {
    let keys = streams.inserted();
    for number in 0..=runs {
        let m = M::new();
        let times = Mutex::new(Vec::with_capacity(keys.len()));
        run(&parts(&keys, 4), |own: &&[u64]| {
            let mut spent = Vec::with_capacity(own.len());
            for &k in own.iter() {
                let t = Instant::now();
                m.upsert(k, value(k));
                spent.push(t.elapsed().as_nanos() as u64);
            }
            times.lock().unwrap().extend(spent);
            0
        });
        let mut times = times.into_inner().unwrap();
        times.sort_unstable();
        if number > 0 {
            quantiles("tail4", peer, &times);
        }
    }
}

/// Reads all keys, each thread from a place of its own on and round.
fn read_round(get: &(impl Fn(u64) -> Option<u64> + Sync), keys: &[u64], from: usize) -> u64 {
    let (early, late) = keys.split_at(from);
    late.iter().chain(early).fold(0u64, |s, &k| s.wrapping_add(get(k).unwrap_or(0)))
}

fn index(peer: &str, runs: u32, streams: &Streams, get: impl Fn(u64) -> Option<u64> + Sync) {
    let keys = streams.accessed();
    for threads in [1, 4] {
        let starts: Vec<usize> = (0..threads).map(|i| i * (keys.len() / threads)).collect();
        for number in 0..=runs {
            let (ns, sum) = run(&starts, |&from| read_round(&get, &keys, from));
            let name = format!("index_peek_t{threads}");
            if number > 0 {
                line(&name, peer, ns / (keys.len() * threads) as f64);
            }
            if number == runs {
                check(&name, peer, sum);
            }
        }
    }
}

pub fn run_shared<M: Shared>(peer: &str, group: &str, runs: u32, streams: &Streams) {
    match group {
        "shared" => shared::<M>(peer, runs, streams),
        "tail4" => tail::<M>(peer, runs, streams),
        "index" => {
            let m: M = fill(streams);
            index(peer, runs, streams, |k| m.get(k));
        }
        _ => eprintln!("{peer} has no group {group}"),
    }
}

/// A map that nobody writes any more, read without a lock.
pub fn run_frozen(peer: &str, runs: u32, streams: &Streams) {
    let m: HashMap<u64, u64, Fold> = streams.inserted().into_iter().map(|k| (k, value(k))).collect();
    index(peer, runs, streams, |k| m.get(&k).copied());
}

/// A cache that threads share. `get` makes the pair the most recent one.
#[cfg(with_lru)]
pub trait Cache: Sync {
    fn new(most: usize) -> Self;
    fn get(&self, k: u64) -> Option<u64>;
    fn put(&self, k: u64, v: u64);
}

#[cfg(with_lru)]
pub struct OneCache(Mutex<lru::LruCache<u64, u64, Fold>>);

#[cfg(with_lru)]
impl Cache for OneCache {
    fn new(most: usize) -> Self {
        OneCache(Mutex::new(lru::LruCache::with_hasher(most, Fold)))
    }
    fn get(&self, k: u64) -> Option<u64> {
        self.0.lock().unwrap().get(&k).copied()
    }
    fn put(&self, k: u64, v: u64) {
        self.0.lock().unwrap().put(k, v);
    }
}

#[cfg(with_lru)]
pub struct ShardedCache(Vec<Padded<OneCache>>);

#[cfg(with_lru)]
impl Cache for ShardedCache {
    fn new(most: usize) -> Self {
        ShardedCache(sixteen(|| OneCache::new(most / 16)))
    }
    fn get(&self, k: u64) -> Option<u64> {
        self.0[shard(k)].0.get(k)
    }
    fn put(&self, k: u64, v: u64) {
        self.0[shard(k)].0.put(k, v);
    }
}

/// Gets each key, or else puts it: the sum of the values, or how many keys were there.
#[cfg(with_lru)]
fn get_or_put_all<C: Cache>(c: &C, keys: &[u64], counted: bool) -> u64 {
    let (mut sum, mut hits) = (0u64, 0u64);
    for &k in keys {
        let found = c.get(k);
        hits += u64::from(found.is_some());
        if found.is_none() {
            c.put(k, value(k));
        }
        sum = sum.wrapping_add(found.unwrap_or(value(k)));
    }
    if counted { hits } else { sum }
}

#[cfg(with_lru)]
pub fn run_cache<C: Cache>(peer: &str, runs: u32, streams: &Streams) {
    for threads in [1u64, 2, 4] {
        let keys = |from| (0..threads).map(|thread| streams.ranked_of(thread, from)).collect::<Vec<_>>();
        let (first, next) = (keys(0), keys(streams.entries));
        let once = |counted| {
            let c = C::new(crate::MOST);
            run(&first, |own: &Vec<u64>| get_or_put_all(&c, own, counted));
            run(&next, |own: &Vec<u64>| get_or_put_all(&c, own, counted))
        };
        let steps = (streams.entries * threads) as f64;
        line(&format!("hitrate_t{threads}"), peer, once(true).1 as f64 * 100.0 / steps);
        for number in 1..=runs {
            let (ns, sum) = once(false);
            line(&format!("cache_t{threads}"), peer, ns / steps);
            if number == runs {
                check(&format!("cache_t{threads}"), peer, sum);
            }
        }
    }
}
