//! The Rust peers with one owner, and those that threads share. `peers NAME GROUP RUNS ENTRIES SEED` prints the lines
//! that README.md describes. With no argument it lists its peers and their groups.

mod layout;
mod shared;
mod streams;
mod texts;

use std::collections::HashMap as StdMap;
use std::hash::{BuildHasher, Hasher};
use std::time::Instant;
use streams::{value, Streams};

#[derive(Clone, Default)]
struct Fold;
#[derive(Default)]
struct FoldHasher(u64);

fn fold(x: u64) -> u64 {
    let p = u128::from(x ^ 0x243F_6A88_85A3_08D3) * 0x9E37_79B9_7F4A_7C15_u128;
    (p as u64) ^ ((p >> 64) as u64)
}

impl BuildHasher for Fold {
    type Hasher = FoldHasher;
    fn build_hasher(&self) -> FoldHasher {
        FoldHasher(0)
    }
}

impl Hasher for FoldHasher {
    fn write(&mut self, bytes: &[u8]) {
        for b in bytes {
            self.0 = fold(self.0 ^ u64::from(*b));
        }
    }
    fn write_u64(&mut self, x: u64) {
        self.0 = fold(self.0 ^ x);
    }
    fn finish(&self) -> u64 {
        self.0
    }
}

/// A container with one owner.
trait Owned {
    fn new() -> Self;
    fn insert(&mut self, k: u64, v: u64);
    fn get(&self, k: u64) -> Option<u64>;
    fn bump(&mut self, k: u64) -> bool;
    fn remove(&mut self, k: u64) -> bool;
    fn sum(&self) -> u64;
}

macro_rules! owned_like_std {
    ($name:ty) => {
        impl<S: BuildHasher + Default> Owned for $name {
            fn new() -> Self {
                Self::with_hasher(S::default())
            }
            #[inline]
            fn insert(&mut self, k: u64, v: u64) {
                self.insert(k, v);
            }
            #[inline]
            fn get(&self, k: u64) -> Option<u64> {
                self.get(&k).copied()
            }
            #[inline]
            fn bump(&mut self, k: u64) -> bool {
                match self.get_mut(&k) {
                    Some(v) => {
                        *v = v.wrapping_add(1);
                        true
                    }
                    None => false,
                }
            }
            #[inline]
            fn remove(&mut self, k: u64) -> bool {
                self.remove(&k).is_some()
            }
            fn sum(&self) -> u64 {
                self.iter().fold(0u64, |s, (_, v)| s.wrapping_add(*v))
            }
        }
    };
}

owned_like_std!(StdMap<u64, u64, S>);
#[cfg(with_hashbrown)]
owned_like_std!(hashbrown::HashMap<u64, u64, S>);

fn line(work: &str, peer: &str, figure: f64) {
    println!("{work} {peer} {figure:.2}");
}

fn check(work: &str, peer: &str, sum: u64) {
    println!("check {work} {peer} {sum}");
}

fn per(start: Instant, operations: u64) -> f64 {
    start.elapsed().as_nanos() as f64 / operations as f64
}

fn sum_of_hits<M: Owned>(m: &M, keys: &[u64]) -> u64 {
    keys.iter().fold(0u64, |s, &k| m.get(k).map_or(s, |v| s.wrapping_add(v)))
}

fn count_misses<M: Owned>(m: &M, keys: &[u64]) -> u64 {
    keys.iter().fold(0u64, |s, &k| s + u64::from(m.get(k).is_none()))
}

/// One run of the group `own`: workload, nanoseconds an operation, and sum.
fn own_once<M: Owned>(n: u64, ins: &[u64], acc: &[u64], mis: &[u64]) -> Vec<(&'static str, f64, u64)> {
    let mut out = Vec::new();
    let mut m = M::new();
    let t = Instant::now();
    for &k in ins {
        m.insert(k, value(k));
    }
    let ns = per(t, n);
    out.push(("own_insert", ns, m.sum()));
    let t = Instant::now();
    let s = sum_of_hits(&m, acc);
    out.push(("own_hit", per(t, n), s));
    let t = Instant::now();
    let s = count_misses(&m, mis);
    out.push(("own_miss", per(t, n), s));
    let t = Instant::now();
    let s = acc.iter().fold(0u64, |s, &k| s + u64::from(m.bump(k)));
    out.push(("own_update", per(t, n), s));
    let t = Instant::now();
    let s = m.sum();
    out.push(("own_iterate", per(t, n), s));
    let t = Instant::now();
    let s = acc.iter().fold(0u64, |s, &k| s + u64::from(m.remove(k)));
    let ns = per(t, n);
    out.push(("own_remove", ns, s.wrapping_add(m.sum())));
    out
}

fn own<M: Owned>(peer: &str, runs: u32, streams: &Streams) {
    let (ins, acc, mis) = (streams.inserted(), streams.accessed(), streams.missing());
    for run in 0..=runs {
        for (work, ns, sum) in own_once::<M>(streams.entries, &ins, &acc, &mis) {
            if run > 0 {
                line(work, peer, ns);
            }
            if run == runs {
                check(work, peer, sum);
            }
        }
    }
}

fn quantiles(group: &str, peer: &str, sorted: &[u64]) {
    for (name, thousandths) in [("p50", 500), ("p99", 990), ("p999", 999), ("max", 1000)] {
        line(&format!("{group}_{name}"), peer, sorted[(sorted.len() - 1) * thousandths / 1000] as f64);
    }
}

fn tail<M: Owned>(peer: &str, runs: u32, streams: &Streams) {
    let ins = streams.inserted();
    for run in 0..=runs {
        let mut times = Vec::with_capacity(ins.len());
        let mut m = M::new();
        for &k in &ins {
            let t = Instant::now();
            m.insert(k, value(k));
            times.push(t.elapsed().as_nanos() as u64);
        }
        times.sort_unstable();
        if run > 0 {
            quantiles("tail", peer, &times);
        }
        if run == runs {
            check("tail", peer, m.sum());
        }
    }
}

fn resident() -> u64 {
    let text = std::fs::read_to_string("/proc/self/statm").unwrap_or_default();
    let pages: u64 = text.split(' ').nth(1).and_then(|s| s.parse().ok()).unwrap_or(0);
    pages * 4096
}

fn most_resident() -> u64 {
    let text = std::fs::read_to_string("/proc/self/status").unwrap_or_default();
    let row = text.lines().find_map(|l| l.strip_prefix("VmHWM:")).unwrap_or("");
    row.split_whitespace().next().and_then(|s| s.parse::<u64>().ok()).unwrap_or(0) * 1024
}

fn insert_at<M: Owned>(m: &mut M, streams: &Streams, place: u64) {
    let k = streams.inserted_key(place);
    m.insert(k, value(k));
}

fn mem<M: Owned>(peer: &str, streams: &Streams) {
    let n = streams.entries;
    let mut m = M::new();
    insert_at(&mut m, streams, 0);
    let before = resident();
    for place in 1..n {
        insert_at(&mut m, streams, place);
    }
    line("mem_live", peer, resident().saturating_sub(before) as f64 / n as f64);
    line("mem_peak", peer, most_resident().saturating_sub(before) as f64 / n as f64);
    check("mem_live", peer, m.sum());
}

fn curve<M: Owned>(peer: &str, streams: &Streams) {
    let n = streams.entries;
    let step = (n / 16).max(1);
    let mut m = M::new();
    insert_at(&mut m, streams, 0);
    let before = resident();
    let mut total = 0.0;
    for place in 1..2 * n {
        insert_at(&mut m, streams, place);
        let size = place + 1;
        if size > n && size % step == 0 {
            total += resident().saturating_sub(before) as f64 / size as f64;
        }
    }
    line("mem_mean", peer, total / 16.0);
    check("mem_mean", peer, m.sum());
}

fn run_owned<M: Owned>(peer: &str, group: &str, runs: u32, streams: &Streams) {
    match group {
        "own" => own::<M>(peer, runs, streams),
        "tail" => tail::<M>(peer, runs, streams),
        "mem" => mem::<M>(peer, streams),
        "curve" => curve::<M>(peer, streams),
        _ => eprintln!("{peer} has no group {group}"),
    }
}

/// The most pairs of a cache, how many keys the gets go through, and how many keys fill a cache.
#[cfg(with_lru)]
const MOST: usize = 65_536;
#[cfg(with_lru)]
const KEPT: u64 = 16_384;
#[cfg(with_lru)]
const FILLING: u64 = 131_072;

/// Puts the key with its value, and says whether another pair was evicted.
#[cfg(with_lru)]
fn put(cache: &mut lru::LruCache<u64, u64>, k: u64) -> bool {
    cache.push(k, value(k)).is_some()
}

/// Gets each key, or else puts it: nanoseconds an operation, sum, and how many were there.
#[cfg(with_lru)]
fn get_or_put_all(cache: &mut lru::LruCache<u64, u64>, keys: &[u64]) -> (f64, u64, u64) {
    let (mut sum, mut hits) = (0u64, 0u64);
    let t = Instant::now();
    for &k in keys {
        match cache.get(&k) {
            Some(v) => {
                sum = sum.wrapping_add(*v);
                hits += 1;
            }
            None => {
                put(cache, k);
                sum = sum.wrapping_add(value(k));
            }
        }
    }
    (per(t, keys.len() as u64), sum, hits)
}

#[cfg(with_lru)]
fn get_all(cache: &mut lru::LruCache<u64, u64>, keys: &[u64]) -> (f64, u64) {
    let t = Instant::now();
    let sum = keys.iter().fold(0u64, |s, k| cache.get(k).map_or(s, |v| s.wrapping_add(*v)));
    (per(t, keys.len() as u64), sum)
}

#[cfg(with_lru)]
fn put_all(cache: &mut lru::LruCache<u64, u64>, keys: &[u64]) -> (f64, u64) {
    let t = Instant::now();
    let evicted = keys.iter().fold(0u64, |s, &k| s + u64::from(put(cache, k)));
    (per(t, keys.len() as u64), evicted)
}

/// The crate lru with one owner.
#[cfg(with_lru)]
fn cache(peer: &str, runs: u32, streams: &Streams) {
    let some = |entries| Streams { entries, seed: streams.seed };
    let (warming, ranked) = (streams.ranked(0), streams.ranked(streams.entries));
    let (kept, accessed) = (some(KEPT).inserted(), some(KEPT).accessed());
    let (filling, evicting) = (some(FILLING).inserted(), streams.missing());
    for run in 0..=runs {
        let mut c = lru::LruCache::new(MOST);
        get_or_put_all(&mut c, &warming);
        let (step_ns, step_sum, hits) = get_or_put_all(&mut c, &ranked);
        let mut c = lru::LruCache::new(MOST);
        put_all(&mut c, &kept);
        let (get_ns, get_sum) = get_all(&mut c, &accessed);
        let mut c = lru::LruCache::new(MOST);
        put_all(&mut c, &filling);
        let (put_ns, evicted) = put_all(&mut c, &evicting);
        if run > 0 {
            line("cache_t1", peer, step_ns);
            line("cache_get", peer, get_ns);
            line("cache_evict", peer, put_ns);
            line("hitrate_t1", peer, hits as f64 * 100.0 / streams.entries as f64);
        }
        if run == runs {
            check("cache_t1", peer, step_sum);
            check("cache_get", peer, get_sum);
            check("cache_evict", peer, evicted);
        }
    }
}

fn clock() {
    let mut times: Vec<u128> = (0..1_000_001)
        .map(|_| {
            let t = Instant::now();
            t.elapsed().as_nanos()
        })
        .collect();
    times.sort_unstable();
    println!("# clock: two readings in a row differ by {} ns (median)", times[500_000]);
}

fn list() {
    println!("std own,tail,mem,curve\nstd-fold own,tail,mem,curve");
    println!("layout-limit own,tail,mem,curve\nlayout-limit16 shared,tail4,index");
    #[cfg(with_hashbrown)]
    println!("hashbrown own,tail,mem,curve\nhashbrown-fold own,tail,mem,curve");
    #[cfg(with_lru)]
    println!("lru-own cache\nlru-mutex cache\nlru-shard16 cache");
    println!("std-shard16-fold shared,tail4,index\nstd-frozen-fold index\nstd-shard16 texts");
    #[cfg(with_dashmap)]
    println!("dashmap-fold shared,tail4,index\ndashmap texts");
}

fn main() {
    let args: Vec<String> = std::env::args().skip(1).collect();
    let number = |place: usize, usual: u64| args.get(place).and_then(|s| s.parse().ok()).unwrap_or(usual);
    let [peer, group, ..] = args.as_slice() else {
        list();
        return;
    };
    let (p, g) = (peer.as_str(), group.as_str());
    let runs = number(2, 1) as u32;
    let streams = Streams { entries: number(3, 1 << 20), seed: number(4, 0) };
    match p {
        "clock" => clock(),
        "std" => run_owned::<StdMap<u64, u64, std::collections::hash_map::RandomState>>(p, g, runs, &streams),
        "std-fold" => run_owned::<StdMap<u64, u64, Fold>>(p, g, runs, &streams),
        #[cfg(with_hashbrown)]
        "hashbrown" => {
            run_owned::<hashbrown::HashMap<u64, u64, hashbrown::hash_map::DefaultHashBuilder>>(p, g, runs, &streams)
        }
        #[cfg(with_hashbrown)]
        "hashbrown-fold" => run_owned::<hashbrown::HashMap<u64, u64, Fold>>(p, g, runs, &streams),
        #[cfg(with_lru)]
        "lru-own" if g == "cache" => cache(p, runs, &streams),
        "layout-limit" => run_owned::<layout::Layout>(p, g, runs, &streams),
        "layout-limit16" => shared::run_shared::<layout::Striped>(p, g, runs, &streams),
        "std-shard16-fold" => shared::run_shared::<shared::Sharded>(p, g, runs, &streams),
        "std-frozen-fold" if g == "index" => shared::run_frozen(p, runs, &streams),
        #[cfg(with_dashmap)]
        "dashmap-fold" => shared::run_shared::<dashmap::DashMap<u64, u64, Fold>>(p, g, runs, &streams),
        #[cfg(with_lru)]
        "lru-mutex" if g == "cache" => shared::run_cache::<shared::OneCache>(p, runs, &streams),
        #[cfg(with_lru)]
        "lru-shard16" if g == "cache" => shared::run_cache::<shared::ShardedCache>(p, runs, &streams),
        "std-shard16" if g == "texts" => texts::texts::<texts::Sharded>(p, runs, &streams),
        #[cfg(with_dashmap)]
        "dashmap" if g == "texts" => {
            texts::texts::<dashmap::DashMap<String, u64, std::collections::hash_map::RandomState>>(p, runs, &streams)
        }
        _ => eprintln!("there is no peer {p}"),
    }
}
