//! What the layout of our map allows: its rows of tags and cells, its folding hash and its lock, with nothing checked.
//! Growth moves all entries at once, and nothing shrinks.

use crate::shared::Shared;
use crate::{fold, Owned};
use std::arch::x86_64::*;
use std::cell::UnsafeCell;
use std::sync::atomic::{AtomicU64, Ordering::SeqCst};

/// The slots of a bucket.
const ROW: usize = 32;
const MOST_LOOKS: u32 = 200;

/// The tags of one bucket. A slot without an entry has the tag 0.
#[derive(Clone, Copy)]
#[repr(align(32))]
struct Tags([u8; ROW]);

impl Tags {
    /// The slots with that tag, a bit each.
    #[inline(always)]
    fn with(&self, tag: u8) -> u32 {
        // SAFETY: every x86-64 processor has SSE2, and both loads lie within the 32 bytes.
        unsafe {
            let sought = _mm_set1_epi8(tag as i8);
            let half = |at: usize| _mm_loadu_si128(self.0.as_ptr().add(at).cast());
            let equal = |at: usize| _mm_movemask_epi8(_mm_cmpeq_epi8(half(at), sought)) as u32;
            equal(0) | equal(16) << 16
        }
    }

    /// How many slots are in use, which are the first.
    #[inline(always)]
    fn used(&self) -> usize {
        self.with(0).trailing_zeros() as usize
    }
}

fn tag_of(hash: u64) -> u8 {
    hash as u8 | 0x80
}

/// A map: for each bucket a row of tags and a row of cells, both filled from the first slot.
pub struct Layout {
    tags: Vec<Tags>,
    cells: Vec<[(u64, u64); ROW]>,
    /// The entries whose row was full.
    overflow: Vec<(u64, u64)>,
    len: usize,
    /// How many first bits of a hash don't name the bucket.
    skipped: u32,
}

/// Where an entry stands: the bucket, and the slot, if there is one.
type Place = (usize, Option<usize>);

impl Layout {
    fn skipping(skipped: u32) -> Layout {
        Layout { tags: Vec::new(), cells: Vec::new(), overflow: Vec::new(), len: 0, skipped }
    }

    #[inline(always)]
    fn bucket(&self, hash: u64) -> usize {
        (u128::from(hash << self.skipped) * self.tags.len() as u128 >> 64) as usize
    }

    /// Where the key stands among the rows. There has to be an array.
    #[inline(always)]
    fn find(&self, k: u64, hash: u64) -> Place {
        let bucket = self.bucket(hash);
        // SAFETY: a bucket is below the number of rows, and a slot below 32.
        unsafe {
            let mut left = self.tags.get_unchecked(bucket).with(tag_of(hash));
            let row = self.cells.get_unchecked(bucket);
            while left != 0 {
                let slot = left.trailing_zeros() as usize;
                if row.get_unchecked(slot).0 == k {
                    return (bucket, Some(slot));
                }
                left &= left - 1;
            }
        }
        (bucket, None)
    }

    /// The value of the key, to be written.
    #[inline(always)]
    fn value_mut(&mut self, k: u64, hash: u64) -> Option<&mut u64> {
        if self.tags.is_empty() {
            return None;
        }
        match self.find(k, hash) {
            // SAFETY: as in `find`.
            (bucket, Some(slot)) => unsafe { Some(&mut self.cells.get_unchecked_mut(bucket).get_unchecked_mut(slot).1) },
            _ => self.overflow.iter_mut().find(|pair| pair.0 == k).map(|pair| &mut pair.1),
        }
    }

    #[inline(always)]
    fn value(&self, k: u64, hash: u64) -> Option<u64> {
        if self.tags.is_empty() {
            return None;
        }
        match self.find(k, hash) {
            // SAFETY: as in `find`.
            (bucket, Some(slot)) => unsafe { Some(self.cells.get_unchecked(bucket).get_unchecked(slot).1) },
            _ if self.overflow.is_empty() => None,
            _ => self.overflow.iter().find(|pair| pair.0 == k).map(|pair| pair.1),
        }
    }

    /// Adds a key that is missing.
    #[inline(always)]
    fn add(&mut self, k: u64, v: u64, hash: u64) {
        if self.tags.is_empty() {
            self.grow();
        }
        let mut bucket = self.bucket(hash);
        if self.tags[bucket].used() == ROW && 2 * self.len >= ROW * self.tags.len() {
            self.grow();
            bucket = self.bucket(hash);
        }
        self.len += 1;
        self.put(bucket, k, v, hash);
    }

    #[inline(always)]
    fn put(&mut self, bucket: usize, k: u64, v: u64, hash: u64) {
        let slot = self.tags[bucket].used();
        if slot == ROW {
            self.overflow.push((k, v));
            return;
        }
        self.tags[bucket].0[slot] = tag_of(hash);
        self.cells[bucket][slot] = (k, v);
    }

    /// Makes an array of twice as many buckets, two at first, and moves all entries into it.
    #[cold]
    fn grow(&mut self) {
        let buckets = (2 * self.tags.len()).max(2);
        let tags = std::mem::replace(&mut self.tags, vec![Tags([0; ROW]); buckets]);
        let cells = std::mem::replace(&mut self.cells, vec![[(0, 0); ROW]; buckets]);
        let overflow = std::mem::take(&mut self.overflow);
        let rows = tags.iter().zip(&cells).flat_map(|(tags, row)| &row[..tags.used()]);
        for &(k, v) in rows.chain(&overflow) {
            let hash = fold(k);
            self.put(self.bucket(hash), k, v, hash);
        }
    }

    #[inline(always)]
    fn take(&mut self, k: u64, hash: u64) -> bool {
        if self.tags.is_empty() {
            return false;
        }
        let (bucket, Some(slot)) = self.find(k, hash) else {
            let before = self.overflow.len();
            self.overflow.retain(|pair| pair.0 != k);
            self.len -= before - self.overflow.len();
            return self.overflow.len() < before;
        };
        let last = self.tags[bucket].used() - 1;
        self.cells[bucket][slot] = self.cells[bucket][last];
        self.tags[bucket].0[slot] = self.tags[bucket].0[last];
        self.tags[bucket].0[last] = 0;
        self.len -= 1;
        true
    }

    fn total(&self) -> u64 {
        let rows = self.tags.iter().zip(&self.cells).flat_map(|(tags, row)| &row[..tags.used()]);
        rows.chain(&self.overflow).fold(0u64, |sum, pair| sum.wrapping_add(pair.1))
    }
}

impl Owned for Layout {
    fn new() -> Self {
        Layout::skipping(0)
    }
    #[inline]
    fn insert(&mut self, k: u64, v: u64) {
        let hash = fold(k);
        match self.value_mut(k, hash) {
            Some(old) => *old = v,
            None => self.add(k, v, hash),
        }
    }
    #[inline]
    fn get(&self, k: u64) -> Option<u64> {
        self.value(k, fold(k))
    }
    #[inline]
    fn bump(&mut self, k: u64) -> bool {
        self.value_mut(k, fold(k)).map(|v| *v = v.wrapping_add(1)).is_some()
    }
    #[inline]
    fn remove(&mut self, k: u64) -> bool {
        self.take(k, fold(k))
    }
    fn sum(&self) -> u64 {
        self.total()
    }
}

/// A map behind a lock of two words: the writers that wait, and the readers, or `WRITTEN`. Our stripes have as much
/// between the lock and what a search needs.
#[repr(C)]
struct Stripe {
    waiting: AtomicU64,
    held: AtomicU64,
    between: [u64; 17],
    map: UnsafeCell<Layout>,
}

// SAFETY: the map is reached by `read` and `write` alone, under the lock.
unsafe impl Sync for Stripe {}

const WRITTEN: u64 = u64::MAX;

fn pause(looks: &mut u32) {
    *looks += 1;
    if *looks < MOST_LOOKS {
        std::hint::spin_loop();
    } else {
        std::thread::yield_now();
    }
}

impl Stripe {
    #[inline(always)]
    fn read<T>(&self, f: impl FnOnce(&Layout) -> T) -> T {
        let mut looks = 0;
        loop {
            let held = self.held.load(SeqCst);
            let is_free = self.waiting.load(SeqCst) == 0 && held != WRITTEN;
            if is_free && self.held.compare_exchange(held, held + 1, SeqCst, SeqCst).is_ok() {
                break;
            }
            pause(&mut looks);
        }
        // SAFETY: no caller writes as long as readers are counted.
        let answer = f(unsafe { &*self.map.get() });
        self.held.fetch_sub(1, SeqCst);
        answer
    }

    #[inline(always)]
    fn write<T>(&self, f: impl FnOnce(&mut Layout) -> T) -> T {
        if self.held.compare_exchange(0, WRITTEN, SeqCst, SeqCst).is_err() {
            self.wait_to_write();
        }
        // SAFETY: the lock is held for this caller alone.
        let answer = f(unsafe { &mut *self.map.get() });
        self.held.store(0, SeqCst);
        answer
    }

    #[cold]
    fn wait_to_write(&self) {
        let mut looks = 0;
        self.waiting.fetch_add(1, SeqCst);
        while self.held.compare_exchange(0, WRITTEN, SeqCst, SeqCst).is_err() {
            pause(&mut looks);
        }
        self.waiting.fetch_sub(1, SeqCst);
    }
}

/// Sixteen maps, each behind a lock. A key is hashed once.
pub struct Striped(Vec<Stripe>);

impl Striped {
    #[inline(always)]
    fn stripe(&self, hash: u64) -> &Stripe {
        &self.0[(hash >> 60) as usize]
    }
}

impl Shared for Striped {
    fn new() -> Self {
        let stripe = |_| Stripe {
            waiting: AtomicU64::new(0),
            held: AtomicU64::new(0),
            between: [0; 17],
            map: UnsafeCell::new(Layout::skipping(4)),
        };
        Striped((0..16).map(stripe).collect())
    }
    #[inline]
    fn upsert(&self, k: u64, v: u64) {
        let hash = fold(k);
        self.stripe(hash).write(|map| match map.value_mut(k, hash) {
            Some(old) => *old = v,
            None => map.add(k, v, hash),
        });
    }
    #[inline]
    fn insert_missing(&self, k: u64, v: u64) -> bool {
        let hash = fold(k);
        self.stripe(hash).write(|map| {
            let is_missing = map.value(k, hash).is_none();
            if is_missing {
                map.add(k, v, hash);
            }
            is_missing
        })
    }
    #[inline]
    fn get(&self, k: u64) -> Option<u64> {
        let hash = fold(k);
        self.stripe(hash).read(|map| map.value(k, hash))
    }
    #[inline]
    fn remove(&self, k: u64) -> bool {
        let hash = fold(k);
        self.stripe(hash).write(|map| map.take(k, hash))
    }
    fn sum(&self) -> u64 {
        self.0.iter().fold(0u64, |sum, stripe| sum.wrapping_add(stripe.read(Layout::total)))
    }
}
