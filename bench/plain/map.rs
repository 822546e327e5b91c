//! A map kept in two copies, in plain unproved Rust.
//!
//! It prints a name and picoseconds of processor time a line, the least of several runs, for the work that `bench map` times.
use std::cell::UnsafeCell;
use std::hint::black_box;
use std::sync::atomic::{AtomicU64, AtomicUsize, Ordering, fence};
use std::thread;

const DIRECTORIES: usize = 65536;
const RUNS: usize = 7;
const FIND_ROUNDS: usize = 64;
const PUBLISHES: u32 = 20_000;

#[repr(C)]
struct TimeSpec {
    seconds: i64,
    nanoseconds: i64,
}

extern "C" {
    fn clock_gettime(clock: i32, time: *mut TimeSpec) -> i32;
}

/// Nanoseconds of processor time of this thread.
fn now() -> u128 {
    let mut time = TimeSpec { seconds: 0, nanoseconds: 0 };
    unsafe { clock_gettime(3, &mut time) };
    time.seconds as u128 * 1_000_000_000 + time.nanoseconds as u128
}

/// The least picoseconds for each of so many steps, over several runs.
fn least(steps: usize, mut run: impl FnMut() -> u64) -> u128 {
    (0..RUNS)
        .map(|_| {
            let start = now();
            black_box(run());
            (now() - start) * 1000 / steps as u128
        })
        .min()
        .unwrap()
}

/// The slowest of four threads, each of which takes its least.
fn in_four(work: impl Fn(usize) -> u128 + Sync) -> u128 {
    let work = &work;
    thread::scope(|scope| {
        let threads: Vec<_> = (0..4).map(|at| scope.spawn(move || work(at))).collect();
        threads.into_iter().map(|thread| thread.join().unwrap()).max().unwrap()
    })
}

/// Directories in no order, the same as in `crates/bench`.
fn keys(seed: u64) -> Vec<u32> {
    let mut state = seed | 1;
    (0..1 << 14)
        .map(|_| {
            state ^= state << 13;
            state ^= state >> 7;
            state ^= state << 17;
            (state % 65536) as u32
        })
        .collect()
}

#[repr(align(128))]
struct Epoch(AtomicU64);

/// A map in two copies: readers enter the one that is shown, while the writer changes the other.
struct LeftRight {
    copies: [UnsafeCell<Vec<u8>>; 2],
    shown: AtomicUsize,
    epochs: Vec<Epoch>,
}

unsafe impl Sync for LeftRight {}

impl LeftRight {
    fn new(directories: usize, readers: usize) -> LeftRight {
        LeftRight {
            copies: [UnsafeCell::new(vec![0; directories]), UnsafeCell::new(vec![0; directories])],
            shown: AtomicUsize::new(0),
            epochs: (0..readers).map(|_| Epoch(AtomicU64::new(0))).collect(),
        }
    }

    fn find(&self, reader: usize, dir: u32) -> Option<u8> {
        let epoch = &self.epochs[reader].0;
        epoch.fetch_add(1, Ordering::AcqRel);
        fence(Ordering::SeqCst);
        let copy = unsafe { &*self.copies[self.shown.load(Ordering::Acquire)].get() };
        let cell = copy.get(dir as usize).copied().unwrap_or(0);
        epoch.fetch_add(1, Ordering::AcqRel);
        if cell == 0 { None } else { Some(cell - 1) }
    }

    /// Applies the last publish's operations and these to the hidden copy, and shows it.
    fn publish(&self, operations: &mut Vec<(Vec<u32>, u8)>, last: &mut Vec<(Vec<u32>, u8)>) {
        let hidden = 1 - self.shown.load(Ordering::Relaxed);
        for epoch in &self.epochs {
            while epoch.0.load(Ordering::Acquire) & 1 == 1 {
                thread::yield_now();
            }
        }
        let copy = unsafe { &mut *self.copies[hidden].get() };
        for (dirs, cell) in last.drain(..).chain(operations.iter().map(|(dirs, cell)| (dirs.clone(), *cell))) {
            for dir in dirs {
                copy[dir as usize] = cell;
            }
        }
        self.shown.store(hidden, Ordering::SeqCst);
        std::mem::swap(operations, last);
    }
}

#[inline(never)]
fn find_all(map: &LeftRight, reader: usize, keys: &[u32]) -> u64 {
    let mut sum = 0;
    for key in keys {
        if let Some(rank) = map.find(reader, *key) {
            sum += u64::from(rank);
        }
    }
    sum
}

fn time_finds(map: &LeftRight, reader: usize, keys: &[u32]) -> u128 {
    least(keys.len() * FIND_ROUNDS, || {
        let mut sum = 0;
        for _ in 0..FIND_ROUNDS {
            sum += find_all(map, reader, keys);
        }
        assert_eq!(sum, (keys.len() * FIND_ROUNDS) as u64);
        sum
    })
}

fn main() {
    let scattered = keys(7);
    let map = LeftRight::new(DIRECTORIES, 5);
    let (mut operations, mut last) = (Vec::new(), Vec::new());
    for _ in 0..2 {
        operations.push(((0..DIRECTORIES as u32).collect(), 2));
        map.publish(&mut operations, &mut last);
    }
    println!("find {}", time_finds(&map, 0, &scattered));
    println!("find_in_four_threads {}", in_four(|at| time_finds(&map, at + 1, &scattered)));
    let publish = least(PUBLISHES as usize, || {
        for _ in 0..PUBLISHES {
            operations.push((vec![0], 2));
            map.publish(&mut operations, &mut last);
        }
        0
    });
    println!("publish {publish}");
}
