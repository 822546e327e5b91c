//! Phases of ranks' threads in plain unproved Rust: a cluster and its history under a lock, and a share a thread.
//!
//! `serve RANKS HITS` prints what `bench threads serve` prints: nanoseconds of wall time, the least of several runs, of 10,000
//! requests of so many hits by a thread a rank and by one thread.
use std::env;
use std::hint::black_box;
use std::sync::Mutex;
use std::thread;
use std::time::Instant;

const REQUESTS: u32 = 10_000;
const DIRECTORIES: usize = 65_536;
const RUNS: u32 = 7;

#[allow(dead_code)]
enum Event {
    Begin(u8, u32),
    End(u32),
    Deposit(Vec<(u32, u64)>),
}

struct Board {
    authority: Vec<u8>,
    frozen: Vec<bool>,
    running: Vec<Option<(u8, u32)>>,
    heat: Vec<u64>,
    history: Vec<Event>,
}

impl Board {
    fn new(ranks: u8) -> Self {
        let mut authority = vec![0; DIRECTORIES];
        for rank in 0..ranks {
            authority[rank as usize] = rank;
        }
        Board { authority, frozen: vec![false; DIRECTORIES], running: Vec::new(), heat: vec![0; DIRECTORIES], history: Vec::new() }
    }

    fn begin(&mut self, rank: u8, dir: u32) -> Option<u32> {
        if self.authority.get(dir as usize) != Some(&rank) || self.frozen[dir as usize] {
            return None;
        }
        self.running.push(Some((rank, dir)));
        self.history.push(Event::Begin(rank, dir));
        Some(self.running.len() as u32 - 1)
    }

    fn end(&mut self, ticket: u32) {
        self.running[ticket as usize] = None;
        self.history.push(Event::End(ticket));
    }

    fn deposit(&mut self, share: &mut Share) {
        let mut rows = Vec::new();
        for (dir, pending) in share.pending.iter_mut().enumerate() {
            if *pending > 0 {
                self.heat[dir] += *pending;
                rows.push((dir as u32, *pending));
                *pending = 0;
            }
        }
        self.history.push(Event::Deposit(rows));
    }
}

struct Share {
    hits: Vec<u64>,
    pending: Vec<u64>,
    begun: Vec<u64>,
}

impl Share {
    fn new() -> Self {
        Share { hits: vec![0; DIRECTORIES], pending: vec![0; 64], begun: vec![0; DIRECTORIES] }
    }

    fn hit(&mut self, dir: u32) -> bool {
        let row = dir as usize;
        if self.hits[row] >= 1 << 56 {
            return false;
        }
        self.hits[row] += 1;
        self.pending[row] += 1;
        true
    }
}

fn serve(board: &Mutex<Board>, rank: u8, count: u32, hits: u32, share: &mut Share) -> Vec<Option<u32>> {
    let mut answers = Vec::with_capacity(count as usize);
    for _ in 0..count {
        let dir = rank as u32;
        let ticket = board.lock().unwrap().begin(rank, dir);
        if let Some(ticket) = ticket {
            share.begun[dir as usize] += 1;
            for _ in 0..hits {
                black_box(share.hit(dir));
            }
            board.lock().unwrap().end(ticket);
        }
        answers.push(ticket);
    }
    answers
}

fn phase(ranks: u8, hits: u32, by_threads: bool) -> u128 {
    let board = Mutex::new(Board::new(ranks));
    let mut shares: Vec<Share> = (0..ranks).map(|_| Share::new()).collect();
    let count = if hits == 0 { 0 } else { REQUESTS / ranks as u32 };
    let start = Instant::now();
    if by_threads {
        thread::scope(|scope| {
            let board = &board;
            let children: Vec<_> = shares
                .iter_mut()
                .enumerate()
                .map(|(rank, share)| scope.spawn(move || serve(board, rank as u8, count, hits, share)))
                .collect();
            for child in children {
                black_box(child.join().unwrap());
            }
        });
    } else {
        for (rank, share) in shares.iter_mut().enumerate() {
            black_box(serve(&board, rank as u8, count, hits, share));
        }
    }
    for share in shares.iter_mut() {
        board.lock().unwrap().deposit(share);
    }
    let time = start.elapsed().as_nanos();
    black_box(board.into_inner().unwrap().heat[0]);
    time
}

fn main() {
    let words: Vec<String> = env::args().collect();
    if words.len() != 4 || words[1] != "serve" {
        return;
    }
    let (ranks, hits) = (words[2].parse().unwrap(), words[3].parse().unwrap());
    for (name, by_threads) in [("threads", true), ("alone", false)] {
        println!("{name} {}", (0..RUNS).map(|_| phase(ranks, hits, by_threads)).min().unwrap());
    }
}
