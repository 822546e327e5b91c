//! The commands of scripts in plain Rust, as a measure for mdbal. Nothing here is proved.
#[allow(dead_code)]
mod plan;

use plan::{Problem, Proof, Row, solve};
use std::io::{self, BufRead, BufReader, Write};

const NONE: u32 = u32::MAX;

/// A table's places: a power of two, twice as many as there are directories.
const PLACES: usize = 1 << 17;

/// Directories by number, with their names one after the other, and a table from parent and name to number.
struct Tree {
    parents: Vec<u32>,
    inodes: Vec<u64>,
    heats: Vec<u64>,
    pins: Vec<i64>,
    names: Vec<u8>,
    spans: Vec<(u32, u32)>,
    places: Vec<u32>,
}

/// A hash of a parent and a name, eight bytes at a time.
fn mix(parent: u32, name: &[u8]) -> usize {
    const FACTOR: u64 = 0xD6E8_FEB8_6659_FD93;
    let mut hash = (u64::from(parent) + 1).wrapping_mul(0x9E37_79B9_7F4A_7C15);
    let mut words = name.chunks_exact(8);
    for word in &mut words {
        hash = (hash ^ u64::from_le_bytes(word.try_into().unwrap())).wrapping_mul(FACTOR);
        hash ^= hash >> 32;
    }
    let mut last = [0; 8];
    last[..words.remainder().len()].copy_from_slice(words.remainder());
    hash = (hash ^ u64::from_le_bytes(last) ^ (name.len() as u64) << 56).wrapping_mul(FACTOR);
    (hash ^ hash >> 29) as usize % PLACES
}

/// A rank's counts: hits, and those that aren't deposited. The reads of a directory are at twice its number, its writes behind.
struct Share {
    hits: Vec<u64>,
    pending: Vec<u64>,
}

impl Share {
    fn hit(&mut self, row: usize) -> bool {
        if row >= self.hits.len() || self.hits[row] >= 1 << 56 {
            return false;
        }
        self.hits[row] += 1;
        self.pending[row] += 1;
        true
    }
}

#[derive(Default)]
struct Counts {
    ranks: u32,
    mask: u64,
    shares: Vec<Share>,
    counted: Vec<u64>,
    /// What a read and a write count.
    weights: [u64; 2],
}

impl Counts {
    fn open(ranks: u32) -> Counts {
        let row = || vec![0; 2 * LIMIT];
        let shares = (0..ranks).map(|_| Share { hits: row(), pending: row() }).collect();
        Counts { ranks, mask: 0, shares, counted: row(), weights: [1; 2] }
    }

    fn usable(&self) -> u32 {
        (self.mask & u64::MAX >> (64 - self.ranks)).count_ones()
    }
}

const LIMIT: usize = 65536;

impl Tree {
    fn new() -> Tree {
        Tree {
            parents: vec![0],
            inodes: vec![1],
            heats: vec![0],
            pins: vec![-1],
            names: vec![],
            spans: vec![(0, 0)],
            places: vec![NONE; PLACES],
        }
    }

    fn name(&self, dir: u32) -> &[u8] {
        let (from, to) = self.spans[dir as usize];
        &self.names[from as usize..to as usize]
    }

    /// The place in the table of a child, or the free one where it would stand.
    fn place(&self, parent: u32, name: &[u8]) -> usize {
        let mut place = mix(parent, name);
        loop {
            let dir = self.places[place];
            if dir == NONE || (self.parents[dir as usize] == parent && self.name(dir) == name) {
                return place;
            }
            place = (place + 1) % PLACES;
        }
    }

    fn find(&self, path: &[u8]) -> Option<u32> {
        if path == b"/" {
            return Some(0);
        }
        let mut at = 0;
        for name in path.strip_prefix(b"/")?.split(|b| *b == b'/') {
            at = self.places[self.place(at, name)];
            if at == NONE {
                return None;
            }
        }
        Some(at)
    }

    fn make(&mut self, path: &[u8], inodes: u64) -> Option<()> {
        let slash = path.iter().rposition(|b| *b == b'/')?;
        let parent = if slash == 0 { 0 } else { self.find(&path[..slash])? };
        let name = &path[slash + 1..];
        let place = self.place(parent, name);
        if self.places[place] != NONE || self.parents.len() >= LIMIT {
            return None;
        }
        self.places[place] = self.parents.len() as u32;
        let from = self.names.len() as u32;
        self.names.extend_from_slice(name);
        self.spans.push((from, self.names.len() as u32));
        self.parents.push(parent);
        self.inodes.push(inodes);
        self.heats.push(0);
        self.pins.push(-1);
        Some(())
    }

    /// Writes the path of a directory, its last name first into the place where it ends.
    fn path(&self, dir: u32, out: &mut Vec<u8>) {
        if dir == 0 {
            out.push(b'/');
            return;
        }
        let (mut length, mut at) = (0, dir);
        while at > 0 {
            length += 1 + self.name(at).len();
            at = self.parents[at as usize];
        }
        let mut end = out.len() + length;
        out.resize(end, b'/');
        at = dir;
        while at > 0 {
            let name = self.name(at);
            out[end - name.len()..end].copy_from_slice(name);
            end -= name.len() + 1;
            at = self.parents[at as usize];
        }
    }

    fn stat(&self, counts: &Counts, out: &mut Vec<u8>) {
        let n = self.parents.len();
        put(out, &[b"stat ranks ", &digits(counts.ranks.into()), b" usable ", &digits(counts.usable().into())]);
        put(out, &[b" directories ", &digits(n as u64), b"\n"]);
        let mut pins = vec![-1; n];
        for number in 0..n {
            let above = if number == 0 { -1 } else { pins[self.parents[number] as usize] };
            pins[number] = if self.pins[number] < 0 { above } else { self.pins[number] };
            put(out, &[b"dir ", &digits(number as u64), b" "]);
            self.path(number as u32, out);
            match pins[number] {
                -1 => put(out, &[b" pin -"]),
                pin => put(out, &[b" pin ", &digits(pin as u64)]),
            }
            let (reads, writes) = (counts.counted[2 * number], counts.counted[2 * number + 1]);
            put(out, &[b" rank 0 heat ", &digits(self.heats[number]), b" hits ", &digits(reads + writes)]);
            put(out, &[b" writes ", &digits(writes), b"\n"]);
        }
    }

    /// The plan for the whole tree: the scripts that ask for one set no pin.
    fn plan(&self, counts: &Counts, out: &mut Vec<u8>) {
        let rows = (0..self.parents.len()).map(|row| Row {
            heat: self.heats[row],
            parent: self.parents[row],
            inodes: self.inodes[row] as u32,
            now: 0,
        });
        let problem = Problem { rows: rows.collect(), ranks: counts.usable() as usize };
        let plan = solve(&problem);
        let proof: &[u8] = match plan.cut {
            Proof::Zero => b"zero",
            Proof::Heavy(_) => b"heavy",
            Proof::Table(_) => b"table",
        };
        put(out, &[b"plan greatest ", &digits(plan.greatest), b" moved ", &digits(plan.placing.moved), b" proof ", proof, b"\n"]);
        let mut sums = vec![(0u64, 0u64); plan.placing.rank.len()];
        for (row, part) in problem.rows.iter().zip(&plan.part) {
            let sum = &mut sums[*part as usize];
            *sum = (sum.0 + row.heat, sum.1 + u64::from(row.inodes));
        }
        for (number, row) in problem.rows.iter().enumerate() {
            let part = plan.part[number] as usize;
            if number == 0 || plan.part[row.parent as usize] as usize != part {
                put(out, &[b"part "]);
                self.path(number as u32, out);
                let (heat, inodes) = sums[part];
                put(out, &[b" rank ", &digits(plan.placing.rank[part] as u64), b" heat ", &digits(heat)]);
                put(out, &[b" inodes ", &digits(inodes), b"\n"]);
            }
        }
    }

    fn serve(&mut self, counts: &mut Counts, (dir, hits, kind): Load) {
        let (share, row) = (&mut counts.shares[0], 2 * dir as usize + kind);
        let counted = (0..hits).take_while(|_| share.hit(row)).count() as u64;
        let heat = &mut self.heats[dir as usize];
        *heat = (*heat + counts.weights[kind] * counted).min(1 << 40);
    }

    fn cost(&self, tops: &[u32], out: &mut Vec<u8>) {
        let n = self.parents.len();
        let mut is_top = vec![false; n];
        is_top[0] = true;
        tops.iter().for_each(|top| is_top[*top as usize] = true);
        let (mut free, mut top) = (vec![false; n], vec![0u32; n]);
        let mut sums = vec![(0u64, 0u64); n];
        for number in 0..n {
            let parent = self.parents[number] as usize;
            free[number] = self.pins[number] < 0 && (number == 0 || free[parent]);
            top[number] = if is_top[number] { number as u32 } else { top[parent] };
            if free[number] {
                let sum = &mut sums[top[number] as usize];
                *sum = (sum.0 + self.heats[number], sum.1 + self.inodes[number]);
            }
        }
        let parts: Vec<usize> = (0..n).filter(|number| is_top[*number] && free[*number]).collect();
        let greatest = parts.iter().map(|part| sums[*part].0).max().unwrap_or(0);
        put(out, &[b"cost greatest ", &digits(greatest), b" parts ", &digits(parts.len() as u64), b"\n"]);
        for part in parts {
            put(out, &[b"part "]);
            self.path(part as u32, out);
            put(out, &[b" heat ", &digits(sums[part].0), b" inodes ", &digits(sums[part].1), b"\n"]);
        }
    }
}

/// A number's digits.
struct Digits {
    bytes: [u8; 20],
    from: usize,
}

impl std::ops::Deref for Digits {
    type Target = [u8];

    fn deref(&self) -> &[u8] {
        &self.bytes[self.from..]
    }
}

fn digits(mut number: u64) -> Digits {
    let mut made = Digits { bytes: [b'0'; 20], from: 20 };
    while number > 0 || made.from == 20 {
        made.from -= 1;
        made.bytes[made.from] = b'0' + (number % 10) as u8;
        number /= 10;
    }
    made
}

fn put(out: &mut Vec<u8>, parts: &[&[u8]]) {
    parts.iter().for_each(|part| out.extend_from_slice(part));
}

fn number(field: &[u8]) -> i64 {
    match field.strip_prefix(b"-") {
        Some(field) => -number(field),
        None => field.iter().fold(0, |number, digit| number * 10 + i64::from(digit - b'0')),
    }
}

/// Parts a line into its fields.
fn part<'t>(line: &'t [u8], fields: &mut Vec<&'t [u8]>) {
    fields.clear();
    let mut from = None;
    for (at, byte) in line.iter().enumerate() {
        match (matches!(byte, b' ' | b'\t' | b'\r'), from) {
            (true, Some(start)) => {
                fields.push(&line[start..at]);
                from = None;
            }
            (false, None) => from = Some(at),
            _ => {}
        }
    }
    if let Some(start) = from {
        fields.push(&line[start..]);
    }
}

fn main() {
    let mut input = BufReader::with_capacity(1 << 16, io::stdin().lock());
    let mut tree = Tree::new();
    let mut counts = Counts::default();
    let (mut loads, mut out): (Vec<Load>, _) = (vec![], vec![]);
    let mut line = vec![];
    while input.read_until(b'\n', &mut line).unwrap() > 0 {
        answer(line.strip_suffix(b"\n").unwrap_or(&line), &mut tree, &mut counts, &mut loads, &mut out);
        line.clear();
    }
    io::stdout().write_all(&out).unwrap();
}

/// A directory, its hits, and 0 for reads or 1 for writes.
type Load = (u32, u64, usize);

fn answer(line: &[u8], tree: &mut Tree, counts: &mut Counts, loads: &mut Vec<Load>, out: &mut Vec<u8>) {
    let mut fields = Vec::with_capacity(4);
    part(line, &mut fields);
    match fields.as_slice() {
        [b"dir", path, inodes] => tree.make(path, number(inodes) as u64).unwrap(),
        [b"load", path, hits, kind @ ..] => {
            let kind = usize::from(kind == [b"w"]);
            loads.push((tree.find(path).unwrap(), number(hits) as u64, kind));
        }
        [b"weight", read, write] => counts.weights = [number(read) as u64, number(write) as u64],
        [b"pin", path, rank] => {
            let dir = tree.find(path).unwrap();
            tree.pins[dir as usize] = number(rank);
        }
        [b"ranks", ranks] => *counts = Counts::open(number(ranks) as u32),
        [b"mask", b"-1"] => counts.mask = u64::MAX,
        [b"go"] => {
            let waiting = std::mem::take(loads);
            waiting.iter().for_each(|load| tree.serve(counts, *load));
            waiting.iter().for_each(|(dir, _, kind)| {
                let row = 2 * *dir as usize + kind;
                counts.counted[row] += std::mem::take(&mut counts.shares[0].pending[row]);
            });
        }
        [b"tick"] => tree.heats.iter_mut().for_each(|heat| *heat /= 2),
        [b"stat"] => tree.stat(counts, out),
        [b"plan"] => tree.plan(counts, out),
        [b"cost", paths @ ..] => {
            let tops: Vec<u32> = paths.iter().map(|path| tree.find(path).unwrap()).collect();
            tree.cost(&tops, out);
        }
        _ => {}
    }
}
