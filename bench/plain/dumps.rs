// Reads what bench/dumps.py wrote, in plain Rust, and prints the heat at each rank, in thousandths: what mdbal_ceph reads
// before it plans. It checks nothing that it can pass over.
use std::collections::HashMap;
use std::{env, fs};

/// A text of JSON, and how much of it has been read.
struct Json<'a> {
    text: &'a [u8],
    at: usize,
}

impl<'a> Json<'a> {
    /// The next byte that is no white space.
    fn next(&mut self) -> u8 {
        while self.text[self.at].is_ascii_whitespace() {
            self.at += 1;
        }
        self.text[self.at]
    }

    /// Whether the next byte is this one, which is then read.
    fn takes(&mut self, byte: u8) -> bool {
        let is_next = self.next() == byte;
        self.at += usize::from(is_next);
        is_next
    }

    /// A string without escapes.
    fn string(&mut self) -> &'a [u8] {
        assert!(self.takes(b'"'));
        let start = self.at;
        while self.text[self.at] != b'"' {
            self.at += if self.text[self.at] == b'\\' { 2 } else { 1 };
        }
        self.at += 1;
        &self.text[start..self.at - 1]
    }

    /// A word: a number, or `true`, `false` or `null`.
    fn word(&mut self) -> &'a str {
        self.next();
        let start = self.at;
        while !matches!(self.text[self.at], b',' | b'}' | b']') && !self.text[self.at].is_ascii_whitespace() {
            self.at += 1;
        }
        std::str::from_utf8(&self.text[start..self.at]).unwrap()
    }

    /// Passes over a value.
    fn skip(&mut self) {
        match self.next() {
            b'{' => self.object(|json, _| json.skip()),
            b'[' => self.list(|json| json.skip()),
            b'"' => {
                self.string();
            }
            _ => {
                self.word();
            }
        }
    }

    /// Reads each member of an object.
    fn object(&mut self, mut member: impl FnMut(&mut Self, &'a [u8])) {
        assert!(self.takes(b'{'));
        while !self.takes(b'}') {
            let name = self.string();
            assert!(self.takes(b':'));
            member(self, name);
            self.takes(b',');
        }
    }

    /// Reads each item of a list.
    fn list(&mut self, mut item: impl FnMut(&mut Self)) {
        assert!(self.takes(b'['));
        while !self.takes(b']') {
            item(self);
            self.takes(b',');
        }
    }
}

/// The heat of a fragment's own counters.
fn own_heat(json: &mut Json) -> f64 {
    let (mut heat, mut weights) = (0.0, [1.0, 2.0, 1.0, 2.0, 4.0].iter());
    json.object(|json, _| {
        json.list(|json| {
            let weight = weights.next().unwrap();
            json.object(|json, name| match name {
                b"value" => heat += weight * json.word().parse::<f64>().unwrap(),
                _ => json.skip(),
            });
        });
    });
    heat
}

/// Adds the fragments of a rank: paths and heats in thousandths.
fn add_loads(text: &[u8], found: &mut Vec<(Vec<u8>, u64)>) {
    Json { text, at: 0 }.object(|json, name| match name {
        b"dirfrags" => json.list(|json| {
            let (mut path, mut heat) = (Vec::new(), 0.0);
            json.object(|json, name| match name {
                b"path" => path = json.string().to_vec(),
                b"pop_me" => heat = own_heat(json),
                _ => json.skip(),
            });
            found.push((path, (heat * 1000.0 + 0.5) as u64));
        }),
        _ => json.skip(),
    });
}

/// Adds the roots that a rank has.
fn add_roots(text: &[u8], rank: usize, roots: &mut HashMap<Vec<u8>, usize>) {
    Json { text, at: 0 }.list(|json| {
        let (mut path, mut is_here) = (Vec::new(), false);
        json.object(|json, name| match name {
            b"is_auth" => is_here = json.word() == "true",
            b"dir" => json.object(|json, name| match name {
                b"path" => path = json.string().to_vec(),
                _ => json.skip(),
            }),
            _ => json.skip(),
        });
        if is_here {
            roots.insert(path, rank);
        }
    });
}

/// The rank of the nearest root at or above a path.
fn authority(roots: &HashMap<Vec<u8>, usize>, path: &[u8]) -> usize {
    let mut end = path.len();
    loop {
        if let Some(rank) = roots.get(&path[..end]) {
            return *rank;
        }
        end = path[..end].iter().rposition(|byte| *byte == b'/').unwrap();
    }
}

/// How many directories a listing has, and their entries.
fn listed(text: &[u8]) -> (usize, u64) {
    let (mut count, mut entries) = (0, 0);
    for line in text.split(|byte| *byte == b'\n') {
        if line.starts_with(b"# file: ") {
            count += 1;
        } else if let Some(value) = line.strip_prefix(b"ceph.dir.entries=\"") {
            entries += std::str::from_utf8(&value[..value.len() - 1]).unwrap().parse::<u64>().unwrap();
        }
    }
    (count, entries)
}

fn main() {
    let folder = env::args().nth(1).unwrap();
    let read = |name: String| fs::read(format!("{folder}/{name}"));
    let (mut roots, mut seen, mut ranks) = (HashMap::new(), Vec::new(), 0);
    while let Ok(text) = read(format!("subtrees.{ranks}.json")) {
        add_roots(&text, ranks, &mut roots);
        let mut found = Vec::new();
        add_loads(&read(format!("loads.{ranks}.1.json")).unwrap(), &mut found);
        seen.extend(found.into_iter().map(|(path, heat)| (ranks, path, heat)));
        ranks += 1;
    }
    let mut heats = vec![0; ranks];
    for (rank, path, heat) in &seen {
        if authority(&roots, path) == *rank {
            heats[*rank] += heat;
        }
    }
    let (count, entries) = listed(&read("dirs".into()).unwrap());
    assert!(count == seen.len() && entries > 0);
    let words: Vec<String> = heats.iter().map(u64::to_string).collect();
    println!("{}", words.join(" "));
}
