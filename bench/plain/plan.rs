//! Search, costs and placing in plain Rust, as a measure for the planner. Nothing here is proved.

#[derive(Clone, Copy)]
pub struct Row {
    pub heat: u64,
    pub parent: u32,
    pub inodes: u32,
    pub now: u8,
}

pub struct Problem {
    pub rows: Vec<Row>,
    pub ranks: usize,
}

pub enum Proof {
    Zero,
    Heavy(u32),
    Table(Vec<TableRow>),
}

pub struct Placing {
    pub rank: Vec<u8>,
    pub moved: u64,
    pub part_price: Vec<i64>,
    pub rank_price: Vec<i64>,
}

pub struct Plan {
    pub part: Vec<u32>,
    pub greatest: u64,
    pub cut: Proof,
    pub placing: Placing,
}

/// The children of each row: those of row i are `list[at[i]..at[i + 1]]`.
struct Children {
    at: Vec<u32>,
    list: Vec<u32>,
}

fn children(rows: &[Row]) -> Children {
    let n = rows.len();
    let mut at = vec![0; n + 1];
    for row in &rows[1..] {
        at[row.parent as usize + 1] += 1;
    }
    for i in 0..n {
        at[i + 1] += at[i];
    }
    let (mut list, mut put) = (vec![0; n - 1], at.clone());
    for (i, row) in rows.iter().enumerate().skip(1) {
        let place = &mut put[row.parent as usize];
        list[*place as usize] = i as u32;
        *place += 1;
    }
    Children { at, list }
}

/// One walk for one bound: the greatest part where there are no more than `ranks`, else the least bound that cuts less.
fn probe(rows: &[Row], kin: &Children, bound: u64, ranks: usize, rest: &mut [u64], hot: &mut Vec<u64>) -> Result<u64, u64> {
    let (mut cuts, mut greatest, mut next) = (0, 0, u64::MAX);
    for (rest, row) in rest.iter_mut().zip(rows) {
        *rest = row.heat;
    }
    for i in (0..rows.len()).rev() {
        let mut sum = rest[i];
        if sum > bound {
            hot.clear();
            hot.extend(kin.list[kin.at[i] as usize..kin.at[i + 1] as usize].iter().map(|c| !rest[*c as usize]));
            if hot.len() > ranks {
                hot.select_nth_unstable(ranks);
                hot.truncate(ranks);
            }
            hot.sort_unstable();
            for piece in hot.iter().map(|x| !x) {
                next = next.min(sum);
                sum -= piece;
                cuts += 1;
                greatest = greatest.max(piece);
                if cuts >= ranks {
                    return Err(next);
                }
                if sum <= bound {
                    break;
                }
            }
            rest[i] = sum;
        }
        if i > 0 {
            rest[rows[i].parent as usize] += sum;
        }
    }
    Ok(greatest.max(rest[0]))
}

/// The least greatest heat, by bounds that gallop and then halve.
fn least_greatest(problem: &Problem) -> u64 {
    let rows = &problem.rows;
    let kin = children(rows);
    let (mut rest, mut hot) = (vec![0; rows.len()], vec![]);
    let mut high: u64 = rows.iter().map(|row| row.heat).sum();
    let mut low = rows.iter().map(|row| row.heat).max().unwrap().max(high.div_ceil(problem.ranks as u64));
    let (mut step, mut galloping) = (0, true);
    while low < high {
        let mut bound = low + (high - low) / 2;
        if galloping && low + step < high {
            bound = low + step;
            step = if step == 0 { (low / 32).max(1) } else { step * 2 };
        } else {
            galloping = false;
        }
        match probe(rows, &kin, bound, problem.ranks, &mut rest, &mut hot) {
            Ok(greatest) => {
                high = greatest.max(low);
                galloping = false;
            }
            Err(next) => low = next,
        }
    }
    high
}

#[derive(Clone, Copy, Default)]
pub struct TableRow {
    pub rest: u64,
    pub price: u64,
    pub cuts: u32,
    pub cut: bool,
}

/// The children of row i are `first[i]` and then the `next` of each, up to 0.
struct Links {
    first: Vec<u32>,
    next: Vec<u32>,
}

/// Cuts off children of row i, the hottest first, among equals the smaller row, until the rest is within the bound. Returns
/// the rest, and the heat of the last that was cut off. `hot` is room for the children.
fn cut_children(
    table: &mut [TableRow],
    links: &Links,
    hot: &mut Vec<(u64, u32)>,
    i: usize,
    mut rest: u64,
    bound: u64,
) -> (u64, u64) {
    hot.clear();
    let mut child = links.first[i];
    while child != 0 {
        hot.push((table[child as usize].rest, !child));
        child = links.next[child as usize];
    }
    let (mut at, mut sorted, mut coolest) = (0, 0, 0);
    while rest > bound {
        if at == sorted {
            sorted = (at + 64).min(hot.len());
            if sorted < hot.len() {
                hot[at..].select_nth_unstable_by(sorted - at, |x, y| y.cmp(x));
            }
            hot[at..sorted].sort_unstable_by(|x, y| y.cmp(x));
        }
        let (piece, child) = hot[at];
        at += 1;
        table[!child as usize].cut = true;
        table[i].cuts += 1;
        rest -= piece;
        coolest = piece;
    }
    (rest, coolest)
}

/// Rests, prices and cuts against the bound.
fn table(rows: &[Row], bound: u64) -> Vec<TableRow> {
    let n = rows.len();
    let mut table: Vec<TableRow> = rows.iter().map(|row| TableRow { rest: row.heat, ..Default::default() }).collect();
    for i in (1..n).rev() {
        table[rows[i].parent as usize].rest += table[i].rest;
    }
    let (mut first, mut next) = (vec![0u32; n], vec![0u32; n]);
    for i in (1..n).rev() {
        let parent = rows[i].parent as usize;
        if table[parent].rest > bound {
            next[i] = first[parent];
            first[parent] = i as u32;
        }
    }
    let links = Links { first, next };
    let (mut lost, mut hot) = (vec![0u64; n], vec![]);
    for i in (0..n).rev() {
        let mut coolest = 0;
        let whole = table[i].rest;
        if whole > bound {
            let mut rest = whole - lost[i];
            if rest > bound {
                let before = rest;
                (rest, coolest) = cut_children(&mut table, &links, &mut hot, i, rest, bound);
                lost[i] += before - rest;
            }
            table[i].rest = rest;
        }
        if coolest > 0 {
            table[i].price = coolest;
        }
        if i > 0 {
            let parent = rows[i].parent as usize;
            let TableRow { rest, cuts, .. } = table[i];
            lost[parent] += lost[i];
            table[parent].cuts += cuts;
            table[parent].price = table[parent].price.max(rest);
        }
    }
    table
}

fn parts(rows: &[Row], table: &[TableRow]) -> (Vec<u32>, usize) {
    let (mut part, mut count) = (Vec::with_capacity(rows.len()), 1);
    part.push(0);
    for i in 1..rows.len() {
        if table[i].cut {
            part.push(count);
            count += 1;
        } else {
            part.push(part[rows[i].parent as usize]);
        }
    }
    (part, count as usize)
}

/// Greatest heat, parts, their number, and why no division is cooler.
fn search(problem: &Problem) -> (u64, Vec<u32>, usize, Proof) {
    let rows = &problem.rows;
    let greatest = least_greatest(problem);
    let (part, count) = parts(rows, &table(rows, greatest));
    let proof = match rows.iter().position(|row| row.heat == greatest) {
        _ if greatest == 0 => Proof::Zero,
        Some(row) => Proof::Heavy(row as u32),
        None => Proof::Table(table(rows, greatest - 1)),
    };
    (greatest, part, count, proof)
}

/// What each part moves at each rank, part by part.
fn costs(rows: &[Row], part: &[u32], count: usize, ranks: usize) -> Vec<u64> {
    let mut own = vec![0u64; count * 64];
    for (row, p) in rows.iter().zip(part) {
        own[*p as usize * 64 + row.now as usize] += row.inodes as u64;
    }
    let mut cells = Vec::with_capacity(count * ranks);
    for own in own.chunks_exact(64) {
        let total: u64 = own.iter().sum();
        cells.extend(own[..ranks].iter().map(|own| total - own));
    }
    cells
}

/// Shortest augmenting paths with prices, after a greedy start at the least cell of each part.
fn assign(cells: &[u64], count: usize, ranks: usize) -> Placing {
    let cell = |part: usize, rank: usize| cells[part * ranks + rank] as i64;
    let mut part_price: Vec<i64> = cells.chunks_exact(ranks).map(|row| *row.iter().min().unwrap() as i64).collect();
    let mut rank_price = vec![0; ranks];
    let (mut owner, mut place) = (vec![usize::MAX; ranks], vec![usize::MAX; count]);
    for part in 0..count {
        if let Some(rank) = (0..ranks).find(|rank| owner[*rank] == usize::MAX && cell(part, *rank) == part_price[part]) {
            owner[rank] = part;
            place[part] = rank;
        }
    }
    let (mut near, mut from, mut seen) = (vec![0; ranks], vec![0; ranks], vec![false; ranks]);
    let mut scanned = Vec::with_capacity(ranks);
    for new in 0..count {
        if place[new] != usize::MAX {
            continue;
        }
        for rank in 0..ranks {
            near[rank] = cell(new, rank) - part_price[new] - rank_price[rank];
            from[rank] = new;
            seen[rank] = false;
        }
        scanned.clear();
        let mut end = loop {
            let best = (0..ranks).filter(|rank| !seen[*rank]).min_by_key(|rank| near[*rank]).unwrap();
            if owner[best] == usize::MAX {
                break best;
            }
            seen[best] = true;
            scanned.push(best);
            let part = owner[best];
            let base = near[best] - part_price[part];
            for rank in 0..ranks {
                let far = base + cell(part, rank) - rank_price[rank];
                if !seen[rank] && far < near[rank] {
                    near[rank] = far;
                    from[rank] = part;
                }
            }
        };
        let far = near[end];
        part_price[new] += far;
        for rank in &scanned {
            rank_price[*rank] -= far - near[*rank];
            part_price[owner[*rank]] += far - near[*rank];
        }
        loop {
            let part = from[end];
            owner[end] = part;
            std::mem::swap(&mut place[part], &mut end);
            if part == new {
                break;
            }
        }
    }
    let moved = (0..count).map(|part| cell(part, place[part]) as u64).sum();
    Placing { rank: place.iter().map(|rank| *rank as u8).collect(), moved, part_price, rank_price }
}

pub fn solve(problem: &Problem) -> Plan {
    let (greatest, part, count, cut) = search(problem);
    let cells = costs(&problem.rows, &part, count, problem.ranks);
    Plan { placing: assign(&cells, count, problem.ranks), part, greatest, cut }
}
