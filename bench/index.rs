//! The cases of index.rattle in plain Rust.

use std::time::Instant;

#[derive(Clone, Copy, PartialEq, Eq)]
struct Mono {
    degree: u32,
    exponents: [u16; 48],
}

impl Mono {
    fn of(p: &[i32]) -> Mono {
        let mut made = Mono { degree: 0, exponents: [0; 48] };
        for (g, x) in p.iter().enumerate() {
            let at = if *x < 0 { 2 * g + 1 } else { 2 * g };
            made.exponents[at] = x.unsigned_abs() as u16;
            made.degree += x.unsigned_abs();
        }
        made
    }

    fn divides(&self, other: &Mono) -> bool {
        let mut all = true;
        for i in 0..48 {
            all &= self.exponents[i] <= other.exponents[i];
        }
        all
    }

    fn mask(&self) -> u64 {
        let mut mask = 0;
        for i in 0..48 {
            mask |= u64::from(self.exponents[i] > 0) << i;
        }
        for i in 0..16 {
            mask |= u64::from(self.exponents[i] > 1) << (48 + i);
        }
        mask
    }
}

#[derive(Clone, Copy, PartialEq, Eq)]
struct Place {
    m: Mono,
    c: u8,
}

#[derive(Clone, Copy)]
struct Term {
    at: Place,
    k: i128,
}

struct Candidate {
    coefficient: i128,
    mask: u64,
    number: u32,
    component: u8,
}

struct Draws {
    state: u64,
}

impl Draws {
    fn draw(&mut self) -> u32 {
        self.state = self.state.wrapping_mul(6364136223846793005).wrapping_add(1442695040888963407);
        (self.state >> 33) as u32
    }

    fn place(&mut self, most: u32) -> Place {
        let mut p = [0i32; 6];
        for x in p.iter_mut() {
            *x = (self.draw() % (2 * most + 1)) as i32 - most as i32;
        }
        let m = Mono::of(&p);
        Place { m, c: (self.draw() % 4) as u8 }
    }
}

#[derive(Default)]
struct Index {
    leads: Vec<Term>,
    candidates: Vec<Candidate>,
}

impl Index {
    fn push(&mut self, lead: Term) {
        let new = Candidate {
            coefficient: lead.k,
            mask: lead.at.m.mask(),
            number: self.leads.len() as u32,
            component: lead.at.c,
        };
        let at = self
            .candidates
            .partition_point(|x| (x.component, x.coefficient) <= (new.component, new.coefficient));
        self.candidates.insert(at, new);
        self.leads.push(lead);
    }

    fn find(&self, front: u32, at: &Place) -> Option<u32> {
        let start = self.candidates.partition_point(|x| x.component < at.c);
        let mask = at.m.mask();
        for x in &self.candidates[start..] {
            if x.component != at.c {
                return None;
            }
            if x.number < front && x.mask & mask == x.mask && self.leads[x.number as usize].at.m.divides(&at.m) {
                return Some(x.number);
            }
        }
        None
    }
}

fn scan(list: &[Vec<Term>], front: u32, at: &Place) -> Option<u32> {
    let mut best: Option<(u32, i128)> = None;
    for i in 0..front {
        let lead = &list[i as usize][0];
        if lead.at.c == at.c && lead.at.m.divides(&at.m) && best.is_none_or(|b| lead.k < b.1) {
            best = Some((i, lead.k));
        }
    }
    Some(best?.0)
}

fn finds(find: impl Fn(&Place) -> Option<u32>, places: &[Place], rounds: u32) -> u64 {
    let mut found: u64 = 0;
    for _ in 0..rounds {
        for at in places {
            match find(at) {
                Some(number) => found = found.wrapping_add(u64::from(number)),
                None => found = found.wrapping_add(1_000_003),
            }
        }
    }
    found
}

fn lap(name: &str, start: Instant, found: u64) {
    println!("{name} {} {found}", start.elapsed().as_nanos());
}

fn time(count: u32, rounds: u32) {
    let mut draws = Draws { state: 1 };
    let start = Instant::now();
    let mut list = Vec::new();
    let mut index = Index::default();
    for _ in 0..count {
        let at = draws.place(3);
        let k = i128::from(draws.draw() % 8) + 1;
        list.push(vec![Term { at, k }]);
        index.push(Term { at, k });
    }
    lap("made", start, u64::from(count));
    let places: Vec<Place> = (0..1000).map(|_| draws.place(4)).collect();
    let start = Instant::now();
    let found = finds(|at| scan(&list, count, at), &places, rounds);
    lap("scan", start, found);
    let start = Instant::now();
    let found = finds(|at| index.find(count, at), &places, rounds);
    lap("index", start, found);
}

fn main() {
    for _ in 0..5 {
        time(100, 200);
        time(2_000, 10);
        time(4_000, 10);
    }
}
