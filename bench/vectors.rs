//! vectors.rattle, and the calls that it times, in plain Rust.

use std::cmp::Ordering;
use std::time::Instant;

const VARIABLES: usize = 48;
const DEGREE: u32 = 60_000;
const COEFFICIENT: u128 = i128::MAX as u128;
const TERMS: usize = 50_000;

#[derive(Clone, Copy, PartialEq, Eq, PartialOrd, Ord)]
struct Mono {
    total: u32,
    exponents: [u16; VARIABLES],
}

impl Mono {
    fn one() -> Mono {
        Mono { total: 0, exponents: [0; VARIABLES] }
    }

    fn of_exponents(p: &[i32]) -> Option<Mono> {
        let mut m = Mono::one();
        for (g, x) in p.iter().enumerate() {
            m.total += x.unsigned_abs();
            m.exponents[2 * g + usize::from(*x < 0)] = x.unsigned_abs() as u16;
        }
        Some(m)
    }

    fn exp(&self, at: u8) -> u16 {
        self.exponents[at as usize]
    }

    fn compare(&self, other: &Mono) -> Ordering {
        self.cmp(other)
    }

    fn divides(&self, other: &Mono) -> bool {
        let mut all = true;
        for i in 0..VARIABLES {
            all &= self.exponents[i] <= other.exponents[i];
        }
        all
    }

    fn product(&self, other: &Mono) -> Mono {
        let mut exponents = [0; VARIABLES];
        for i in 0..VARIABLES {
            exponents[i] = self.exponents[i] + other.exponents[i];
        }
        Mono { total: self.total + other.total, exponents }
    }

    fn times(&self, other: &Mono) -> Option<Mono> {
        if self.total + other.total > DEGREE {
            return None;
        }
        Some(self.product(other))
    }

    fn lcm(&self, other: &Mono) -> Option<Mono> {
        let mut exponents = [0; VARIABLES];
        for i in 0..VARIABLES {
            exponents[i] = self.exponents[i].max(other.exponents[i]);
        }
        let mut total = 0;
        for x in &exponents {
            total += u32::from(*x);
        }
        if total > DEGREE {
            return None;
        }
        Some(Mono { total, exponents })
    }
}

#[derive(Clone, Copy, PartialEq, Eq, PartialOrd, Ord)]
struct Place {
    m: Mono,
    c: u8,
}

#[derive(Clone, Copy)]
struct Term {
    at: Place,
    k: i128,
}

fn in_range(z: Option<i128>) -> Option<i128> {
    z.filter(|z| z.unsigned_abs() <= COEFFICIENT)
}

/// How many terms at the front of `v` stand above `at`, and whether the next one stands at `at`.
fn meet(v: &[Term], at: &Place) -> (usize, bool) {
    let mut above = 0;
    for u in v {
        match u.at.cmp(at) {
            Ordering::Greater => above += 1,
            Ordering::Equal => return (above, true),
            Ordering::Less => return (above, false),
        }
    }
    (above, false)
}

fn difference(v: &[Term], q: i128, t: &Mono, g: &[Term]) -> Option<Vec<Term>> {
    let mut made = Vec::with_capacity(v.len() + g.len());
    let mut rest = v;
    for term in g {
        let at = Place { m: t.product(&term.at.m), c: term.at.c };
        let (above, met) = meet(rest, &at);
        let (front, from) = rest.split_at(above);
        made.extend_from_slice(front);
        let before = match from.split_first() {
            Some((first, behind)) if met => {
                rest = behind;
                first.k
            }
            _ => {
                rest = from;
                0
            }
        };
        let product = in_range(q.checked_mul(term.k))?;
        let k = in_range(before.checked_sub(product))?;
        if k != 0 {
            made.push(Term { at, k });
        }
    }
    made.extend_from_slice(rest);
    if made.len() > TERMS { None } else { Some(made) }
}

fn coefficient(v: &[Term], at: &Place) -> i128 {
    match v.binary_search_by(|t| at.cmp(&t.at)) {
        Ok(found) => v[found].k,
        Err(_) => 0,
    }
}

fn from_terms(list: &[Term]) -> Option<Vec<Term>> {
    let mut sorted = list.to_vec();
    sorted.sort_by(|a, b| b.at.cmp(&a.at));
    let mut made = Vec::with_capacity(sorted.len());
    let mut rest = sorted.as_slice();
    while let Some((first, others)) = rest.split_first() {
        let at = first.at;
        let count = others.iter().take_while(|u| u.at == at).count();
        let (same, behind) = others.split_at(count);
        let mut low = first.k;
        let mut high: i64 = 0;
        for t in same {
            let (sum, carried) = low.overflowing_add(t.k);
            low = sum;
            if carried {
                high += if t.k < 0 { -1 } else { 1 };
            }
        }
        if high != 0 || low.unsigned_abs() > COEFFICIENT {
            return None;
        }
        if low != 0 {
            made.push(Term { at, k: low });
        }
        rest = behind;
    }
    if made.len() > TERMS { None } else { Some(made) }
}

struct Draws {
    state: u64,
}

impl Draws {
    fn draw(&mut self) -> u32 {
        self.state = self.state.wrapping_mul(6364136223846793005).wrapping_add(1442695040888963407);
        (self.state >> 33) as u32
    }
}

fn monomial(draws: &mut Draws) -> Mono {
    let mut p = [0i32; 12];
    for x in p.iter_mut() {
        *x = (draws.draw() % 7) as i32 - 3;
    }
    Mono::of_exponents(&p).unwrap_or(Mono::one())
}

fn level(draws: &mut Draws) -> Mono {
    let mut p = [1i32; 24];
    if draws.draw() % 2 == 0 {
        p[22] = -1;
    }
    if draws.draw() % 2 == 0 {
        p[23] = -1;
    }
    Mono::of_exponents(&p).unwrap_or(Mono::one())
}

fn levels(count: u32, draws: &mut Draws) -> Vec<Mono> {
    (0..count).map(|_| level(draws)).collect()
}

fn monomials(count: u32, draws: &mut Draws) -> Vec<Mono> {
    (0..count).map(|_| monomial(draws)).collect()
}

fn terms(count: u32, draws: &mut Draws) -> Vec<Term> {
    let mut list = Vec::new();
    for _ in 0..count {
        let at = Place { m: monomial(draws), c: (draws.draw() % 24) as u8 };
        list.push(Term { at, k: i128::from(draws.draw()) - 1_000_000_000 });
    }
    list
}

fn mixed(list: &[Term], t: &Mono, draws: &mut Draws) -> Vec<Term> {
    let mut made = Vec::new();
    for u in list {
        let mut at = u.at;
        if draws.draw() % 2 == 0 {
            at.m = t.times(&u.at.m).unwrap_or(*t);
        } else {
            at.m = monomial(draws);
        }
        made.push(Term { at, k: u.k });
    }
    made
}

/// The list without its first few, so that no two rounds in a row are the same.
fn from(list: &[Mono], round: u32) -> &[Mono] {
    list.get((round % 8) as usize..).unwrap_or(list)
}

fn compares(list: &[Mono], others: &[Mono], rounds: u32) -> u64 {
    let mut found: u64 = 0;
    for round in 0..rounds {
        for (a, b) in list.iter().zip(from(others, round)) {
            if a.compare(b).is_lt() {
                found = found.wrapping_add(1);
            }
        }
    }
    found
}

fn divides(list: &[Mono], others: &[Mono], rounds: u32) -> u64 {
    let mut found: u64 = 0;
    for round in 0..rounds {
        for (a, b) in list.iter().zip(from(others, round)) {
            if a.divides(b) {
                found = found.wrapping_add(1);
            }
        }
    }
    found
}

fn times(list: &[Mono], others: &[Mono], rounds: u32) -> u64 {
    let mut found: u64 = 0;
    for round in 0..rounds {
        for (a, b) in list.iter().zip(from(others, round)) {
            if let Some(m) = a.times(b) {
                found = found.wrapping_add(u64::from(m.exp((round % 48) as u8)));
            }
        }
    }
    found
}

fn lcms(list: &[Mono], others: &[Mono], rounds: u32) -> u64 {
    let mut found: u64 = 0;
    for round in 0..rounds {
        for (a, b) in list.iter().zip(from(others, round)) {
            if let Some(m) = a.lcm(b) {
                found = found.wrapping_add(u64::from(m.exp((round % 48) as u8)));
            }
        }
    }
    found
}

fn differences(v: &[Term], t: &Mono, g: &[Term], rounds: u32) -> u64 {
    let mut found: u64 = 0;
    for i in 0..rounds {
        if let Some(w) = difference(v, i128::from(i % 3) - 1, t, g) {
            found = found.wrapping_add(w.len() as u64);
        }
    }
    found
}

fn coefficients(v: &[Term], g: &[Term], rounds: u32) -> u64 {
    let mut found: u64 = 0;
    for _ in 0..rounds {
        for u in g {
            if coefficient(v, &u.at) != 0 {
                found = found.wrapping_add(1);
            }
        }
    }
    found
}

fn sums(list: &[Term], rounds: u32) -> u64 {
    let mut found: u64 = 0;
    for _ in 0..rounds {
        if let Some(w) = from_terms(list) {
            found = found.wrapping_add(w.len() as u64);
        }
    }
    found
}

fn lap(name: &str, start: Instant, found: u64) {
    println!("{name} {} {found}", start.elapsed().as_nanos());
}

fn of_monomials() {
    let mut draws = Draws { state: 1 };
    let list = monomials(1000, &mut draws);
    let mut others = monomials(1000, &mut draws);
    for (a, b) in list.iter().zip(others.iter_mut()) {
        if draws.draw() % 2 == 0 {
            *b = a.times(b).unwrap_or(*a);
        }
    }
    let start = Instant::now();
    let found = compares(&list, &others, 2000);
    lap("compare", start, found);
    let near = levels(1000, &mut draws);
    let start = Instant::now();
    let found = compares(&near, &near, 2000);
    lap("compare_near", start, found);
    let start = Instant::now();
    let found = divides(&list, &others, 2000);
    lap("divides", start, found);
    let start = Instant::now();
    let found = times(&list, &others, 2000);
    lap("times", start, found);
    let start = Instant::now();
    let found = lcms(&list, &others, 2000);
    lap("lcm", start, found);
}

fn of_vectors(count: u32, rounds: u32) {
    let mut draws = Draws { state: 2 };
    let t = monomial(&mut draws);
    let few = terms(count, &mut draws);
    let more = mixed(&few, &t, &mut draws);
    let (Some(g), Some(v)) = (from_terms(&few), from_terms(&more)) else {
        return;
    };
    let start = Instant::now();
    let found = differences(&v, &t, &g, rounds);
    lap("sub_multiple", start, found);
    let start = Instant::now();
    let found = coefficients(&v, &v, rounds / 10 + 1);
    lap("coefficient", start, found);
    let start = Instant::now();
    let found = sums(&more, rounds / 10 + 1);
    lap("from_terms", start, found);
}

fn main() {
    for _ in 0..5 {
        of_monomials();
        of_vectors(100, 20_000);
        of_vectors(1_000, 2_000);
        of_vectors(10_000, 200);
    }
}
