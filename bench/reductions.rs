//! The cases of reductions.rattle in plain Rust: as the crate does it, by an ordered map of the changed places beside the
//! terms that were given; by an ordered map of the whole vector, which each step changes in place; and by a sorted vector,
//! which each step merges with the multiple anew.

use std::cmp::Ordering;
use std::collections::BTreeMap;
use std::time::Instant;

#[derive(Clone, Copy, PartialEq, Eq)]
struct Mono {
    degree: u32,
    exponents: [u16; 48],
}

impl Mono {
    fn divides(&self, other: &Mono) -> bool {
        let mut all = true;
        for i in 0..48 {
            all &= self.exponents[i] <= other.exponents[i];
        }
        all
    }

    fn product(&self, other: &Mono) -> Mono {
        let mut made = *self;
        for i in 0..48 {
            made.exponents[i] += other.exponents[i];
        }
        made.degree += other.degree;
        made
    }

    fn quotient(&self, by: &Mono) -> Mono {
        let mut made = *self;
        for i in 0..48 {
            made.exponents[i] -= by.exponents[i];
        }
        made.degree -= by.degree;
        made
    }

    fn powers(list: &[(usize, u16)]) -> Mono {
        let mut made = Mono { degree: 0, exponents: [0; 48] };
        for (at, exponent) in list {
            made.exponents[*at] += exponent;
            made.degree += u32::from(*exponent);
        }
        made
    }
}

#[derive(Clone, Copy, PartialEq, Eq)]
struct Place {
    m: Mono,
    c: u8,
}

impl PartialOrd for Place {
    fn partial_cmp(&self, other: &Place) -> Option<Ordering> {
        Some(self.cmp(other))
    }
}

impl Ord for Place {
    #[inline]
    fn cmp(&self, other: &Place) -> Ordering {
        match self.m.degree.cmp(&other.m.degree) {
            Ordering::Equal => self.m.exponents.cmp(&other.m.exponents).then(self.c.cmp(&other.c)),
            unequal => unequal,
        }
    }
}

#[derive(Clone, Copy)]
struct Term {
    at: Place,
    k: i128,
}

#[derive(Clone, Copy)]
struct Step {
    q: i128,
    t: Mono,
    by: usize,
}

type Answer = Option<(Vec<Term>, Vec<Step>)>;

fn checked_product(a: i128, b: i128) -> Option<i128> {
    a.checked_mul(b).filter(|z| *z != i128::MIN)
}

fn checked_difference(a: i128, b: i128) -> Option<i128> {
    a.checked_sub(b).filter(|z| *z != i128::MIN)
}

fn due(list: &[Vec<Term>], top: &Term) -> Option<Step> {
    let mut best: Option<usize> = None;
    for (by, entry) in list.iter().enumerate() {
        let lead = &entry[0];
        if lead.at.c == top.at.c && lead.at.m.divides(&top.at.m) && best.is_none_or(|b| lead.k < list[b][0].k) {
            best = Some(by);
        }
    }
    let by = best?;
    let lead = &list[by][0];
    let q = top.k.div_euclid(lead.k);
    if q == 0 {
        return None;
    }
    Some(Step { q, t: top.at.m.quotient(&lead.at.m), by })
}

/// The coefficient at the place among terms that fall.
fn coefficient(terms: &[Term], at: &Place) -> i128 {
    match terms.binary_search_by(|t| at.cmp(&t.at)) {
        Ok(i) => terms[i].k,
        Err(_) => 0,
    }
}

/// The greatest place that is given or changed, with its coefficient.
fn pop<'a>(given: &mut &'a [Term], changed: &mut BTreeMap<Place, i128>) -> Option<Term> {
    if let Some((first, others)) = given.split_first() {
        if changed.last_key_value().is_none_or(|(last, _)| first.at > *last) {
            *given = others;
            return Some(*first);
        }
    }
    let (at, k) = changed.pop_last()?;
    if let Some((first, others)) = given.split_first() {
        if first.at == at {
            *given = others;
        }
    }
    Some(Term { at, k })
}

fn by_changes(list: &[Vec<Term>], v: &[Term]) -> Answer {
    let mut given = v;
    let mut changed: BTreeMap<Place, i128> = BTreeMap::new();
    let mut count = v.len();
    let mut rest = Vec::new();
    let mut steps = Vec::new();
    while let Some(top) = pop(&mut given, &mut changed) {
        if top.k == 0 {
            continue;
        }
        count -= 1;
        let Some(step) = due(list, &top) else {
            rest.push(top);
            continue;
        };
        let entry = &list[step.by];
        let left = checked_difference(top.k, checked_product(step.q, entry[0].k)?)?;
        let mut changes = Vec::with_capacity(entry.len() - 1);
        for u in &entry[1..] {
            let at = Place { m: step.t.product(&u.at.m), c: u.at.c };
            let before = match changed.get(&at) {
                Some(k) => *k,
                None => coefficient(given, &at),
            };
            changes.push((at, before, checked_difference(before, checked_product(step.q, u.k)?)?));
        }
        for (at, before, after) in changes {
            changed.insert(at, after);
            count = count + usize::from(after != 0) - usize::from(before != 0);
        }
        if left != 0 {
            rest.push(Term { at: top.at, k: left });
        }
        steps.push(step);
        if steps.len() > 100_000 || rest.len() + count > 50_000 {
            return None;
        }
    }
    Some((rest, steps))
}

fn by_map(list: &[Vec<Term>], v: &[Term]) -> Answer {
    let mut map: BTreeMap<Place, i128> = v.iter().map(|t| (t.at, t.k)).collect();
    let mut rest = Vec::new();
    let mut steps = Vec::new();
    while let Some((at, k)) = map.pop_last() {
        let Some(step) = due(list, &Term { at, k }) else {
            rest.push(Term { at, k });
            continue;
        };
        let entry = &list[step.by];
        let left = checked_difference(k, checked_product(step.q, entry[0].k)?)?;
        for u in &entry[1..] {
            let place = Place { m: step.t.product(&u.at.m), c: u.at.c };
            let product = checked_product(step.q, u.k)?;
            let value = map.entry(place).or_insert(0);
            *value = checked_difference(*value, product)?;
            if *value == 0 {
                map.remove(&place);
            }
        }
        if left != 0 {
            rest.push(Term { at, k: left });
        }
        steps.push(step);
        if steps.len() > 100_000 || rest.len() + map.len() > 50_000 {
            return None;
        }
    }
    Some((rest, steps))
}

/// The terms of `row`, the greatest last, less the multiple.
fn merge(row: &[Term], step: &Step, others: &[Term], made: &mut Vec<Term>) -> Option<()> {
    made.clear();
    let mut i = 0;
    for u in others.iter().rev() {
        let at = Place { m: step.t.product(&u.at.m), c: u.at.c };
        let n = row[i..].iter().take_while(|x| x.at < at).count();
        made.extend_from_slice(&row[i..i + n]);
        i += n;
        let mut before = 0;
        if i < row.len() && row[i].at == at {
            before = row[i].k;
            i += 1;
        }
        let k = checked_difference(before, checked_product(step.q, u.k)?)?;
        if k != 0 {
            made.push(Term { at, k });
        }
    }
    made.extend_from_slice(&row[i..]);
    Some(())
}

fn by_merges(list: &[Vec<Term>], v: &[Term]) -> Answer {
    let mut row: Vec<Term> = v.iter().rev().copied().collect();
    let mut spare = Vec::new();
    let mut rest = Vec::new();
    let mut steps = Vec::new();
    while let Some(top) = row.pop() {
        let Some(step) = due(list, &top) else {
            rest.push(top);
            continue;
        };
        let entry = &list[step.by];
        let left = checked_difference(top.k, checked_product(step.q, entry[0].k)?)?;
        merge(&row, &step, &entry[1..], &mut spare)?;
        std::mem::swap(&mut row, &mut spare);
        if left != 0 {
            rest.push(Term { at: top.at, k: left });
        }
        steps.push(step);
        if steps.len() > 100_000 || rest.len() + row.len() > 50_000 {
            return None;
        }
    }
    Some((rest, steps))
}

struct Draws {
    state: u64,
}

impl Draws {
    fn draw(&mut self) -> u32 {
        self.state = self.state.wrapping_mul(6364136223846793005).wrapping_add(1442695040888963407);
        (self.state >> 33) as u32
    }
}

fn place(draws: &mut Draws, variables: u32, degree: u32) -> Place {
    let mut m = Mono::powers(&[]);
    for _ in 0..degree {
        m.exponents[(draws.draw() % variables) as usize] += 1;
    }
    m.degree = degree;
    Place { m, c: (draws.draw() % 2) as u8 }
}

fn terms(draws: &mut Draws, variables: u32, count: u32, degree: u32) -> Vec<Term> {
    let mut list = Vec::new();
    for _ in 0..count {
        let own = draws.draw() % (degree + 1);
        let at = place(draws, variables, own);
        let k = i128::from(draws.draw() % 9) - 4;
        list.push(Term { at, k });
    }
    list
}

fn vector(mut list: Vec<Term>) -> Vec<Term> {
    list.sort_by(|a, b| b.at.cmp(&a.at));
    let mut made: Vec<Term> = Vec::new();
    for t in list {
        match made.last_mut() {
            Some(last) if last.at == t.at => last.k += t.k,
            _ => made.push(t),
        }
    }
    made.retain(|t| t.k != 0);
    made
}

fn time(reduce: fn(&[Vec<Term>], &[Term]) -> Answer, list: &[Vec<Term>], v: &[Term], rounds: u32) {
    let start = Instant::now();
    let mut found: u64 = 0;
    for _ in 0..rounds {
        if let Some((rest, steps)) = reduce(list, v) {
            let of_steps = steps.iter().filter(|s| s.q != 0).count() as u64 * 100_003;
            found = found.wrapping_add(of_steps).wrapping_add(rest.len() as u64);
        }
    }
    println!("reduce {} {found}", start.elapsed().as_nanos());
}

/// Entries, their terms and the degree of their leads; terms, their degree, variables and rounds.
const CASES: [[u32; 7]; 7] = [
    [2, 4, 3, 10, 6, 4, 20_000],
    [4, 8, 3, 100, 6, 6, 2_500],
    [2, 8, 4, 200, 6, 6, 2_000],
    [4, 8, 3, 1_000, 7, 8, 250],
    [2, 60, 4, 500, 7, 8, 500],
    [2, 8, 4, 2_000, 8, 8, 100],
    [2, 8, 4, 10_000, 9, 10, 20],
];

fn main() {
    let form = std::env::args().nth(1);
    let reduce = match form.as_deref() {
        Some("merges") => by_merges,
        Some("map") => by_map,
        _ => by_changes,
    };
    for _ in 0..3 {
        for [entries, entry_terms, lead_degree, count, degree, variables, rounds] in CASES {
            let mut draws = Draws { state: 1 };
            let mut list = Vec::new();
            for _ in 0..entries {
                let at = place(&mut draws, variables, lead_degree);
                let mut entry = terms(&mut draws, variables, entry_terms - 1, lead_degree - 1);
                entry.push(Term { at, k: 1 });
                list.push(vector(entry));
            }
            let v = vector(terms(&mut draws, variables, count, degree));
            time(reduce, &list, &v, rounds);
        }
        let a = Term { at: Place { m: Mono::powers(&[(0, 1)]), c: 0 }, k: 1 };
        let b = Term { at: Place { m: Mono::powers(&[(2, 1)]), c: 0 }, k: -1 };
        for beside in [0, 200] {
            // Each merge would copy all of the 40,000 terms.
            if beside > 0 && form.as_deref() == Some("merges") {
                println!("reduce 0 none");
                continue;
            }
            let high = (0..333).map(|k| Mono::powers(&[(0, 300), (4, k)]));
            let low = (0..beside).flat_map(|i| (0..beside).map(move |j| Mono::powers(&[(4, i), (6, j)])));
            let all = high.chain(low).map(|m| Term { at: Place { m, c: 0 }, k: 1 });
            time(reduce, &[vec![a, b]], &vector(all.collect()), 1);
        }
    }
}
