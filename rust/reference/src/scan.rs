//! The scan for mutual neighbours that are no inner face.

use crate::types::Plan;

/// A set of contexts, one bit each.
type Set = [u64; 4];

/// The set of one context, for each context.
static ALONE: [Set; 256] = sets_of_one();

/// Works out [`ALONE`].
const fn sets_of_one() -> [Set; 256] {
    let mut sets = [[0; 4]; 256];
    let mut context = 0;
    while context < 256 {
        sets[context][context / 64] = 1 << (context % 64);
        context += 1;
    }
    sets
}

/// The smallest triple, compared by first, second and third number, of mutual neighbours that are
/// no inner face.
pub fn smallest_triple(plan: &Plan) -> Option<[u16; 3]> {
    let rows = neighbour_sets(plan);
    if !(4..plan.n()).any(|a| is_in_triple(plan, &rows, a)) {
        return None;
    }
    (0..plan.n()).find_map(|a| smallest_triple_with(plan, &rows, a))
}

/// The neighbours of each context.
fn neighbour_sets(plan: &Plan) -> Vec<Set> {
    let mut rows = vec![[0; 4]; plan.n()];
    for (u, row) in rows.iter_mut().enumerate() {
        for &v in plan.ring(u) {
            let alone = &ALONE[v as usize];
            (0..4).for_each(|word| row[word] |= alone[word]);
        }
    }
    rows
}

/// Whether an inner context is in a triple of mutual neighbours that are no inner face.
///
/// Each entry of its ring is a neighbour of the entries beside it, which make inner faces. So this
/// asks whether an entry is a neighbour of three entries.
fn is_in_triple(plan: &Plan, rows: &[Set], a: usize) -> bool {
    let row = &rows[a];
    let [mut once, mut twice, mut thrice] = [[0; 4]; 3];
    for &b in plan.ring(a) {
        let others = &rows[b as usize];
        for word in 0..4 {
            let common = row[word] & others[word];
            thrice[word] |= twice[word] & common;
            twice[word] |= once[word] & common;
            once[word] |= common;
        }
    }
    thrice != [0; 4]
}

/// The smallest such triple with context `a`, if all smaller contexts are in none.
fn smallest_triple_with(plan: &Plan, rows: &[Set], a: usize) -> Option<[u16; 3]> {
    let mut pairs: Vec<[u16; 2]> = Vec::new();
    for_each_neighbour(plan.ring(a), |before, b, after| {
        let rest = third_contexts(rows, a, before, b, after);
        if rest != [0; 4] {
            let is_in = |&c: &u16| rest[c as usize / 64] >> (c % 64) & 1 == 1;
            pairs.extend((0..plan.n() as u16).find(is_in).map(|c| [b as u16, c]));
        }
    });
    let &[b, c] = pairs.iter().min()?;
    Some([a as u16, b, c])
}

/// Calls `each` with each entry of a ring and the entries before and after it.
fn for_each_neighbour(ring: &[u8], mut each: impl FnMut(u8, u8, u8)) {
    let [first, middle @ .., last] = ring else {
        return;
    };
    let (mut before, mut entry) = (*last, *first);
    for &after in middle.iter().chain([last, first]) {
        each(before, entry, after);
        (before, entry) = (entry, after);
    }
}

/// The common neighbours of `a` and `b` that make no inner face with them, where `before` and
/// `after` stand beside b in a's ring.
///
/// Neighbours that stand beside each other in a ring make an inner face with its owner. At the
/// ends of a border ring they are opposite border contexts, which are no neighbours.
fn third_contexts(rows: &[Set], a: usize, before: u8, b: u8, after: u8) -> Set {
    let (row_a, row_b) = (&rows[a], &rows[b as usize]);
    let (set_before, set_after) = (&ALONE[before as usize], &ALONE[after as usize]);
    let mut rest = [0; 4];
    for (word, cell) in rest.iter_mut().enumerate() {
        *cell = row_a[word] & row_b[word] & !(set_before[word] | set_after[word]);
    }
    rest
}
