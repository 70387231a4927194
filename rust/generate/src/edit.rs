//! Small changes to tables of rings that keep the plan rules, apart from the total.

use crate::{Random, Rings};

/// Whether u lists v.
pub fn lists(rings: &Rings, u: u16, v: u16) -> bool {
    rings[u as usize].contains(&v)
}

/// The index of `v` in u's ring. It must be there.
fn index(rings: &Rings, u: u16, v: u16) -> usize {
    let found = rings[u as usize].iter().position(|&entry| entry == v);
    found.expect("neighbours")
}

/// The entry after `v` in u's ring, the ring closing on itself.
pub fn entry_after(rings: &Rings, u: u16, v: u16) -> u16 {
    let ring = &rings[u as usize];
    ring[(index(rings, u, v) + 1) % ring.len()]
}

/// The third context of the face of the dart from u to v.
pub fn third(rings: &Rings, u: u16, v: u16) -> u16 {
    entry_after(rings, v, u)
}

/// Puts `new` after `v` in u's ring.
fn insert_after(rings: &mut Rings, u: u16, v: u16, new: u16) {
    let at = index(rings, u, v) + 1;
    rings[u as usize].insert(at, new);
}

/// Puts `new` in the place of `v` in u's ring.
fn replace_entry(rings: &mut Rings, u: u16, v: u16, new: u16) {
    let at = index(rings, u, v);
    rings[u as usize][at] = new;
}

/// The number of common neighbours.
fn common_neighbours(rings: &Rings, a: u16, b: u16) -> usize {
    let ring = rings[a as usize].iter();
    ring.filter(|&&c| lists(rings, b, c)).count()
}

/// Whether a contact of a and b can be added: they are different, no neighbours and not both on
/// the border.
pub fn may_touch(rings: &Rings, a: u16, b: u16) -> bool {
    a != b && !(a < 4 && b < 4) && !lists(rings, a, b)
}

/// Puts a new context on the inner edge between u and v, joined to the four contexts around it.
pub fn split_edge(rings: &mut Rings, u: u16, v: u16) {
    let (a, b) = (third(rings, u, v), third(rings, v, u));
    let new = rings.len() as u16;
    replace_entry(rings, u, v, new);
    replace_entry(rings, v, u, new);
    insert_after(rings, a, v, new);
    insert_after(rings, b, u, new);
    rings.push(vec![u, a, v, b]);
}

/// Puts a new context into the face of the dart from u to v, joined to its three contexts.
pub fn split_face(rings: &mut Rings, u: u16, v: u16) {
    let w = third(rings, u, v);
    let new = rings.len() as u16;
    insert_after(rings, u, w, new);
    insert_after(rings, v, u, new);
    insert_after(rings, w, v, new);
    rings.push(vec![u, w, v]);
}

/// Replaces the inner edge between u and v by the other diagonal of its two faces, if that gives a
/// plan; with `irreducible` only if no three mutual neighbours around no face come of it.
pub fn flip(rings: &mut Rings, u: u16, v: u16, irreducible: bool) -> bool {
    let (a, b) = (third(rings, u, v), third(rings, v, u));
    if u < 4 && v < 4 || !may_touch(rings, a, b) {
        return false;
    }
    if irreducible && common_neighbours(rings, a, b) != 2 {
        return false;
    }
    rings[u as usize].retain(|&entry| entry != v);
    rings[v as usize].retain(|&entry| entry != u);
    insert_after(rings, a, v, b);
    insert_after(rings, b, u, a);
    true
}

/// A random dart that leaves an inner context, if the one looked at has any.
pub fn random_dart(rings: &Rings, random: &mut Random) -> Option<(u16, u16)> {
    let u = random.between(4, rings.len() - 1) as u16;
    let ring = &rings[u as usize];
    (!ring.is_empty()).then(|| (u, ring[random.below(ring.len())]))
}

/// Tries random flips.
pub fn random_flips(rings: &mut Rings, tries: usize, irreducible: bool, random: &mut Random) {
    for _ in 0..tries {
        if let Some((u, v)) = random_dart(rings, random) {
            flip(rings, u, v, irreducible);
        }
    }
}

/// Tries random flips that give `hub` more neighbours.
pub fn flips_towards(
    rings: &mut Rings,
    hub: u16,
    tries: usize,
    irreducible: bool,
    random: &mut Random,
) {
    for _ in 0..tries {
        let v = *random.pick(&rings[hub as usize]);
        let w = entry_after(rings, hub, v);
        if lists(rings, v, w) {
            flip(rings, v, w, irreducible);
        }
    }
}

/// Gives context u the number `numbers[u]`.
pub fn renumber(rings: &Rings, numbers: &[u16]) -> Rings {
    let mut changed = vec![Vec::new(); rings.len()];
    for (u, ring) in rings.iter().enumerate() {
        let entries = ring.iter().map(|&v| numbers[v as usize]);
        changed[numbers[u] as usize] = entries.collect();
    }
    changed
}

/// Numbers the inner contexts anew at random.
pub fn renumber_inner(rings: &Rings, random: &mut Random) -> Rings {
    let mut numbers: Vec<u16> = (0..rings.len() as u16).collect();
    random.shuffle(&mut numbers[4..]);
    renumber(rings, &numbers)
}

/// Numbers the inner contexts backwards.
pub fn renumber_backwards(rings: &Rings) -> Rings {
    let mut numbers: Vec<u16> = (0..rings.len() as u16).collect();
    numbers[4..].reverse();
    renumber(rings, &numbers)
}

/// Lets each inner ring begin anywhere.
pub fn rotate_inner(rings: &mut Rings, random: &mut Random) {
    for ring in rings.iter_mut().skip(4).filter(|ring| !ring.is_empty()) {
        let by = random.below(ring.len());
        ring.rotate_left(by);
    }
}

/// Turns the plan by a quarter: North becomes East, East South, and so on.
pub fn quarter_turn(rings: &Rings) -> Rings {
    let numbers: Vec<u16> = (0..rings.len() as u16)
        .map(|u| if u < 4 { (u + 1) % 4 } else { u })
        .collect();
    renumber(rings, &numbers)
}

/// Exchanges left and right.
pub fn mirror(rings: &Rings) -> Rings {
    let mut numbers: Vec<u16> = (0..rings.len() as u16).collect();
    numbers.swap(1, 3);
    let mut changed = renumber(rings, &numbers);
    changed.iter_mut().for_each(|ring| ring.reverse());
    changed
}

/// One of the eight symmetries of the border, then new inner numbers and ring starts.
pub fn disguise(rings: &Rings, random: &mut Random) -> Rings {
    let mut changed = if random.once_in(2) {
        mirror(rings)
    } else {
        rings.clone()
    };
    for _ in 0..random.below(4) {
        changed = quarter_turn(&changed);
    }
    changed = renumber_inner(&changed, random);
    rotate_inner(&mut changed, random);
    changed
}
