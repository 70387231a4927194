//! Plans that keep rules 4 to 9 without lying flat: tori, handles, closed parts beside the border
//! part, and isolated contexts.

use crate::edit::{entry_after, may_touch, split_face};
use crate::families::{irreducible, reducible, trench_a};
use crate::{Random, Rings};

/// A torus of k contexts, k at least 7, each a neighbour of those 1, 2 and 3 numbers away.
pub fn ring_torus(k: usize) -> Rings {
    let steps = [1, 3, 2, k - 1, k - 3, k - 2];
    let ring = |u: usize| steps.iter().map(|step| ((u + step) % k) as u16).collect();
    (0..k).map(ring).collect()
}

/// A torus of p rows and q columns, both at least 3, with one diagonal in each cell.
pub fn grid_torus(p: usize, q: usize) -> Rings {
    let steps = [
        (1, 0),
        (1, q - 1),
        (0, q - 1),
        (p - 1, 0),
        (p - 1, 1),
        (0, 1),
    ];
    let ring = |u: usize| {
        let (row, column) = (u / q, u % q);
        let entries = steps.iter().map(|&(down, across)| {
            let (row, column) = ((row + down) % p, (column + across) % q);
            (row * q + column) as u16
        });
        entries.collect()
    };
    (0..p * q).map(ring).collect()
}

/// A closed flat part of k contexts, k at least 4.
pub fn closed_part(k: usize, random: &mut Random) -> Rings {
    let mut rings = vec![vec![1, 2, 3], vec![0, 3, 2], vec![0, 1, 3], vec![0, 2, 1]];
    while rings.len() < k {
        let u = random.below(rings.len()) as u16;
        let v = *random.pick(&rings[u as usize]);
        split_face(&mut rings, u, v);
    }
    rings
}

/// Puts a part beside another, its contexts numbered after the others.
pub fn beside(rings: &Rings, part: &Rings) -> Rings {
    let offset = rings.len() as u16;
    let moved = part
        .iter()
        .map(|ring| ring.iter().map(|&v| v + offset).collect());
    rings.iter().cloned().chain(moved).collect()
}

/// Trench D of the specification: A beside the torus of seven contexts.
pub fn trench_d() -> Rings {
    beside(&trench_a(), &ring_torus(7))
}

/// The labels of trench D, all rings in context order.
pub fn trench_d_labels() -> Vec<u8> {
    let mut labels = vec![4, 2, 4, 4, 3, 4, 4, 0, 4, 4, 1, 4, 0, 1, 2, 3];
    for _ in 0..7 {
        labels.extend([0, 0, 1, 2, 2, 3]);
    }
    labels
}

/// Labels for a torus of k contexts of this module that keep the label rules: one of eight ways.
pub fn torus_labels(k: usize, random: &mut Random) -> Vec<u8> {
    let first = random.below(4) as u8;
    let second = first + random.below(2) as u8;
    let half = [first, second, first + 1];
    let ring = half.iter().chain(&half).zip([0, 0, 0, 2, 2, 2]);
    let ring: Vec<u8> = ring.map(|(label, more)| (label + more) % 4).collect();
    ring.repeat(k)
}

/// The contexts of the face of the dart from u to its ring's entry at an index.
fn face_at(rings: &Rings, u: u16, index: usize) -> [u16; 3] {
    let v = rings[u as usize][index];
    [u, v, entry_after(rings, v, u)]
}

/// Replaces two faces by a tube of six faces between them, which adds twelve darts. Does nothing
/// and gives false if they have a context in common or a new contact exists or is barred.
pub fn add_tube(rings: &mut Rings, one: [u16; 3], other: [u16; 3]) -> bool {
    let q = one;
    let p = [other[0], other[2], other[1]];
    let apart = q.iter().all(|u| !p.contains(u));
    let free =
        (0..3).all(|i| may_touch(rings, q[i], p[i]) && may_touch(rings, q[i], p[(i + 1) % 3]));
    if !apart || !free {
        return false;
    }
    for i in 0..3 {
        let (next, before) = ((i + 1) % 3, (i + 2) % 3);
        insert_two(rings, q[i], q[before], [p[i], p[next]]);
        insert_two(rings, p[i], p[next], [q[i], q[before]]);
    }
    true
}

/// Puts two entries after `v` in u's ring.
fn insert_two(rings: &mut Rings, u: u16, v: u16, new: [u16; 2]) {
    let ring = &mut rings[u as usize];
    let at = ring
        .iter()
        .position(|&entry| entry == v)
        .expect("neighbours")
        + 1;
    ring.splice(at..at, new);
}

/// A random inner face that has an inner context.
fn random_face(rings: &Rings, random: &mut Random) -> Option<[u16; 3]> {
    let u = random.between(4, rings.len() - 1) as u16;
    let length = rings[u as usize].len();
    (length > 0).then(|| face_at(rings, u, random.below(length)))
}

/// Tries to add a tube between two random faces.
fn random_tube(rings: &mut Rings, random: &mut Random) -> bool {
    for _ in 0..60 {
        let (one, other) = (random_face(rings, random), random_face(rings, random));
        if let (Some(one), Some(other)) = (one, other) {
            if add_tube(rings, one, other) {
                return true;
            }
        }
    }
    false
}

/// A random torus of at most `most` contexts, at least 7.
fn random_torus(most: usize, random: &mut Random) -> Rings {
    let rows = random.between(3, 5);
    let columns = random.between(3, 5);
    if random.once_in(2) && rows * columns <= most {
        grid_torus(rows, columns)
    } else {
        ring_torus(random.between(7, most.max(7)))
    }
}

/// A random plan of at most `most` contexts, most at least 24: a border part, tori beside it,
/// tubes, and for each tube two isolated contexts or a closed part, so that the total is right.
pub fn random_odd(most: usize, random: &mut Random) -> Rings {
    let base = random.between(6, most - 16);
    let mut rings = if random.once_in(3) {
        reducible(base, random)
    } else {
        irreducible(base, random)
    };
    while rings.len() + 7 + 9 <= most && random.once_in(2) {
        let torus = random_torus(most - 9 - rings.len(), random);
        rings = beside(&rings, &torus);
    }
    while rings.len() + 2 <= most && !random.once_in(3) {
        if !random_tube(&mut rings, random) {
            break;
        }
        let room = most - rings.len();
        if room >= 4 && random.once_in(2) {
            let part = closed_part(random.between(4, room.min(7)), random);
            rings = beside(&rings, &part);
        } else {
            rings.extend([Vec::new(), Vec::new()]);
        }
    }
    rings
}
