//! Families of flat plans.

use crate::edit::{flips_towards, lists, random_dart, random_flips, split_edge, split_face, third};
use crate::{Random, Rings};

/// Trench A of the specification.
pub fn trench_a() -> Rings {
    vec![
        vec![1, 4, 3],
        vec![2, 4, 0],
        vec![3, 4, 1],
        vec![0, 4, 2],
        vec![0, 1, 2, 3],
    ]
}

/// Trench B of the specification.
pub fn trench_b() -> Rings {
    vec![
        vec![1, 5, 3],
        vec![2, 4, 5, 0],
        vec![3, 4, 1],
        vec![0, 5, 4, 2],
        vec![5, 1, 2, 3],
        vec![0, 1, 4, 3],
    ]
}

/// Trench C of the specification.
pub fn trench_c() -> Rings {
    vec![
        vec![1, 5, 4, 3],
        vec![2, 4, 5, 0],
        vec![3, 4, 1],
        vec![0, 4, 2],
        vec![0, 5, 1, 2, 3],
        vec![0, 1, 4],
    ]
}

/// Splits random edges until there are n contexts; no three mutual neighbours around no face.
fn grow(rings: &mut Rings, n: usize, random: &mut Random) {
    while rings.len() < n {
        if let Some((u, v)) = random_dart(rings, random) {
            if !lists(rings, third(rings, u, v), third(rings, v, u)) {
                split_edge(rings, u, v);
            }
        }
    }
}

/// A random plan of n contexts in which all mutual neighbours are inner faces.
pub fn irreducible(n: usize, random: &mut Random) -> Rings {
    let mut rings = trench_a();
    let half = random.between(5, n);
    grow(&mut rings, half, random);
    let tries = random.below(8 * n);
    random_flips(&mut rings, tries, true, random);
    grow(&mut rings, n, random);
    let tries = random.below(16 * n);
    random_flips(&mut rings, tries, true, random);
    rings
}

/// As [`irreducible`], with one or more contexts of many neighbours.
pub fn irreducible_with_hubs(n: usize, random: &mut Random) -> Rings {
    let mut rings = irreducible(n, random);
    for _ in 0..random.between(1, 3) {
        let hub = random.below(n) as u16;
        flips_towards(&mut rings, hub, 6 * n, true, random);
    }
    rings
}

/// A random plan of n contexts, at least 6, most often with mutual neighbours that are no face.
pub fn reducible(n: usize, random: &mut Random) -> Rings {
    let base = random.between(5, n - 1);
    let mut rings = irreducible(base, random);
    while rings.len() < n {
        if let Some((u, v)) = random_dart(&rings, random) {
            split_face(&mut rings, u, v);
        }
    }
    let tries = random.below(4 * n);
    match random.below(3) {
        0 => random_flips(&mut rings, tries, false, random),
        1 => {
            let hub = random.below(n) as u16;
            flips_towards(&mut rings, hub, tries, false, random);
        }
        _ => {}
    }
    rings
}

/// A column of inner contexts from North down to South, each a neighbour of West and East.
pub fn column(n: usize) -> Rings {
    let last = n as u16 - 1;
    let mut rings = vec![
        vec![1, 4, 3],
        [vec![2], (4..=last).rev().collect(), vec![0]].concat(),
        vec![3, last, 1],
        [vec![0], (4..=last).collect(), vec![2]].concat(),
    ];
    for u in 4..=last {
        let above = if u == 4 { 0 } else { u - 1 };
        let below = if u == last { 2 } else { u + 1 };
        rings.push(vec![above, 1, below, 3]);
    }
    rings
}

/// A hub inside a closed chain of n − 5 contexts, n at least 9, shared out between the borders.
pub fn wheel(n: usize, random: &mut Random) -> Rings {
    let rim = n - 5;
    let mut corners = corners_of(rim, random);
    corners.push(rim);
    let at = |index: usize| 5 + (index % rim) as u16;
    // The rim runs clockwise. Side b goes from corner b to corner b + 1.
    let mut rings: Rings = vec![Vec::new(); n];
    for side in 0..4u16 {
        let b = side as usize;
        rings[b].push((side + 1) % 4);
        let span = (corners[b]..=corners[b + 1]).rev();
        rings[b].extend(span.map(at));
        rings[b].push((side + 3) % 4);
    }
    for index in 0..rim {
        let side = (0..4).find(|&b| index < corners[b + 1]).unwrap_or(3);
        let ring = &mut rings[5 + index];
        if index == corners[side] {
            ring.push((side as u16 + 3) % 4);
        }
        ring.extend([side as u16, at(index + 1), 4, at(index + rim - 1)]);
    }
    rings[4] = (0..rim).map(at).collect();
    rings
}

/// Four different rim indices, the first one 0, rising.
fn corners_of(rim: usize, random: &mut Random) -> Vec<usize> {
    let mut others: Vec<usize> = (1..rim).collect();
    random.shuffle(&mut others);
    let mut corners = vec![0];
    corners.extend_from_slice(&others[..3]);
    corners.sort();
    corners
}

/// One context over a row of contexts, with a column between it and West that has to be swept
/// first: a search for pairs from the right fails over the whole row before each step.
///
/// n = 5 + column + row, both at least 1.
pub fn fan_behind_column(column: usize, row: usize) -> Rings {
    let top = 4;
    let c = |index: usize| 5 + index as u16;
    let r = |index: usize| (5 + column + index) as u16;
    let mut rings = vec![vec![1, top, c(0), 3]];
    rings.push(vec![2, r(row - 1), top, 0]);
    rings.push([vec![3], (0..row).map(r).collect(), vec![1]].concat());
    rings.push([vec![0], (0..column).map(c).collect(), vec![r(0), 2]].concat());
    let row_then_column = (0..row).rev().map(r).chain((0..column).rev().map(c));
    rings.push([vec![0, 1], row_then_column.collect()].concat());
    for index in 0..column {
        let above = if index == 0 { 0 } else { c(index - 1) };
        let below = if index + 1 == column {
            r(0)
        } else {
            c(index + 1)
        };
        rings.push(vec![above, top, below, 3]);
    }
    for index in 0..row {
        let right = if index + 1 == row { 1 } else { r(index + 1) };
        let mut ring = vec![top, right, 2];
        ring.push(if index == 0 { 3 } else { r(index - 1) });
        if index == 0 {
            ring.push(c(column - 1));
        }
        rings.push(ring);
    }
    rings
}
