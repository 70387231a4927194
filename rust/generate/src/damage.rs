//! Damage to files, rings, label lists and turn lists. What comes out may still be good.

use crate::edit::{lists, random_dart};
use crate::file::{numbers, record, record_offsets};
use crate::{Random, Rings};

/// A file cut at each offset.
pub fn cuts(bytes: &[u8]) -> impl Iterator<Item = &[u8]> {
    (0..bytes.len()).map(|length| &bytes[..length])
}

/// A damaged copy of a well framed file.
pub fn damaged_file(bytes: &[u8], random: &mut Random) -> Vec<u8> {
    let mut bytes = bytes.to_vec();
    let offsets = record_offsets(&bytes);
    let offset = *random.pick(&offsets);
    match random.below(9) {
        0 => {
            let at = random.below(bytes.len());
            bytes[at] = random.bits() as u8;
        }
        1 => {
            let at = random.below(bytes.len());
            bytes[at] ^= 1 << random.below(8);
        }
        2 => change_number(&mut bytes, offset, random),
        3 => change_number(&mut bytes, offset + 2, random),
        4 => change_number(&mut bytes, 4, random),
        5 => {
            let at = random.below(bytes.len());
            bytes.truncate(at);
        }
        6 => {
            let stray = stray(random);
            bytes.extend(stray);
        }
        7 => {
            let stray = stray(random);
            bytes.splice(offset..offset, stray);
        }
        _ => drop_record(&mut bytes, offset),
    }
    bytes
}

/// Changes the number at an offset by a little, or to anything.
fn change_number(bytes: &mut [u8], offset: usize, random: &mut Random) {
    let old = u16::from_le_bytes([bytes[offset], bytes[offset + 1]]);
    let new = match random.below(6) {
        0 => old.wrapping_add(1),
        1 => old.wrapping_sub(1),
        2 => old.wrapping_add(2),
        3 => old.wrapping_sub(2),
        4 => random.below(8) as u16,
        _ => random.bits() as u16,
    };
    bytes[offset..offset + 2].copy_from_slice(&new.to_le_bytes());
}

/// Stray bytes: a few, or a whole record of a kind from 0 to 5.
fn stray(random: &mut Random) -> Vec<u8> {
    let body: Vec<u8> = (0..random.below(8))
        .map(|_| random.below(6) as u8)
        .collect();
    if random.once_in(2) {
        body
    } else {
        record(random.below(6) as u16, &body)
    }
}

/// Leaves a record out.
fn drop_record(bytes: &mut Vec<u8>, offset: usize) {
    let length = u16::from_le_bytes([bytes[offset], bytes[offset + 1]]) as usize;
    bytes.drain(offset..offset + 2 + length);
}

/// A damaged copy of a table of rings.
pub fn damaged_rings(rings: &Rings, random: &mut Random) -> Rings {
    let mut rings = rings.clone();
    let n = rings.len();
    let u = random.below(n);
    let length = rings[u].len();
    match random.below(11) {
        0 if length > 1 => {
            let (one, other) = (random.below(length), random.below(length));
            rings[u].swap(one, other);
        }
        1 if length > 1 => rings[u].rotate_left(1),
        2 if length > 0 => {
            rings[u].remove(random.below(length));
        }
        3 if length > 0 => {
            let at = random.below(length);
            rings[u][at] = random.below(n + 2) as u16;
        }
        4 if length > 0 => {
            let again = *random.pick(&rings[u]);
            rings[u].insert(random.below(length), again);
        }
        5 => remove_contact(&mut rings, random),
        6 => add_contact(&mut rings, random),
        7 => {
            remove_contact(&mut rings, random);
            add_contact(&mut rings, random);
        }
        8 => rings[u].reverse(),
        9 => {
            let other = random.below(n);
            rings.swap(u, other);
        }
        _ => {
            let border = random.below(4);
            let length = rings[border].len();
            rings[border].rotate_left(random.below(length.max(1)));
        }
    }
    rings
}

/// Removes a contact on both sides.
fn remove_contact(rings: &mut Rings, random: &mut Random) {
    if let Some((u, v)) = random_dart(rings, random) {
        rings[u as usize].retain(|&entry| entry != v);
        if let Some(ring) = rings.get_mut(v as usize) {
            ring.retain(|&entry| entry != u);
        }
    }
}

/// Adds a contact on both sides, anywhere in the rings.
fn add_contact(rings: &mut Rings, random: &mut Random) {
    let n = if random.once_in(4) { 4 } else { rings.len() };
    let (u, v) = (random.below(n) as u16, random.below(n) as u16);
    if u != v && !lists(rings, u, v) {
        for (u, v) in [(u, v), (v, u)] {
            let at = random.below(rings[u as usize].len() + 1);
            rings[u as usize].insert(at, v);
        }
    }
}

/// Random rings of n contexts, each of at most n − 1 entries, most of them good ones.
pub fn random_rings(n: usize, random: &mut Random) -> Rings {
    let fill = random.between(1, 8);
    let mut rings = vec![Vec::new(); n];
    for u in 0..n {
        for v in u + 1..n {
            if random.once_in(fill) {
                rings[u].push(v as u16);
                rings[v].push(u as u16);
            }
        }
    }
    rings
}

/// A damaged copy of a label list.
pub fn damaged_labels(labels: &[u8], random: &mut Random) -> Vec<u8> {
    let mut labels = labels.to_vec();
    let at = random.below(labels.len());
    match random.below(8) {
        0 => labels[at] = random.below(5) as u8,
        1 => labels[at] = random.bits() as u8,
        2 => labels[at] ^= 4,
        3 => {
            let other = random.below(labels.len());
            labels.swap(at, other);
        }
        4 => labels.rotate_left(1),
        5 => labels.truncate(at),
        6 => labels.push(random.below(5) as u8),
        _ => {
            let by = random.between(1, 3) as u8;
            let inner = labels.iter_mut().filter(|label| **label < 4);
            inner.for_each(|label| *label = (*label + by) % 4);
        }
    }
    labels
}

/// Labels with one inner edge changed on both sides, each dart keeping two quarters' difference
/// modulo 4: turned, or with 4 or 8 added to both.
pub fn labels_with_other_edge(rings: &Rings, labels: &[u8], random: &mut Random) -> Vec<u8> {
    let mut labels = labels.to_vec();
    if let Some((u, v)) = random_dart(rings, random) {
        let more = *random.pick(&[1, 2, 3, 4, 8]);
        for (u, v) in [(u, v), (v, u)] {
            let label = &mut labels[dart_number(rings, u, v)];
            *label = if more < 4 {
                (*label + more) % 4
            } else {
                *label + more
            };
        }
    }
    labels
}

/// Labels with the ring of one inner context in runs that go round none to three times, clockwise
/// or counterclockwise, and the reverse darts labelled to fit.
pub fn labels_in_runs(rings: &Rings, labels: &[u8], context: u16, random: &mut Random) -> Vec<u8> {
    let mut labels = labels.to_vec();
    let ring = &rings[context as usize];
    let steps = 4 * random.below(4);
    let forward = random.below(4) * 2 + 1;
    let first = random.below(4);
    for (index, &v) in ring.iter().enumerate() {
        let step = index * steps / ring.len();
        let label = ((first + forward * step) % 4) as u8;
        labels[dart_number(rings, context, v)] = label;
        labels[dart_number(rings, v, context)] = (label + 2) % 4;
    }
    labels
}

/// The number of a dart in ring order.
fn dart_number(rings: &Rings, u: u16, v: u16) -> usize {
    let before: usize = rings[..u as usize].iter().map(Vec::len).sum();
    let at = rings[u as usize].iter().position(|&entry| entry == v);
    before + at.expect("neighbours")
}

/// Random label bytes from 0 to 4.
pub fn random_labels(count: usize, random: &mut Random) -> Vec<u8> {
    (0..count).map(|_| random.below(5) as u8).collect()
}

/// A list of different inner edges, each in either order.
pub fn turn_list(rings: &Rings, most: usize, random: &mut Random) -> Vec<u16> {
    let mut list: Vec<u16> = Vec::new();
    for _ in 0..random.below(most + 1) {
        let Some((u, v)) = random_dart(rings, random) else {
            continue;
        };
        let named = list.chunks(2).any(|pair| pair == [u, v] || pair == [v, u]);
        if !named {
            list.extend(if random.once_in(2) { [u, v] } else { [v, u] });
        }
    }
    list
}

/// A damaged copy of a turn list for a plan of n contexts.
pub fn damaged_turn_list(list: &[u16], n: usize, random: &mut Random) -> Vec<u16> {
    let mut list = list.to_vec();
    let at = 2 * random.below(list.len() / 2 + 1);
    let any = random.below(n + 2) as u16;
    let pair = match random.below(6) {
        0 => vec![any],
        1 => vec![any, any],
        2 => vec![random.below(4) as u16, random.below(4) as u16],
        3 => vec![any, random.bits() as u16],
        4 if list.len() >= 2 => vec![list[1], list[0]],
        _ => vec![any, random.below(n) as u16],
    };
    list.splice(at..at, pair);
    list
}

/// The numbers of a chart with one of them changed.
pub fn damaged_chart(chart: &[u16], random: &mut Random) -> Vec<u16> {
    let mut chart = chart.to_vec();
    let at = random.below(chart.len());
    chart[at] = match random.below(3) {
        0 => chart[at].wrapping_add(1),
        1 => chart[at].wrapping_sub(1),
        _ => random.bits() as u16,
    };
    chart
}

/// A kind 2 record with a body of this many entries, all of them `entry`.
pub fn flat_ring(entries: usize, entry: u16) -> Vec<u8> {
    record(2, &numbers(&vec![entry; entries]))
}
