//! Slow versions that follow the specification's sentences one by one, for tests.
//!
//! They work on rings as lists and on labels as one list per ring, and share no code with the
//! calls.

use crate::types::{Refusal, Sheet};
use std::collections::BTreeSet;

/// Rings as lists.
pub type Rings = [Vec<u16>];

/// A chart: width, height and one point per context.
pub type PlainChart = (i64, i64, Vec<(i64, i64)>);

/// Whether u lists v.
fn lists(rings: &Rings, u: u16, v: u16) -> bool {
    rings[u as usize].contains(&v)
}

/// The entry after `v` in u's ring, the ring closing on itself. `v` must be in it.
fn entry_after(rings: &Rings, u: u16, v: u16) -> u16 {
    let ring = &rings[u as usize];
    let at = ring.iter().position(|&entry| entry == v).unwrap();
    ring[(at + 1) % ring.len()]
}

/// The dart that follows a dart on its face.
fn face_step(rings: &Rings, (u, v): (u16, u16)) -> (u16, u16) {
    (v, entry_after(rings, v, u))
}

/// All darts, in ring order.
fn darts(rings: &Rings) -> Vec<(u16, u16)> {
    let of_ring = |(u, ring): (usize, &Vec<u16>)| {
        ring.iter()
            .map(move |&v| (u as u16, v))
            .collect::<Vec<(u16, u16)>>()
    };
    rings.iter().enumerate().flat_map(of_ring).collect()
}

/// Whether a dart is one of the four that bound no inner face.
fn is_outer(dart: (u16, u16)) -> bool {
    [(0, 1), (1, 2), (2, 3), (3, 0)].contains(&dart)
}

/// The first of the plan rules 4 to 9 that the rings break, with its place.
pub fn plan_refusal(rings: &Rings) -> Option<Refusal> {
    let n = rings.len();
    let all = || rings.iter().enumerate();
    let bad_entry = |u: usize, v: &u16| *v as usize >= n || *v as usize == u;
    if let Some((u, _)) = all().find(|(u, ring)| ring.iter().any(|v| bad_entry(*u, v))) {
        return Some(Refusal::new(4, u));
    }
    let repeats = |ring: &Vec<u16>| ring.iter().collect::<BTreeSet<_>>().len() < ring.len();
    if let Some((u, _)) = all().find(|(_, ring)| repeats(ring)) {
        return Some(Refusal::new(5, u));
    }
    let one_sided = |u: usize, v: &u16| !lists(rings, *v, u as u16);
    if let Some((u, _)) = all().find(|(u, ring)| ring.iter().any(|v| one_sided(*u, v))) {
        return Some(Refusal::new(6, u));
    }
    if darts(rings).len() + 14 != 6 * n {
        return Some(Refusal::new(7, 0));
    }
    if let Some(u) = (0..4).find(|&u| !border_ring_is_due(rings, u)) {
        return Some(Refusal::new(8, u as usize));
    }
    let bad = |dart: (u16, u16)| {
        let third = face_step(rings, face_step(rings, face_step(rings, dart)));
        !is_outer(dart) && third != dart
    };
    let (u, _) = darts(rings).into_iter().find(|&dart| bad(dart))?;
    Some(Refusal::new(9, u as usize))
}

/// Rule 8 for one border context.
fn border_ring_is_due(rings: &Rings, u: u16) -> bool {
    let (first, last, opposite) = match u {
        0 => (1, 3, 2),
        1 => (2, 0, 3),
        2 => (3, 1, 0),
        _ => (0, 2, 1),
    };
    let ring = &rings[u as usize];
    ring.first() == Some(&first) && ring.last() == Some(&last) && !ring.contains(&opposite)
}

/// The sets of contexts of the inner faces.
pub fn face_sets(rings: &Rings) -> BTreeSet<[u16; 3]> {
    let inner = darts(rings).into_iter().filter(|&dart| !is_outer(dart));
    inner
        .map(|(u, v)| {
            let (_, w) = face_step(rings, (u, v));
            let mut set = [u, v, w];
            set.sort();
            set
        })
        .collect()
}

/// The smallest triple of mutual neighbours that are no inner face.
pub fn scan(rings: &Rings) -> Option<[u16; 3]> {
    let n = rings.len() as u16;
    let faces = face_sets(rings);
    for a in 0..n {
        for b in a + 1..n {
            if !lists(rings, a, b) {
                continue;
            }
            for c in b + 1..n {
                let mutual = lists(rings, a, c) && lists(rings, b, c);
                if mutual && !faces.contains(&[a, b, c]) {
                    return Some([a, b, c]);
                }
            }
        }
    }
    None
}

/// The label of a dart, from labels in ring order.
fn label_of(rings: &Rings, labels: &[Vec<u8>], u: u16, v: u16) -> u8 {
    let at = rings[u as usize].iter().position(|&entry| entry == v);
    labels[u as usize][at.unwrap()]
}

/// The lowest context that breaks the label rules. Labels are given ring by ring.
pub fn label_refusal(rings: &Rings, labels: &[Vec<u8>]) -> Option<Refusal> {
    let n = rings.len() as u16;
    let u = (0..n).find(|&u| !keeps_label_rules(rings, labels, u))?;
    Some(Refusal::new(10, u as usize))
}

/// Whether a context's darts and its ring keep the label rules.
fn keeps_label_rules(rings: &Rings, labels: &[Vec<u8>], u: u16) -> bool {
    let darts_keep = rings[u as usize].iter().all(|&v| {
        let label = label_of(rings, labels, u, v);
        if u < 4 && v < 4 {
            return label == 4;
        }
        let reverse = label_of(rings, labels, v, u);
        let due = match u {
            0 => label == 2,
            1 => label == 3,
            2 => label == 0,
            3 => label == 1,
            _ => true,
        };
        due && [(0, 2), (2, 0), (1, 3), (3, 1)].contains(&(label, reverse))
    });
    darts_keep && (u < 4 || has_four_runs(&labels[u as usize]))
}

/// Whether clockwise stand four runs, none empty: up, right, down, left.
fn has_four_runs(ring: &[u8]) -> bool {
    (0..ring.len()).any(|first| {
        let mut turned = ring[first..].to_vec();
        turned.extend_from_slice(&ring[..first]);
        turned.dedup();
        turned == [0, 1, 2, 3]
    })
}

/// The value that stands for a dart without a label.
const UNLABELLED: u8 = 255;

/// The state of the plain sweep.
struct Sweep<'a> {
    rings: &'a Rings,
    labels: Vec<Vec<u8>>,
    frontier: Vec<u16>,
    was_on_frontier: BTreeSet<u16>,
}

impl Sweep<'_> {
    /// Labels an edge from u to v; its reverse gets the label two quarters on.
    fn label_edge(&mut self, u: u16, v: u16, label: u8) {
        for (u, v, label) in [(u, v, label), (v, u, (label + 2) % 4)] {
            let at = self.rings[u as usize].iter().position(|&entry| entry == v);
            self.labels[u as usize][at.unwrap()] = label;
        }
    }

    /// What lies below a frontier position, left to right.
    fn below(&self, position: usize) -> Vec<u16> {
        let context = self.frontier[position];
        let (left, right) = (self.frontier[position - 1], self.frontier[position + 1]);
        let mut entries = Vec::new();
        let mut entry = entry_after(self.rings, context, right);
        while entry != left {
            entries.push(entry);
            entry = entry_after(self.rings, context, entry);
        }
        entries.reverse();
        entries
    }

    /// The list of the pair (i, j), if it is eligible.
    fn eligible_list(&self, i: usize, j: usize) -> Option<Vec<u16>> {
        let mut list = Vec::new();
        for position in i + 1..j {
            let below = self.below(position);
            if below.is_empty() {
                return None;
            }
            for entry in below {
                if list.last() != Some(&entry) {
                    list.push(entry);
                }
            }
        }
        let has_repeat = list.iter().collect::<BTreeSet<_>>().len() < list.len();
        let is_used = |v: &u16| *v < 4 || self.was_on_frontier.contains(v);
        if has_repeat || list.iter().any(is_used) {
            return None;
        }
        let mut frontier = self.frontier[..=i].to_vec();
        frontier.extend_from_slice(&list);
        frontier.extend_from_slice(&self.frontier[j..]);
        let touching = |p: usize, q: usize| lists(self.rings, frontier[p], frontier[q]);
        let chord = (0..frontier.len()).any(|p| (p + 2..frontier.len()).any(|q| touching(p, q)));
        (!chord).then_some(list)
    }

    /// The eligible pair with the largest j, then the largest i, with its list.
    fn best_pair(&self) -> Option<(usize, usize, Vec<u16>)> {
        for j in (2..self.frontier.len()).rev() {
            for i in (0..=j - 2).rev() {
                if let Some(list) = self.eligible_list(i, j) {
                    return Some((i, j, list));
                }
            }
        }
        None
    }

    /// Labels for a pair and puts the list in place.
    fn take_step(&mut self, i: usize, j: usize, list: Vec<u16>) {
        for position in i..j {
            self.label_edge(self.frontier[position], self.frontier[position + 1], 1);
        }
        let replaced = self.frontier[i + 1..j].to_vec();
        for &u in &list {
            for &v in &replaced {
                if lists(self.rings, u, v) {
                    self.label_edge(u, v, 0);
                }
            }
        }
        self.was_on_frontier.extend(&list);
        self.frontier.splice(i + 1..j, list);
    }

    /// Whether each inner frontier context has South alone below.
    fn is_finished(&self) -> bool {
        (1..self.frontier.len() - 1).all(|position| self.below(position) == [2])
    }
}

/// The sweep, as the specification tells it. Gives the labels ring by ring.
pub fn sweep(rings: &Rings) -> Result<Vec<Vec<u8>>, Refusal> {
    let north = &rings[0];
    let mut frontier = north.clone();
    frontier.reverse();
    let mut state = Sweep {
        rings,
        labels: rings
            .iter()
            .map(|ring| vec![UNLABELLED; ring.len()])
            .collect(),
        was_on_frontier: frontier.iter().copied().collect(),
        frontier,
    };
    for (u, v) in darts(rings) {
        if u < 4 && v < 4 {
            let at = rings[u as usize].iter().position(|&entry| entry == v);
            state.labels[u as usize][at.unwrap()] = 4;
        }
    }
    for &u in &north[1..north.len() - 1] {
        state.label_edge(u, 0, 0);
    }
    while !state.is_finished() {
        let (i, j, list) = state.best_pair().ok_or(Refusal::new(14, 0))?;
        state.take_step(i, j, list);
    }
    for position in 0..state.frontier.len() - 1 {
        let (u, v) = (state.frontier[position], state.frontier[position + 1]);
        if position > 0 {
            state.label_edge(2, u, 0);
        }
        state.label_edge(u, v, 1);
    }
    match label_refusal(rings, &state.labels) {
        Some(refusal) => Err(refusal),
        None => Ok(state.labels),
    }
}

/// The rules of a placement as a list: value b is at least value a plus c.
///
/// Values: 0 is the number zero, 1 is w, 2 is h, then x and y of each context.
fn placement_rules(rings: &Rings, labels: &[Vec<u8>]) -> Vec<(usize, usize, i64)> {
    let (zero, w, h) = (0, 1, 2);
    let x = |u: u16| 3 + 2 * u as usize;
    let y = |u: u16| 4 + 2 * u as usize;
    let mut rules = Vec::new();
    let corners = [(2, zero, zero), (3, zero, h), (0, w, h), (1, w, zero)];
    for (u, corner_x, corner_y) in corners {
        for (a, b) in [(x(u), corner_x), (y(u), corner_y)] {
            rules.push((a, b, 0));
            rules.push((b, a, 0));
        }
    }
    for (u, v) in darts(rings) {
        match label_of(rings, labels, u, v) {
            0 => rules.extend([(x(u), x(v), 0), (y(u), y(v), 1)]),
            1 => rules.extend([(x(u), x(v), 1), (y(v), y(u), 0)]),
            _ => {}
        }
    }
    rules
}

/// The least placement, by raising values that break a rule until none does.
pub fn chart(rings: &Rings, labels: &[Vec<u8>]) -> Result<PlainChart, Refusal> {
    let rules = placement_rules(rings, labels);
    let mut values = vec![0; 3 + 2 * rings.len()];
    loop {
        let mut raised = false;
        for &(a, b, c) in &rules {
            if values[b] < values[a] + c {
                values[b] = values[a] + c;
                raised = true;
            }
        }
        // A value above the number of values comes from a walk that rises around a cycle.
        if values[0] > 0 || values.iter().any(|&value| value > values.len() as i64) {
            return Err(Refusal::new(11, 0));
        }
        if !raised {
            let points = values[3..].chunks(2).map(|xy| (xy[0], xy[1])).collect();
            return Ok((values[1], values[2], points));
        }
    }
}

/// The parts of a file that is accepted.
#[derive(Clone, Debug, PartialEq, Eq)]
pub struct PlainFile {
    /// The rings.
    pub rings: Vec<Vec<u16>>,
    /// The labels, ring by ring, if any.
    pub labels: Option<Vec<Vec<u8>>>,
    /// The chart, if any.
    pub chart: Option<PlainChart>,
}

/// One record of a file that is being framed: its offset, kind and body.
struct Record {
    offset: usize,
    kind: usize,
    body: Vec<u8>,
}

/// The number of two bytes at an offset, if both are there.
fn number_at(bytes: &[u8], offset: usize) -> Option<usize> {
    let (low, high) = (*bytes.get(offset)?, *bytes.get(offset + 1)?);
    Some(low as usize + 256 * high as usize)
}

/// The record at an offset; nothing if its length is missing, under 2 or past the end.
fn record_at(bytes: &[u8], offset: usize) -> Option<Record> {
    let length = number_at(bytes, offset)?;
    let kind = number_at(bytes, offset + 2)?;
    if length < 2 {
        return None;
    }
    let body = bytes.get(offset + 4..offset + 2 + length)?.to_vec();
    Some(Record { offset, kind, body })
}

/// The numbers of two bytes of a body.
fn numbers(body: &[u8]) -> Vec<u16> {
    body.chunks(2)
        .map(|pair| pair[0] as u16 + 256 * pair[1] as u16)
        .collect()
}

/// Frames a file: refusals 1 to 3. Gives n and all records.
fn frame(bytes: &[u8]) -> Result<(usize, Vec<Record>), Refusal> {
    let mut records: Vec<Record> = Vec::new();
    let mut n = 0;
    let mut offset = 0;
    loop {
        let count = records.len();
        if count > n && offset == bytes.len() {
            return Ok((n, records));
        }
        let record = record_at(bytes, offset).ok_or(Refusal::new(1, offset))?;
        let length = record.body.len();
        let due = match count {
            0 => record.kind == 1 && length == 2,
            _ if count <= n => record.kind == 2 && length % 2 == 0 && length < 2 * n,
            _ if count == n + 1 => record.kind == 3 && length + 14 == 6 * n,
            _ if count == n + 2 => record.kind == 4 && length == 4 * n + 4,
            _ => false,
        };
        if !due {
            return Err(Refusal::new(2, record.offset));
        }
        if count == 0 {
            n = numbers(&record.body)[0] as usize;
            if !(5..=200).contains(&n) {
                return Err(Refusal::new(3, 0));
            }
        }
        offset += 4 + length;
        records.push(record);
    }
}

/// Splits labels in dart order into one list per ring.
pub fn labels_by_ring(rings: &Rings, labels: &[u8]) -> Vec<Vec<u8>> {
    let mut rest = labels.iter().copied();
    let of_ring = |ring: &Vec<u16>| rest.by_ref().take(ring.len()).collect();
    rings.iter().map(of_ring).collect()
}

/// Opens a file.
pub fn open(bytes: &[u8]) -> Result<PlainFile, Refusal> {
    let (n, records) = frame(bytes)?;
    let rings: Vec<Vec<u16>> = records[1..=n]
        .iter()
        .map(|record| numbers(&record.body))
        .collect();
    if let Some(refusal) = plan_refusal(&rings) {
        return Err(refusal);
    }
    let labels = records.get(n + 1);
    let labels = labels.map(|record| labels_by_ring(&rings, &record.body));
    if let Some(refusal) = labels.as_ref().and_then(|all| label_refusal(&rings, all)) {
        return Err(refusal);
    }
    let mut stored = None;
    if let (Some(labels), Some(record)) = (&labels, records.get(n + 2)) {
        let found = chart(&rings, labels)?;
        let values = numbers(&record.body);
        let points = values[2..].chunks(2);
        let points = points.map(|xy| (xy[0] as i64, xy[1] as i64)).collect();
        if (values[0] as i64, values[1] as i64, points) != found {
            return Err(Refusal::new(12, 0));
        }
        stored = Some(found);
    }
    Ok(PlainFile {
        rings,
        labels,
        chart: stored,
    })
}

/// Whether a sheet holds exactly these parts.
pub fn sheet_holds(sheet: &Sheet, file: &PlainFile) -> bool {
    let Some(plan) = sheet.plan() else {
        return false;
    };
    let labels = sheet
        .labels()
        .map(|l| labels_by_ring(&file.rings, l.bytes()));
    let chart = sheet.chart().map(|chart| {
        let points = chart.points.iter().map(|&(x, y)| (x as i64, y as i64));
        (chart.w as i64, chart.h as i64, points.collect())
    });
    plan.rings() == file.rings && labels == file.labels && chart == file.chart
}
