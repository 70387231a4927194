//! The inputs: plan files, damaged ones, and bytes that are none.

use crate::case::Case;
use generate::damage::{cuts, damaged_file};
use generate::families::{column, fan_behind_column, irreducible, irreducible_with_hubs};
use generate::families::{reducible, trench_a, trench_b, trench_c, wheel};
use generate::file::{file, record};
use generate::odd::{trench_d, trench_d_labels};
use generate::{Random, Rings};
use reference::{encode, open, sweep, turn, PRINT_LIMIT};

/// All inputs, each behind its length in two bytes, and one more, which is cut.
pub fn framed() -> Vec<u8> {
    let mut bytes = Vec::new();
    for input in inputs() {
        bytes.extend((input.len() as u16).to_le_bytes());
        bytes.extend(input);
    }
    bytes.extend(cut());
    bytes
}

/// The plan file of trench B behind a length of six bytes more than it has.
fn cut() -> Vec<u8> {
    let plan = file(&trench_b(), None, None);
    let length = (plan.len() as u16 + 6).to_le_bytes();
    [&length[..], &plan].concat()
}

/// All inputs.
pub fn inputs() -> Vec<Vec<u8>> {
    let mut inputs = trenches();
    inputs.push(other_labels());
    inputs.extend(cuts(&file(&trench_a(), None, None)).map(<[u8]>::to_vec));
    inputs.extend(refusals());
    inputs.extend(damaged());
    inputs.extend(families());
    inputs.extend(long());
    inputs
}

/// The four trenches, alone, with labels and with a chart, as far as they have them.
fn trenches() -> Vec<Vec<u8>> {
    let cases = [
        Case::swept(trench_a()),
        Case::swept(trench_b()),
        Case::swept(trench_c()),
        Case::labelled(trench_d(), &trench_d_labels()),
    ];
    cases.iter().flat_map(Case::files).collect()
}

/// A file whose labels keep the rules and are not those of the sweep: its chart is not the one that is printed.
pub fn other_labels() -> Vec<u8> {
    let mut random = Random::new(8);
    loop {
        let rings = irreducible(8, &mut random);
        if let Some(bytes) = turned(&rings) {
            return bytes;
        }
    }
}

/// The file of a plan with swept labels of which some are turned, and their chart, if there is such a choice.
fn turned(rings: &Rings) -> Option<Vec<u8>> {
    let mut swept = open(&file(rings, None, None)).ok()?;
    sweep(&mut swept).ok()?;
    let edges: Vec<[u16; 2]> = (4..rings.len() as u16)
        .flat_map(|u| rings[u as usize].iter().map(move |&v| [v, u]))
        .filter(|[v, u]| v < u)
        .collect();
    (1u32..1 << edges.len()).find_map(|chosen| {
        let list: Vec<u16> = (0..edges.len())
            .filter(|&bit| chosen >> bit & 1 == 1)
            .flat_map(|bit| edges[bit])
            .collect();
        let mut sheet = swept.clone();
        turn(&mut sheet, &list, 0).ok()?;
        reference::chart(&mut sheet).ok()?;
        Some(encode(&sheet))
    })
}

/// An example of each refusal of open from 2 to 12, and bytes behind a file.
fn refusals() -> Vec<Vec<u8>> {
    let plan = file(&trench_a(), None, None);
    let with_ring = |context: usize, ring: &[u16]| {
        let mut rings = trench_a();
        rings[context] = ring.to_vec();
        file(&rings, None, None)
    };
    let with_byte = |bytes: &[u8], at: usize, byte: u8| {
        let mut bytes = bytes.to_vec();
        bytes[at] = byte;
        bytes
    };
    let b = Case::swept(trench_b()).whole();
    vec![
        with_byte(&plan, 2, 2),
        with_byte(&plan, 4, 4),
        with_ring(4, &[4, 1, 2, 3]),
        with_ring(0, &[1, 4, 4, 3]),
        with_ring(0, &[1, 3]),
        without_contact(),
        with_ring(1, &[4, 0, 2]),
        with_ring(4, &[1, 0, 2, 3]),
        file(&trench_a(), Some(&[0; 16]), None),
        file(&trench_d(), Some(&trench_d_labels()), Some(&[1; 26])),
        with_byte(&b, b.len() - 26, 4),
        [&plan[..], &[0]].concat(),
        [&plan[..], &record(9, &[])].concat(),
        record(2, &[1, 2]),
    ]
}

/// Trench A without the contact of 0 and 4.
fn without_contact() -> Vec<u8> {
    let mut rings = trench_a();
    rings[0] = vec![1, 3];
    rings[4] = vec![1, 2, 3];
    file(&rings, None, None)
}

/// Damaged files.
fn damaged() -> Vec<Vec<u8>> {
    let whole = Case::swept(trench_b()).whole();
    let mut random = Random::new(9);
    (0..40).map(|_| damaged_file(&whole, &mut random)).collect()
}

/// Plans of each family, numbers of one, two and three digits, and the largest file.
fn families() -> Vec<Vec<u8>> {
    let mut random = Random::new(11);
    let mut plans: Vec<Rings> = (9..=12).map(column).collect();
    plans.extend([9, 10, 11, 30].map(|n| wheel(n, &mut random)));
    plans.extend([9, 14, 15, 60].map(|n| irreducible(n, &mut random)));
    plans.extend([8, 12, 20, 101].map(|n| reducible(n, &mut random)));
    plans.push(fan_behind_column(4, 5));
    plans.extend([column(200), wheel(200, &mut random)]);
    plans.push(irreducible_with_hubs(200, &mut random));
    plans.push(reducible(200, &mut random));
    let mut files: Vec<Vec<u8>> = plans.iter().map(|rings| file(rings, None, None)).collect();
    files.push(Case::swept(irreducible(200, &mut random)).whole());
    files
}

/// Inputs about as long as the limit, and beyond.
fn long() -> Vec<Vec<u8>> {
    let plan = file(&trench_a(), None, None);
    let filled = |size: usize| [&plan[..], &record(9, &vec![0; size - plan.len() - 4])].concat();
    let all: Vec<u16> = (0..70).collect();
    let mutual: Rings = (0..70)
        .map(|u| all.iter().copied().filter(|&v| v != u).collect())
        .collect();
    vec![
        filled(PRINT_LIMIT),
        filled(PRINT_LIMIT + 1),
        file(&mutual, None, None),
    ]
}
