//! The vectors: lists of items, each list about one thing.

use crate::case::Case;
use crate::items::Items;
use crate::lists::call_lists;
use generate::damage::{cuts, damaged_chart, damaged_file, damaged_labels, damaged_rings};
use generate::damage::{labels_in_runs, labels_with_other_edge, turn_list};
use generate::edit::disguise;
use generate::families::{irreducible, reducible, trench_a, trench_b, trench_c, wheel};
use generate::file::{file, numbers, record, record_offsets};
use generate::odd::{beside, random_odd, ring_torus, torus_labels, trench_d, trench_d_labels};
use generate::sample::{plan_of_family, small_plan, FAMILIES};
use generate::{Random, Rings};

/// All items.
pub fn items() -> Items {
    let mut items = Items::default();
    table(&mut items);
    framing(&mut items);
    cut_files(&mut items);
    wide_files(&mut items);
    plan_rules(&mut items);
    offers(&mut items);
    charts_in_files(&mut items);
    buffers(&mut items);
    comparisons(&mut items);
    rings_of_files(&mut items);
    every_stage(&mut items);
    large_plans(&mut items);
    sweeps(&mut items);
    turns(&mut items);
    call_lists(&mut items);
    items.cut_items();
    items
}

/// Trench A, B, C or D with its labels and its chart.
pub fn trenches() -> [Case; 4] {
    [
        Case::swept(trench_a()),
        Case::swept(trench_b()),
        Case::swept(trench_c()),
        Case::labelled(trench_d(), &trench_d_labels()),
    ]
}

/// The plan with another ring for a context, as a file.
fn with_ring(rings: &Rings, context: usize, ring: &[u16]) -> Vec<u8> {
    let mut rings = rings.clone();
    rings[context] = ring.to_vec();
    file(&rings, None, None)
}

/// The file with another number at an offset.
fn with_number(bytes: &[u8], offset: usize, number: u16) -> Vec<u8> {
    let mut bytes = bytes.to_vec();
    bytes[offset..offset + 2].copy_from_slice(&number.to_le_bytes());
    bytes
}

/// The file with bytes put in at an offset.
fn with_bytes(bytes: &[u8], offset: usize, more: &[u8]) -> Vec<u8> {
    [&bytes[..offset], more, &bytes[offset..]].concat()
}

/// Every example of 01's table that the calls without sweep and turn give, in its order, on A or B or D.
fn table(items: &mut Items) {
    let [a, b, _, d] = trenches();
    let plan = a.plain();
    let up: Vec<u8> = a.some_labels(&mut Random::new(0));
    let up: Vec<u8> = up.iter().map(|&label| label & 4).collect();
    items.fresh();
    items.open(&plan[..57]);
    items.open(&with_number(&plan, 2, 2));
    items.open(&with_number(&plan, 4, 4));
    items.open(&with_ring(&a.rings, 4, &[4, 1, 2, 3]));
    items.open(&with_ring(&a.rings, 0, &[1, 4, 4, 3]));
    items.open(&with_ring(&a.rings, 0, &[1, 3]));
    items.open(&without_contact(&a.rings, 0, 4));
    items.open(&with_ring(&a.rings, 1, &[4, 0, 2]));
    items.open(&with_ring(&a.rings, 4, &[1, 0, 2, 3]));
    items.open(&file(&a.rings, Some(&up), None));
    items.open(&file(&d.rings, d.labels.as_deref(), Some(&[1; 26])));
    items.open(&with_number(&b.whole(), b.whole().len() - 26, 4));
    items.chart();
    items.open(&plan);
    items.write(57);
    items.ring(5, &plan);
    for case in trenches() {
        all_calls(items, &case);
    }
}

/// The file of a plan without a contact, on both sides.
fn without_contact(rings: &Rings, u: u16, v: u16) -> Vec<u8> {
    let mut rings = rings.clone();
    rings[u as usize].retain(|&entry| entry != v);
    rings[v as usize].retain(|&entry| entry != u);
    file(&rings, None, None)
}

/// A plan from a fresh sheet on through all calls, its file opened and compared at the end.
fn all_calls(items: &mut Items, case: &Case) {
    items.fresh();
    items.open(&case.plain());
    items.scan();
    items.offer(&case.some_labels(&mut Random::new(1)));
    items.write(8192);
    items.chart();
    items.keep();
    items.write(8192);
    items.fresh();
    items.open(&case.whole());
    items.same();
    items.open_write(case.whole().len() + 3, &case.whole());
}

/// Something wrong at each record of a file with all parts, and stray bytes at the end of each part.
fn framing(items: &mut Items) {
    let [a, b, ..] = trenches();
    let whole = b.whole();
    items.fresh();
    for offset in record_offsets(&whole) {
        wrong_record(items, &whole, offset);
    }
    for file in a.files() {
        stray_ends(items, &file);
    }
    items.open(&file(&a.rings, None, a.numbers.as_deref()));
    for n in [0, 1, 3, 201, 256, 65535] {
        items.open(&record(1, &numbers(&[n])));
    }
    items.open(&[&with_number(&a.plain(), 4, 4)[..6], b"??"].concat());
    items.open(&record(1, &[4, 0, 0]));
    items.open(&record(1, &[4]));
}

/// One record of a file with another length or kind, left out, or with stray bytes or a whole record before it.
fn wrong_record(items: &mut Items, bytes: &[u8], offset: usize) {
    let length = u16::from_le_bytes([bytes[offset], bytes[offset + 1]]);
    let kind = bytes[offset + 2] as u16;
    for other in [0, 1, length - 2, length - 1, length + 1, length + 2, 65535] {
        items.open(&with_number(bytes, offset, other));
    }
    for other in (0..6).chain([kind + 256]).filter(|&other| other != kind) {
        items.open(&with_number(bytes, offset + 2, other));
    }
    items.open(&[&bytes[..offset], &bytes[offset + 2 + length as usize..]].concat());
    items.open(&with_bytes(bytes, offset, &[0]));
    for kind in 0..6 {
        items.open(&with_bytes(bytes, offset, &record(kind, &[])));
    }
}

/// Stray bytes and records behind a file: less than a length, a length under 2, one past the end, whole records.
fn stray_ends(items: &mut Items, bytes: &[u8]) {
    let end = bytes.len();
    let few: [&[u8]; 6] = [&[0], &[2], &[0, 0], &[1, 0], &[2, 0, 3], &[3, 0, 4, 0]];
    for stray in few {
        items.open(&with_bytes(bytes, end, stray));
    }
    for kind in 0..6 {
        items.open(&with_bytes(bytes, end, &record(kind, &[])));
        items.open(&with_bytes(bytes, end, &record(kind, &[4; 15])));
        items.open(&with_bytes(bytes, end, &record(kind, &[4; 17])));
    }
    items.open(bytes);
}

/// A with labels and chart, cut at every offset: open, ring, and open and write.
fn cut_files(items: &mut Items) {
    let whole = trenches()[0].whole();
    items.fresh();
    for cut in cuts(&whole) {
        items.open(cut);
    }
    for cut in cuts(&whole) {
        items.ring(4, cut);
        items.open_write(110, cut);
    }
}

/// Every context lists every other: 80,406 bytes that keep rules 4 to 6, and what is wrong far behind in them.
fn wide_files(items: &mut Items) {
    let ring = |u: u16| (0..200).filter(|&v| v != u).collect();
    let wide: Rings = (0..200).map(ring).collect();
    let bytes = file(&wide, None, None);
    let end = bytes.len();
    items.open(&bytes);
    items.open(&with_bytes(&bytes, end, &[0]));
    items.open(&file(&wide, Some(&[4; 1186]), Some(&[1; 402])));
    items.open(&with_number(&bytes, end - 2, 0));
    items.ring(199, &with_number(&bytes, end - 402, 403));
    let empty = vec![Vec::new(); 200];
    items.open(&file(&empty, None, None));
}

/// Rules 4 to 9, each at every place that it can have in A or in a plan of 7 contexts, and damaged plans.
fn plan_rules(items: &mut Items) {
    let a = trench_a();
    items.fresh();
    for u in 0..5 {
        one_bad_ring(items, &a, u);
    }
    border_rule(items, &a);
    let mut random = Random::new(101);
    for _ in 0..220 {
        let rings = small_plan(&mut random);
        let damaged = damaged_rings(&rings, &mut random);
        items.open(&file(&damaged, None, None));
    }
}

/// One ring of a plan with a bad entry, a repeat, an entry less, in another order, or empty.
fn one_bad_ring(items: &mut Items, rings: &Rings, u: usize) {
    let ring = &rings[u];
    for entry in [u as u16, rings.len() as u16, 65535] {
        items.open(&with_ring(rings, u, &[&ring[..2], &[entry]].concat()));
    }
    items.open(&with_ring(rings, u, &[&ring[..], &ring[..1]].concat()));
    items.open(&with_ring(rings, u, &ring[1..]));
    items.open(&with_ring(rings, u, &ring[..ring.len() - 1]));
    items.open(&with_ring(rings, u, &[]));
    let turned: Vec<u16> = ring.iter().rev().copied().collect();
    items.open(&with_ring(rings, u, &turned));
    let swapped = [&[ring[1], ring[0]], &ring[2..]].concat();
    items.open(&with_ring(rings, u, &swapped));
    let rotated = [&ring[1..], &ring[..1]].concat();
    items.open(&with_ring(rings, u, &rotated));
}

/// Rule 8 where North touches South or East touches West, and with border rings of no entry and of one.
fn border_rule(items: &mut Items, rings: &Rings) {
    let mut touching = rings.clone();
    touching[0] = vec![1, 4, 2, 3];
    touching[2] = vec![3, 4, 0, 1];
    items.open(&without_contact(&touching, 1, 4));
    let mut touching = rings.clone();
    touching[1] = vec![2, 4, 3, 0];
    touching[3] = vec![0, 4, 1, 2];
    items.open(&without_contact(&touching, 0, 4));
    for border in 0..4u16 {
        let others: Vec<u16> = (0..7).filter(|&u| u != border).collect();
        let ring = |u: u16| others.iter().copied().filter(|&v| v != u).collect();
        let mut alone: Rings = (0..7).map(ring).collect();
        alone[border as usize] = Vec::new();
        items.open(&without_contact(&alone, others[4], others[5]));
        alone[border as usize].push(others[0]);
        alone[others[0] as usize].push(border);
        remove(&mut alone, others[2], others[3]);
        items.open(&without_contact(&alone, others[4], others[5]));
    }
}

/// Removes a contact on both sides.
fn remove(rings: &mut Rings, u: u16, v: u16) {
    rings[u as usize].retain(|&entry| entry != v);
    rings[v as usize].retain(|&entry| entry != u);
}

/// Offers of every count from 0 to 40 to A, every other label at every dart of A and B, damaged labels of other plans.
fn offers(items: &mut Items) {
    let [a, b, ..] = trenches();
    items.fresh();
    items.offer(&a.some_labels(&mut Random::new(0)));
    items.open(&a.plain());
    for count in 0..41 {
        let labels = a.labels.iter().flatten().copied().cycle();
        items.offer(&labels.take(count).collect::<Vec<u8>>());
    }
    every_other_label(items, &a);
    every_other_label(items, &b);
    hub_offers(items);
    damaged_offers(items);
}

/// Labels around a hub of eight neighbours: in four runs from everywhere, twice around, one only, counterclockwise.
fn hub_offers(items: &mut Items) {
    let mut random = Random::new(109);
    let case = loop {
        let rings = wheel(13, &mut random);
        if rings[..4].iter().all(|ring| ring.len() == 5) {
            break Case::swept(rings);
        }
    };
    items.open(&case.plain());
    for by in 0..8 {
        let mut runs = [0, 0, 1, 1, 2, 2, 3, 3];
        runs.rotate_left(by);
        items.offer(&with_hub(&case, &runs));
        runs.reverse();
        items.offer(&with_hub(&case, &runs));
    }
    for first in 0..4 {
        let twice: Vec<u8> = (first..first + 8).map(|label| label % 4).collect();
        items.offer(&with_hub(&case, &twice));
        items.offer(&with_hub(&case, &[first; 8]));
    }
}

/// The labels with others around context 4, and the reverse darts labelled to fit.
fn with_hub(case: &Case, around: &[u8]) -> Vec<u8> {
    let darts = case.rings.iter().enumerate();
    let darts = darts.flat_map(|(u, ring)| ring.iter().map(move |&v| (u as u16, v)));
    let label_at = |v: u16| around[case.rings[4].iter().position(|&w| w == v).expect("the rim")];
    let labels = case.labels.iter().flatten();
    let changed = darts.zip(labels).map(|(dart, &label)| match dart {
        (4, v) => label_at(v),
        (v, 4) => (label_at(v) + 2) % 4,
        _ => label,
    });
    changed.collect()
}

/// A label of 0 to 7 or 255 in place of each that the plan has, the good ones offered again at the end.
fn every_other_label(items: &mut Items, case: &Case) {
    let labels = case.labels.clone().expect("labels");
    items.open(&case.whole());
    for dart in 0..labels.len() {
        for label in (0..8).chain([255]).filter(|&label| label != labels[dart]) {
            let mut other = labels.clone();
            other[dart] = label;
            items.offer(&other);
        }
    }
    items.offer(&labels);
}

/// Damaged labels, offered and in files.
fn damaged_offers(items: &mut Items) {
    let mut random = Random::new(102);
    for _ in 0..12 {
        let n = random.between(7, 24);
        let case = Case::swept(irreducible(n, &mut random));
        let labels = case.labels.clone().expect("labels");
        items.open(&case.whole());
        for _ in 0..6 {
            let context = random.between(4, case.n() - 1) as u16;
            items.offer(&damaged_labels(&labels, &mut random));
            items.offer(&labels_with_other_edge(&case.rings, &labels, &mut random));
            items.offer(&labels_in_runs(&case.rings, &labels, context, &mut random));
        }
        let damaged = damaged_labels(&labels, &mut random);
        items.open(&file(&case.rings, Some(&damaged), case.numbers.as_deref()));
    }
}

/// A chart record with each of its numbers changed, for A and B; a chart beside labels that allow none.
fn charts_in_files(items: &mut Items) {
    let [a, b, _, d] = trenches();
    items.fresh();
    for case in [a, b] {
        let chart = case.numbers.clone().expect("a chart");
        let at = case.with_labels().len() + 4;
        for index in 0..chart.len() {
            for more in [1, 65535, 256] {
                let other = chart[index].wrapping_add(more);
                items.open(&with_number(&case.whole(), at + 2 * index, other));
            }
        }
        items.open(&case.whole());
    }
    items.open(&d.with_labels());
    for number in [0, 2, 65535] {
        items.open(&file(&d.rings, d.labels.as_deref(), Some(&[number; 26])));
    }
    items.chart();
}

/// Writes into buffers of every length from 0 to 112 at each stage of A, and around what other sheets need.
fn buffers(items: &mut Items) {
    let [a, b, c, d] = trenches();
    items.fresh();
    items.write(0);
    items.write(8192);
    for file in a.files() {
        items.open(&file);
        (0..113).for_each(|length| items.write(length));
        items.write(65535);
    }
    for case in [b, c, d] {
        for file in case.files() {
            items.open(&file);
            around(file.len(), |length| items.write(length));
            around(file.len(), |length| items.open_write(length, &file));
        }
    }
}

/// Lengths around one, and 0.
pub fn around(length: usize, mut each: impl FnMut(usize)) {
    [0, length - 2, length - 1, length, length + 1, length + 2]
        .into_iter()
        .for_each(&mut each);
}

/// Compares charts that are equal, that differ in n, in w alone, in h alone, in the points alone, and sheets without one.
fn comparisons(items: &mut Items) {
    let mut random = Random::new(103);
    let of = |n, random: &mut Random| Case::swept(irreducible(n, random));
    let one = of(9, &mut random);
    let size = |case: &Case| case.numbers.as_ref().map(|chart| (chart[0], chart[1]));
    let (w, h) = size(&one).expect("a chart");
    let mut find = |fits: &dyn Fn(&Case, u16, u16) -> bool| loop {
        let case = of(9, &mut random);
        let (w, h) = size(&case).expect("a chart");
        if fits(&case, w, h) {
            return case;
        }
    };
    let others = [
        find(&|_, w2, h2| w2 != w && h2 == h),
        find(&|_, w2, h2| w2 == w && h2 != h),
        find(&|case, w2, h2| w2 == w && h2 == h && case.numbers != one.numbers),
        find(&|case, _, _| case.rings != one.rings && case.numbers == one.numbers),
    ];
    for other in &others {
        compare(items, &one, other);
    }
    let [a, b, ..] = trenches();
    compare(items, &a, &b);
    compare(items, &a, &rotated(&a));
    early_comparisons(items, &a);
}

/// The plan with its inner rings begun elsewhere.
fn rotated(case: &Case) -> Case {
    let mut rings = case.rings.clone();
    rings[4..].iter_mut().for_each(|ring| ring.rotate_left(1));
    Case::swept(rings)
}

/// Compares two charts both ways, and each with itself.
fn compare(items: &mut Items, one: &Case, other: &Case) {
    for (kept, sheet) in [(one, other), (other, one)] {
        items.open(&kept.whole());
        items.keep();
        items.same();
        items.open(&sheet.whole());
        items.same();
    }
}

/// Compares sheets of every two stages.
fn early_comparisons(items: &mut Items, case: &Case) {
    for kept in 0..4 {
        for sheet in 0..4 {
            at_stage(items, case, kept);
            items.keep();
            at_stage(items, case, sheet);
            items.same();
        }
    }
}

/// A sheet at a stage from 0 to 3, by opening a file.
fn at_stage(items: &mut Items, case: &Case, stage: usize) {
    if stage == 0 {
        items.fresh();
    } else {
        items.open(&case.files()[stage - 1]);
    }
}

/// The ring of every context of A, B, C and D, of contexts past the last, of isolated contexts, and in files that are refused.
fn rings_of_files(items: &mut Items) {
    items.fresh();
    for case in trenches() {
        for file in case.files() {
            let n = case.n() as u16;
            (0..n + 2).for_each(|context| items.ring(context, &file));
            items.ring(65535, &file);
        }
    }
    let isolated = isolated_plan(&mut Random::new(104));
    let file = file(&isolated, None, None);
    items.open(&file);
    items.scan();
    (0..isolated.len() as u16 + 1).for_each(|context| items.ring(context, &file));
    for file in refused_files() {
        items.ring(4, &file);
        items.ring(65535, &file);
        items.open_write(0, &file);
        items.open_write(300, &file);
    }
    let mut random = Random::new(105);
    for _ in 0..50 {
        let case = Case::swept(small_plan(&mut random));
        let damaged = damaged_file(&case.whole(), &mut random);
        items.ring(random.below(case.n() + 1) as u16, &damaged);
        items.open_write(damaged.len() + random.below(3), &damaged);
    }
}

/// A plan with a handle and two isolated contexts.
fn isolated_plan(random: &mut Random) -> Rings {
    loop {
        let rings = random_odd(24, random);
        if rings.iter().any(Vec::is_empty) {
            return rings;
        }
    }
}

/// At each stage of A, B and D every call with every refusal that it can have there; nothing may change.
fn every_stage(items: &mut Items) {
    let [a, b, _, d] = trenches();
    for case in [a, b, d] {
        items.fresh();
        refused_calls(items, &case);
        for file in case.files() {
            items.open(&file);
            refused_calls(items, &case);
        }
    }
}

/// Calls that are refused on any sheet of a plan without a chart; with a chart, chart is accepted.
fn refused_calls(items: &mut Items, case: &Case) {
    refused_files().iter().for_each(|file| items.open(file));
    let labels = case.some_labels(&mut Random::new(0));
    let up: Vec<u8> = labels.iter().map(|&label| label & 4).collect();
    items.offer(&labels[1..]);
    items.offer(&up);
    items.scan();
    items.write(57);
    items.chart();
    items.keep();
    items.same();
    items.open(&refused_files()[0]);
}

/// A file for each of the refusals 1 to 12.
pub fn refused_files() -> Vec<Vec<u8>> {
    let [a, b, _, d] = trenches();
    let plan = a.plain();
    let labels = a.some_labels(&mut Random::new(0));
    let up: Vec<u8> = labels.iter().map(|&label| label & 4).collect();
    vec![
        plan[..57].to_vec(),
        with_number(&plan, 2, 2),
        with_number(&plan, 4, 4),
        with_ring(&a.rings, 4, &[4, 1, 2, 3]),
        with_ring(&a.rings, 0, &[1, 4, 4, 3]),
        with_ring(&a.rings, 0, &[1, 3]),
        without_contact(&a.rings, 0, 4),
        with_ring(&a.rings, 1, &[4, 0, 2]),
        with_ring(&a.rings, 4, &[1, 0, 2, 3]),
        file(&a.rings, Some(&up), None),
        file(&d.rings, d.labels.as_deref(), Some(&[1; 26])),
        with_number(&b.whole(), b.whole().len() - 26, 4),
    ]
}

/// Plans of 200 contexts, one of each family, and a plan beside a torus with labels: all calls, damaged charts and labels.
fn large_plans(items: &mut Items) {
    let mut random = Random::new(106);
    for family in 0..FAMILIES.len() {
        let rings = large_rings(family, &mut random);
        let case = Case::swept(disguise(&rings, &mut random));
        large_plan(items, &case, &mut random);
    }
    let part = Case::swept(irreducible(100, &mut random));
    let torus = torus_labels(100, &mut random);
    let labels = [part.labels.expect("labels"), torus].concat();
    let case = Case::labelled(beside(&part.rings, &ring_torus(100)), &labels);
    large_plan(items, &case, &mut random);
    items.ring(200, &case.plain());
}

/// A plan of a family with 200 contexts.
fn large_rings(family: usize, random: &mut Random) -> Rings {
    loop {
        let rings = plan_of_family(family, 200, random);
        if rings.len() == 200 {
            return rings;
        }
    }
}

/// A large plan through all calls, then with damaged labels, rings and a damaged chart, and written into buffers that just fit or not.
fn large_plan(items: &mut Items, case: &Case, random: &mut Random) {
    all_calls(items, case);
    let labels = case.some_labels(random);
    items.offer(&damaged_labels(&labels, random));
    items.offer(&labels[1..]);
    items.offer(&labels_with_other_edge(&case.rings, &labels, random));
    let length = case.whole().len();
    items.write(length - 1);
    items.write(length);
    items.ring(case.n() as u16 - 1, &case.plain());
    items.open(&file(&damaged_rings(&case.rings, random), None, None));
    if let Some(chart) = &case.numbers {
        let damaged = damaged_chart(chart, random);
        items.open(&file(&case.rings, case.labels.as_deref(), Some(&damaged)));
    }
}

/// Sweeps of the trenches, of plans with mutual neighbours that are no face, of tori, and of 200 contexts of each family.
fn sweeps(items: &mut Items) {
    let mut random = Random::new(107);
    items.fresh();
    items.sweep();
    for case in trenches() {
        for file in case.files() {
            swept(items, &file);
        }
    }
    for _ in 0..24 {
        let n = random.between(6, 40);
        swept(items, &file(&reducible(n, &mut random), None, None));
        swept(items, &file(&random_odd(40, &mut random), None, None));
        let torus = beside(&irreducible(n, &mut random), &ring_torus(7));
        swept(items, &file(&torus, None, None));
        swept(items, &file(&irreducible(n, &mut random), None, None));
    }
    for family in 0..FAMILIES.len() {
        let rings = large_rings(family, &mut random);
        swept(items, &file(&disguise(&rings, &mut random), None, None));
    }
}

/// Open, scan, sweep, chart, sweep again.
fn swept(items: &mut Items, file: &[u8]) {
    items.open(file);
    items.scan();
    items.sweep();
    items.chart();
    items.sweep();
}

/// Turns: bad lists at each stage of B, every edge of B both ways, lists on larger plans.
fn turns(items: &mut Items) {
    let [_, b, ..] = trenches();
    items.fresh();
    bad_turns(items);
    for file in b.files() {
        items.open(&file);
        bad_turns(items);
    }
    every_turn(items, &b);
    let mut random = Random::new(108);
    for n in [9, 14, 23, 40, 200] {
        let case = Case::swept(irreducible(n, &mut random));
        items.open(&case.whole());
        for _ in 0..30 {
            let list = turn_list(&case.rings, 3, &mut random);
            items.turn(random.below(2) as u8, &list);
        }
        items.chart();
    }
}

/// Lists that are no good for B: 15 at each place, bad directions, odd lists, and the good list of nothing.
fn bad_turns(items: &mut Items) {
    for direction in [0, 1, 2, 255] {
        items.turn(direction, &[0, 1]);
        items.turn(direction, &[4, 5, 5, 4]);
        items.turn(direction, &[4, 5, 4, 5]);
        items.turn(direction, &[4, 5, 4, 4]);
        items.turn(direction, &[4, 5, 6, 4]);
        items.turn(direction, &[65535, 4]);
        items.turn(direction, &[4, 0]);
        items.turn(direction, &[4, 5, 1, 5, 2, 4, 3, 1]);
        items.turn(direction, &[4, 5, 0]);
        items.turn(direction, &[7]);
        items.turn(direction, &[4, 5]);
        items.turn(direction, &[]);
        items.chart();
    }
}

/// Every pair of contexts turned both ways, each on the sheet as it is then.
fn every_turn(items: &mut Items, case: &Case) {
    items.open(&case.whole());
    for u in 0..case.n() as u16 {
        for v in 0..case.n() as u16 {
            items.turn(0, &[u, v]);
            items.turn(1, &[u, v]);
        }
    }
}
