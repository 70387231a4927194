//! Lists of calls with refusals in between, on the four trenches and on larger plans.

use crate::case::Case;
use crate::items::Items;
use crate::vectors::{around, refused_files, trenches};
use generate::damage::{damaged_chart, damaged_file, damaged_labels, damaged_turn_list, turn_list};
use generate::edit::disguise;
use generate::families::irreducible;
use generate::file::file;
use generate::sample::plan_of_family;
use generate::Random;
use reference::{open, turn};

/// Random lists of calls on the four trenches and twelve larger plans, each on a fresh sheet.
pub fn call_lists(items: &mut Items) {
    let mut random = Random::new(202);
    for case in trenches() {
        call_list(items, &case, 60, &mut random);
    }
    for index in 0..12 {
        let n = random.between(24, 60);
        let rings = match index {
            0..9 => plan_of_family(index, n, &mut random),
            _ => irreducible(n, &mut random),
        };
        let case = Case::swept(disguise(&rings, &mut random));
        call_list(items, &case, 40, &mut random);
    }
}

/// A random list of calls on a fresh sheet; then those that change a sheet once more, as one script, whole and damaged.
fn call_list(items: &mut Items, case: &Case, count: usize, random: &mut Random) {
    items.fresh();
    let start = items.calls.len();
    for _ in 0..count {
        match random.below(13) {
            0 | 1 => open_call(items, case, random),
            2 | 3 => offer_call(items, case, random),
            4 | 5 => items.chart(),
            6 => items.scan(),
            7 => write_call(items, case, random),
            8 => items.keep(),
            9 => items.same(),
            10 => items.sweep(),
            _ => turn_call(items, case, random),
        }
    }
    let calls = items.calls[start..].to_vec();
    scripts(items, &calls, random);
}

/// A script whole and cut; a short one also with an item behind it that is none of its calls.
fn scripts(items: &mut Items, calls: &[u8], random: &mut Random) {
    items.script(calls);
    items.script(&calls[..random.below(calls.len())]);
    if calls.len() < 2_000 {
        let long_turn = [&[4, 99, 9, 0], [0; 2403].as_slice()].concat();
        let ends: [&[u8]; 7] = [
            &[0, 0, 0, 0],
            &[6, 2, 0, 0, 9, 0],
            &[3, 1, 0, 0, 7],
            &[5, 1, 0, 0, 7],
            &[4, 0, 0, 0],
            &[4, 2, 0, 0, 0, 0],
            &long_turn,
        ];
        for end in ends {
            items.script(&[calls, end, calls].concat());
        }
    }
}

/// Opens one of the plan's files, a damaged one, one with a damaged chart, or one that is refused.
fn open_call(items: &mut Items, case: &Case, random: &mut Random) {
    let files = case.files();
    let bytes = random.pick(&files).clone();
    match random.below(6) {
        0 => items.open(&damaged_file(&bytes, random)),
        1 => items.open(random.pick::<Vec<u8>>(&refused_files())),
        2 => match &case.numbers {
            Some(chart) => {
                let damaged = damaged_chart(chart, random);
                items.open(&file(&case.rings, case.labels.as_deref(), Some(&damaged)));
            }
            None => items.open(&bytes),
        },
        _ => items.open(&bytes),
    }
}

/// Offers the plan's labels, damaged ones, or those after a turn.
fn offer_call(items: &mut Items, case: &Case, random: &mut Random) {
    let labels = case.some_labels(random);
    match random.below(3) {
        0 => items.offer(&damaged_labels(&labels, random)),
        1 => items.offer(&turned_labels(case, random).unwrap_or(labels)),
        _ => items.offer(&labels),
    }
}

/// The labels after a turn of one edge that is accepted, if one is found.
fn turned_labels(case: &Case, random: &mut Random) -> Option<Vec<u8>> {
    let mut sheet = open(&case.with_labels()).ok()?;
    for _ in 0..60 {
        let list = turn_list(&case.rings, 1, random);
        let direction = random.below(2) as u8;
        if !list.is_empty() && turn(&mut sheet, &list, direction).is_ok() {
            return sheet.labels().map(|labels| labels.bytes().to_vec());
        }
    }
    None
}

/// Writes into a buffer around what one of the plan's files needs.
fn write_call(items: &mut Items, case: &Case, random: &mut Random) {
    let mut lengths = Vec::new();
    for file in case.files() {
        around(file.len(), |length| lengths.push(length));
    }
    items.write(*random.pick(&lengths));
}

/// Turns a good list or a damaged one, seldom in no direction.
fn turn_call(items: &mut Items, case: &Case, random: &mut Random) {
    let mut list = turn_list(&case.rings, 2, random);
    if random.once_in(3) {
        list = damaged_turn_list(&list, case.n(), random);
    }
    items.turn(*random.pick(&[0, 1, 0, 1, 2]), &list);
}
