//! The proved engine against the independent implementation, on many inputs, valid and damaged, long and short.

mod both;

use both::Both;
use generate::damage::*;
use generate::file::file;
use generate::odd::{trench_d, trench_d_labels};
use generate::sample::{any_plan, plan_of_family, small_plan, FAMILIES};
use generate::{Random, Rings};
use std::collections::BTreeMap;

/// The files of a plan at each stage that it reaches.
fn files_of(rings: &Rings) -> Vec<Vec<u8>> {
    let plan = file(rings, None, None);
    let mut sheet = reference::open(&plan).expect("a generated plan keeps the rules");
    let mut files = vec![plan];
    if reference::sweep(&mut sheet).is_ok() {
        files.push(reference::encode(&sheet));
        if reference::chart(&mut sheet).is_ok() {
            files.push(reference::encode(&sheet));
        }
    }
    files
}

/// Some labels for a plan: those of its sweep, or any.
fn labels_of(rings: &Rings, random: &mut Random) -> Vec<u8> {
    let mut sheet = reference::open(&file(rings, None, None)).expect("a plan");
    let count = rings.iter().map(Vec::len).sum();
    match reference::sweep(&mut sheet) {
        Ok(()) => sheet.labels().expect("labels").bytes().to_vec(),
        Err(_) => random_labels(count, random),
    }
}

/// One random call on both.
fn any_call(both: &mut Both, rings: &Rings, files: &[Vec<u8>], random: &mut Random) {
    match random.below(10) {
        0 => both.open(random.pick::<Vec<u8>>(files)),
        1 => {
            let bytes = random.pick::<Vec<u8>>(files).clone();
            both.open(&damaged_file(&bytes, random))
        }
        2 => both.offer(&labels_of(rings, random)),
        3 => {
            let labels = labels_of(rings, random);
            both.offer(&damaged_labels(&labels, random))
        }
        4 => both.sweep(),
        5 | 6 => both.chart(),
        7 => both.turn(&turn_list(rings, 3, random), random.below(2) as u8),
        8 => {
            let list = turn_list(rings, 6, random);
            let damaged = damaged_turn_list(&list, rings.len(), random);
            both.turn(&damaged, random.below(3) as u8)
        }
        _ => both.look(random.below(rings.len() + 2) as u16),
    }
}

/// Lists of calls on plans of every kind, refusals included; after each call the sheets are the same bytes.
#[test]
fn lists_of_calls() {
    let mut random = Random::new(301);
    let mut both = Both::default();
    for _ in 0..1500 {
        let rings = any_plan(60, &mut random);
        let files = files_of(&rings);
        both.fresh();
        for _ in 0..30 {
            any_call(&mut both, &rings, &files, &mut random);
        }
    }
    both.report("lists of calls");
}

/// Files of every stage, whole and damaged.
#[test]
fn damaged_files() {
    let mut random = Random::new(302);
    let mut both = Both::default();
    for _ in 0..2000 {
        let rings = small_plan(&mut random);
        for bytes in files_of(&rings) {
            both.open(&bytes);
            both.ring(&bytes, random.below(rings.len() + 1) as u16);
            for _ in 0..6 {
                let damaged = damaged_file(&bytes, &mut random);
                both.open(&damaged);
                both.ring(&damaged, random.below(rings.len() + 1) as u16);
            }
        }
        let damaged = damaged_rings(&rings, &mut random);
        both.open(&file(&damaged, None, None));
    }
    both.report("damaged files");
}

/// Every cut of small files.
#[test]
fn cut_files() {
    let mut random = Random::new(303);
    let mut both = Both::default();
    for _ in 0..40 {
        for bytes in files_of(&small_plan(&mut random)) {
            for cut in cuts(&bytes) {
                both.open(cut);
            }
        }
    }
    both.report("cut files");
}

/// Plans of 200 contexts of each family, through all calls; and a file of 200 rings of 199 entries.
#[test]
fn large_plans() {
    let mut random = Random::new(304);
    let mut both = Both::default();
    for family in 0..FAMILIES.len() {
        for _ in 0..3 {
            let rings = plan_of_family(family, 200, &mut random);
            let files = files_of(&rings);
            both.fresh();
            for bytes in &files {
                both.open(bytes);
                both.look(199);
            }
            for _ in 0..12 {
                any_call(&mut both, &rings, &files, &mut random);
            }
        }
    }
    let wide: Rings = (0..200u16)
        .map(|u| (0..200).filter(|&v| v != u).collect())
        .collect();
    both.open(&file(&wide, None, None));
    both.report("large plans");
}

/// Buffers of every length around the one that is needed: a short one stays as it was, and so do bytes behind the file.
#[test]
fn buffers() {
    let mut random = Random::new(305);
    let mut both = Both::default();
    for _ in 0..60 {
        for bytes in files_of(&small_plan(&mut random)) {
            for room in [
                0,
                1,
                bytes.len() - 1,
                bytes.len(),
                bytes.len() + 1,
                bytes.len() + 70,
            ] {
                both.open_into(&bytes, room);
                both.sweep_into(&bytes, room);
            }
        }
    }
    both.report("buffers");
}

/// All seventeen refusals occur, each with the same place on both sides.
#[test]
fn every_refusal() {
    let mut random = Random::new(306);
    let mut both = Both::default();
    both.open(&file(&trench_d(), Some(&trench_d_labels()), None));
    both.chart();
    both.sweep();
    both.fresh();
    both.chart();
    for _ in 0..500 {
        let rings = small_plan(&mut random);
        let files = files_of(&rings);
        both.open(&files[0]);
        both.offer(&[4; 3]);
        both.ring(&files[0], rings.len() as u16);
        both.open_into(&files[0], 5);
        for _ in 0..20 {
            any_call(&mut both, &rings, &files, &mut random);
        }
        both.open(&file(
            &random_rings(random.between(4, 9), &mut random),
            None,
            None,
        ));
        both.open(&file(&damaged_rings(&rings, &mut random), None, None));
        both.open(&[1, 0, 0]);
    }
    let seen: BTreeMap<u8, usize> = both.report("every refusal");
    assert_eq!(
        seen.keys().copied().collect::<Vec<_>>(),
        (1..=17).collect::<Vec<_>>()
    );
}
