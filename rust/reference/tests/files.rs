//! Damaged files, turn lists and buffers: the calls against the plain versions, with a count of
//! all refusals.

mod common;

use common::{open_both, opened, Tally};
use generate::damage::*;
use generate::file::{file, numbers, record, record_offsets};
use generate::sample::{any_plan, small_plan};
use generate::{Random, Rings};
use reference::{plain, *};

/// Checks what holds of each file: both versions agree, and an accepted file is written back.
fn check_open(bytes: &[u8], tally: &mut Tally) -> Result<Sheet, Refusal> {
    let answer = open_both(bytes);
    tally.count(&answer);
    if let Ok(sheet) = &answer {
        assert_eq!(encode(sheet), bytes);
    }
    answer
}

/// The files of a plan at each stage that it reaches.
fn files_of(rings: &Rings) -> Vec<Vec<u8>> {
    let mut sheet = opened(rings);
    let mut files = vec![encode(&sheet)];
    if sweep(&mut sheet).is_ok() {
        files.push(encode(&sheet));
    }
    if chart(&mut sheet).is_ok() {
        files.push(encode(&sheet));
    }
    files
}

/// The ring of each context, as the call gives it, against the rings themselves.
fn check_ring(bytes: &[u8], context: usize, tally: &mut Tally) {
    let answer = ring(bytes, context);
    tally.count(&answer);
    match (plain::open(bytes), answer) {
        (Err(refusal), answer) => assert_eq!(answer, Err(refusal)),
        (Ok(parts), answer) => match parts.rings.get(context) {
            None => assert_eq!(answer, Err(Refusal::new(17, parts.rings.len()))),
            Some(ring) => {
                let (offset, length) = answer.unwrap();
                assert_eq!(bytes[offset..offset + length], numbers(ring));
                let owner = record_offsets(bytes)[context + 1];
                assert_eq!(offset, owner + 4);
            }
        },
    }
}

#[test]
fn cut_files() {
    let mut random = Random::new(11);
    let mut tally = Tally::default();
    for _ in 0..60 {
        for bytes in files_of(&small_plan(&mut random)) {
            for cut in cuts(&bytes) {
                let _ = check_open(cut, &mut tally);
            }
            check_open(&bytes, &mut tally).unwrap();
        }
    }
    println!("cut files: {:?}", tally.0);
}

#[test]
fn damaged_files() {
    let mut random = Random::new(12);
    let mut tally = Tally::default();
    for _ in 0..1_500 {
        for bytes in files_of(&small_plan(&mut random)) {
            for _ in 0..20 {
                let mut damaged = damaged_file(&bytes, &mut random);
                while random.once_in(4) && record_offsets(&damaged).len() > 1 {
                    damaged = damaged_end(&damaged, &mut random);
                }
                let _ = check_open(&damaged, &mut tally);
                check_ring(&damaged, random.below(30), &mut tally);
            }
        }
    }
    println!("damaged files: {:?}", tally.0);
}

/// The file with something put at its end.
fn damaged_end(bytes: &[u8], random: &mut Random) -> Vec<u8> {
    let mut bytes = bytes.to_vec();
    match random.below(3) {
        0 => bytes.push(random.bits() as u8),
        1 => bytes.extend(record(random.below(6) as u16, &[])),
        _ => _ = bytes.pop(),
    }
    bytes
}

#[test]
fn damaged_plans() {
    let mut random = Random::new(13);
    let mut tally = Tally::default();
    for _ in 0..20_000 {
        let mut rings = small_plan(&mut random);
        for _ in 0..random.between(1, 2) {
            rings = damaged_rings(&rings, &mut random);
        }
        let _ = check_open(&file(&rings, None, None), &mut tally);
    }
    for _ in 0..3_000 {
        let n = random.between(5, 24);
        let rings = random_rings(n, &mut random);
        let _ = check_open(&file(&rings, None, None), &mut tally);
    }
    println!("damaged plans: {:?}", tally.0);
    let numbers: Vec<u8> = tally.0.into_keys().collect();
    assert_eq!(numbers, [0, 2, 4, 5, 6, 7, 8, 9]);
}

#[test]
fn wide_rings() {
    // All contexts are neighbours: rules 4 to 6 hold, and the total is wrong.
    let all = |n: u16| -> Rings {
        let ring = |u| (0..n).filter(|&v| v != u).collect();
        (0..n).map(ring).collect()
    };
    let mut tally = Tally::default();
    let refused = check_open(&file(&all(200), None, None), &mut tally);
    assert_eq!(refused, Err(Refusal::new(7, 0)));
    let mut rings = all(200);
    rings[199][198] = 0;
    let refused = check_open(&file(&rings, None, None), &mut tally);
    assert_eq!(refused, Err(Refusal::new(5, 199)));
    let mut rings = all(200);
    rings[199].pop();
    let refused = check_open(&file(&rings, None, None), &mut tally);
    assert_eq!(refused, Err(Refusal::new(6, 198)));
    let mut rings = all(200);
    rings[7].push(7);
    let refused = check_open(&file(&rings, None, None), &mut tally);
    assert_eq!(refused, Err(Refusal::new(2, 6 + 7 * (4 + 398))));
    let empty = vec![Vec::new(); 200];
    let refused = check_open(&file(&empty, None, None), &mut tally);
    assert_eq!(refused, Err(Refusal::new(7, 0)));
    for n in [0, 4, 201, 65535] {
        let refused = check_open(&record(1, &numbers(&[n])), &mut tally);
        assert_eq!(refused, Err(Refusal::new(3, 0)));
    }
}

#[test]
fn labels_and_charts_in_files() {
    let mut random = Random::new(14);
    let mut tally = Tally::default();
    for _ in 0..3_000 {
        let rings = small_plan(&mut random);
        let mut sheet = opened(&rings);
        if sweep(&mut sheet).is_err() {
            continue;
        }
        chart(&mut sheet).unwrap();
        let labels = sheet.labels().unwrap().bytes();
        let points = sheet.chart().unwrap();
        let inner = points.points.iter().flat_map(|&(x, y)| [x, y]);
        let points: Vec<u16> = [points.w, points.h].into_iter().chain(inner).collect();
        for _ in 0..4 {
            let wrong = damaged_chart(&points, &mut random);
            let _ = check_open(&file(&rings, Some(labels), Some(&wrong)), &mut tally);
            let wrong = damaged_labels(labels, &mut random);
            let _ = check_open(&file(&rings, Some(&wrong), Some(&points)), &mut tally);
        }
    }
    println!("labels and charts in files: {:?}", tally.0);
}

/// What turn should answer, by the sentences of the specification.
fn expected_turn(
    sheet: &Sheet,
    rings: &Rings,
    list: &[u16],
    direction: u8,
) -> Result<Sheet, Refusal> {
    let mut labels = plain::labels_by_ring(rings, sheet.labels().unwrap().bytes());
    let pairs: Vec<&[u16]> = list.chunks_exact(2).collect();
    for (index, pair) in pairs.iter().enumerate() {
        let (u, v) = (pair[0], pair[1]);
        let is_edge = rings.get(u as usize).is_some_and(|ring| ring.contains(&v));
        let named = pairs[..index]
            .iter()
            .any(|old| **old == [u, v] || **old == [v, u]);
        if !is_edge || u < 4 && v < 4 || named {
            return Err(Refusal::new(15, index));
        }
    }
    if list.len() % 2 == 1 || direction > 1 {
        return Err(Refusal::new(15, pairs.len()));
    }
    for pair in pairs {
        for (u, v) in [(pair[0], pair[1]), (pair[1], pair[0])] {
            let at = rings[u as usize]
                .iter()
                .position(|&entry| entry == v)
                .unwrap();
            let label = &mut labels[u as usize][at];
            *label = (*label + if direction == 0 { 1 } else { 3 }) % 4;
        }
    }
    match plain::label_refusal(rings, &labels) {
        Some(refusal) => Err(refusal),
        None => open(&file(rings, Some(&labels.concat()), None)),
    }
}

/// Turns and compares; a refused turn leaves the sheet as it was.
fn check_turn(sheet: &mut Sheet, rings: &Rings, list: &[u16], direction: u8, tally: &mut Tally) {
    let expected = expected_turn(sheet, rings, list, direction);
    let before = sheet.clone();
    let answer = turn(sheet, list, direction);
    tally.count(&answer);
    match expected {
        Ok(expected) => {
            assert_eq!(answer, Ok(()));
            assert_eq!(*sheet, expected);
        }
        Err(refusal) => {
            assert_eq!(answer, Err(refusal));
            assert_eq!(*sheet, before);
        }
    }
}

#[test]
fn turns() {
    let mut random = Random::new(15);
    let mut tally = Tally::default();
    for _ in 0..2_000 {
        let rings = any_plan(30, &mut random);
        let mut sheet = opened(&rings);
        if sweep(&mut sheet).is_err() {
            continue;
        }
        for _ in 0..30 {
            let direction = *random.pick(&[0, 1, 0, 1, 0, 1, 2, 255]);
            let mut list = turn_list(&rings, 3, &mut random);
            if random.once_in(3) {
                list = damaged_turn_list(&list, rings.len(), &mut random);
            }
            if random.once_in(3) {
                chart(&mut sheet).unwrap();
            }
            check_turn(&mut sheet, &rings, &list, direction, &mut tally);
        }
        assert_eq!(chart(&mut sheet), Ok(()));
    }
    println!("turns: {:?}", tally.0);
    assert_eq!(tally.0.into_keys().collect::<Vec<_>>(), [0, 10, 15]);
}

#[test]
fn turning_everything_back() {
    let mut random = Random::new(16);
    let mut accepted = 0;
    for _ in 0..400 {
        let rings = generate::families::irreducible(random.between(8, 30), &mut random);
        let mut sheet = opened(&rings);
        sweep(&mut sheet).unwrap();
        for u in 4..rings.len() as u16 {
            for &v in rings[u as usize].iter().filter(|&&v| v > u) {
                for direction in [0, 1] {
                    let before = sheet.clone();
                    if turn(&mut sheet, &[u, v], direction).is_ok() {
                        accepted += 1;
                        assert_ne!(sheet, before);
                        turn(&mut sheet, &[v, u], 1 - direction).unwrap();
                        assert_eq!(sheet, before);
                    }
                }
            }
        }
    }
    println!("turns of one edge accepted: {accepted}");
    assert!(accepted > 300);
}

#[test]
fn buffers() {
    let mut random = Random::new(17);
    let mut tally = Tally::default();
    for _ in 0..300 {
        for bytes in files_of(&any_plan(40, &mut random)) {
            let sheet = open(&bytes).unwrap();
            let length = bytes.len();
            for size in [0, length - 1, length, length + 9, random.below(length)] {
                let mut buffer = vec![201; size];
                let answer = write(&sheet, &mut buffer);
                tally.count(&answer);
                if size < length {
                    assert_eq!(answer, Err(Refusal::new(16, length)));
                    assert_eq!(buffer, vec![201; size]);
                } else {
                    assert_eq!(answer, Ok(length));
                    assert_eq!(buffer[..length], bytes);
                    assert_eq!(buffer[length..], vec![201; size - length]);
                }
            }
        }
    }
    println!("buffers: {:?}", tally.0);
}

#[test]
fn rings_of_accepted_files() {
    let mut random = Random::new(18);
    let mut tally = Tally::default();
    for _ in 0..200 {
        let rings = any_plan(40, &mut random);
        for bytes in files_of(&rings) {
            for context in 0..rings.len() + 2 {
                check_ring(&bytes, context, &mut tally);
            }
            check_ring(&bytes, usize::MAX, &mut tally);
        }
    }
    println!("rings: {:?}", tally.0);
}

/// Counts the answers of all calls over random lists of calls, and sees all of the refusals.
#[test]
fn all_refusals_are_seen() {
    let mut random = Random::new(19);
    let mut tally = Tally::default();
    for _ in 0..6_000 {
        let rings = any_plan(40, &mut random);
        let mut sheet = Sheet::default();
        if !random.once_in(8) {
            open_something(&mut sheet, &rings, &mut random, &mut tally);
        }
        for _ in 0..12 {
            random_call(&mut sheet, &rings, &mut random, &mut tally);
        }
    }
    println!("lists of calls: {:?}", tally.0);
    let seen: Vec<u8> = tally.0.into_keys().collect();
    assert_eq!(seen, (0..=17).collect::<Vec<u8>>());
}

/// One random call.
fn random_call(sheet: &mut Sheet, rings: &Rings, random: &mut Random, tally: &mut Tally) {
    match random.below(9) {
        0 => open_something(sheet, rings, random, tally),
        1 => {
            let labels = match sheet.labels() {
                Some(labels) if random.once_in(2) => damaged_labels(labels.bytes(), random),
                Some(labels) => labels.bytes().to_vec(),
                None => random_labels(6 * rings.len() - 14, random),
            };
            tally.count(&offer(sheet, &labels));
        }
        2 | 3 => tally.count(&sweep(sheet)),
        4 => {
            let list = turn_list(rings, 2, random);
            tally.count(&turn(sheet, &list, random.below(3) as u8));
        }
        5 | 6 => tally.count(&chart(sheet)),
        7 => tally.count(&write(sheet, &mut vec![0; random.below(6_000)])),
        _ => {
            tally.count(&scan(sheet));
            tally.count(&same(sheet, sheet));
            let bytes = encode(sheet);
            tally.count(&ring(&bytes, random.below(50)));
        }
    }
}

/// Opens the plan, a damaged plan, a damaged file, or trench D with labels and a chart.
fn open_something(sheet: &mut Sheet, rings: &Rings, random: &mut Random, tally: &mut Tally) {
    let bytes = match random.below(12) {
        0 => file(&damaged_rings(rings, random), None, None),
        1 => damaged_file(&file(rings, None, None), random),
        2 => {
            let labels = generate::odd::trench_d_labels();
            file(&generate::odd::trench_d(), Some(&labels), Some(&[1; 26]))
        }
        3 => match encode(sheet) {
            bytes if bytes.is_empty() => bytes,
            bytes => damaged_file(&bytes, random),
        },
        4 => {
            let mut copy = sheet.clone();
            let _ = (sweep(&mut copy), chart(&mut copy));
            let mut bytes = encode(&copy);
            if let Some(last) = bytes.last_mut() {
                *last ^= 1;
            }
            bytes
        }
        _ => file(rings, None, None),
    };
    let answer = open_both(&bytes);
    tally.count(&answer);
    if let Ok(opened) = answer {
        *sheet = opened;
    }
}
