//! The fast versions against the plain ones, on generated plans.

mod common;

use common::{flat, open_both, opened, Tally};
use generate::damage::{labels_in_runs, labels_with_other_edge};
use generate::families::{column, fan_behind_column, irreducible, wheel};
use generate::file::file;
use generate::sample::{any_plan, plan_of_family, small_plan, FAMILIES};
use generate::{Random, Rings};
use reference::{plain, *};

/// Compares scan, sweep and, where there are labels, the chart.
fn compare(rings: &Rings, tally: &mut Tally) {
    let mut sheet = opened(rings);
    assert_eq!(scan(&sheet), Ok(plain::scan(rings)), "{rings:?}");
    let answer = sweep(&mut sheet);
    tally.count(&answer);
    let expected = plain::sweep(rings);
    match (answer, expected) {
        (Ok(()), Ok(labels)) => {
            assert_eq!(sheet.labels().unwrap().bytes(), flat(&labels), "{rings:?}");
            compare_chart(&mut sheet, rings, &labels);
        }
        (one, other) => assert_eq!(one, other.map(|_| ()), "{rings:?}"),
    }
}

/// Compares the chart, also through a file.
fn compare_chart(sheet: &mut Sheet, rings: &Rings, labels: &[Vec<u8>]) {
    let expected = plain::chart(rings, labels).map(|(w, h, points)| {
        let numbers = [w, h]
            .into_iter()
            .chain(points.iter().flat_map(|p| [p.0, p.1]));
        numbers.map(|value| value as u16).collect::<Vec<_>>()
    });
    assert_eq!(chart(sheet), expected.clone().map(|_| ()));
    let bytes = file(rings, Some(&flat(labels)), expected.as_deref().ok());
    assert_eq!(encode(sheet), bytes);
    assert_eq!(open(&bytes).as_ref(), Ok(&*sheet));
}

#[test]
fn small_plans() {
    let mut random = Random::new(1);
    let mut tally = Tally::default();
    for _ in 0..20_000 {
        compare(&small_plan(&mut random), &mut tally);
    }
    println!("small plans, sweep: {:?}", tally.0);
}

#[test]
fn plans_of_all_families() {
    let mut random = Random::new(2);
    let mut tally = Tally::default();
    for _ in 0..12_000 {
        compare(&any_plan(40, &mut random), &mut tally);
    }
    println!("all families, sweep: {:?}", tally.0);
    assert_eq!(tally.0.keys().copied().collect::<Vec<_>>(), [0, 10, 14]);
}

#[test]
fn odd_plans() {
    let mut random = Random::new(3);
    let mut tally = Tally::default();
    for _ in 0..12_000 {
        let most = random.between(24, 44);
        compare(&generate::odd::random_odd(most, &mut random), &mut tally);
    }
    println!("odd plans, sweep: {:?}", tally.0);
}

#[test]
fn large_plans() {
    let mut random = Random::new(4);
    for (family, name) in FAMILIES.iter().enumerate() {
        let mut tally = Tally::default();
        for n in [60, 75, 90, 200] {
            let rings = plan_of_family(family, n, &mut random);
            compare(&rings, &mut tally);
        }
        println!("{name}, sweep: {:?}", tally.0);
    }
    let mut tally = Tally::default();
    compare(&fan_behind_column(49, 146), &mut tally);
}

#[test]
fn flat_families_have_labels_and_charts() {
    let mut random = Random::new(7);
    for n in 5..=200 {
        check_flat(&irreducible(n, &mut random));
        check_flat(&column(n));
        for family in (0..7).filter(|&family| n >= 24 && family != 2) {
            check_flat(&plan_of_family(family, n, &mut random));
        }
    }
}

/// Checks that a plan has no triple, labels and a chart.
fn check_flat(rings: &Rings) {
    let mut sheet = opened(rings);
    assert_eq!(scan(&sheet), Ok(None));
    assert_eq!(sweep(&mut sheet), Ok(()));
    assert_eq!(chart(&mut sheet), Ok(()));
    assert_eq!(open(&encode(&sheet)).as_ref(), Ok(&sheet));
}

#[test]
fn labels_of_small_plans() {
    let mut random = Random::new(5);
    let mut tally = Tally::default();
    for _ in 0..3_000 {
        let rings = small_plan(&mut random);
        let count = 6 * rings.len() - 14;
        let mut labels = match plain::sweep(&rings) {
            Ok(labels) => flat(&labels),
            Err(_) => generate::damage::random_labels(count, &mut random),
        };
        for _ in 0..8 {
            let offered = generate::damage::damaged_labels(&labels, &mut random);
            tally.count(&compare_offer(&rings, &offered));
            if offered.len() == count && random.once_in(2) {
                labels = offered;
            }
        }
    }
    println!("offered labels: {:?}", tally.0);
}

#[test]
fn labels_with_changed_edges_and_rings() {
    let mut random = Random::new(8);
    let mut tally = Tally::default();
    for count in 0..3_000 {
        let rings = if count % 2 == 0 {
            wheel(random.between(9, 30), &mut random)
        } else {
            small_plan(&mut random)
        };
        let labels = match plain::sweep(&rings) {
            Ok(labels) => flat(&labels),
            Err(_) => continue,
        };
        let inner = random.between(4, rings.len() - 1) as u16;
        for context in [4, inner] {
            let offered = labels_in_runs(&rings, &labels, context, &mut random);
            tally.count(&compare_offer(&rings, &offered));
        }
        let offered = labels_with_other_edge(&rings, &labels, &mut random);
        tally.count(&compare_offer(&rings, &offered));
    }
    println!("changed edges and rings: {:?}", tally.0);
}

/// Compares offer with the plain label rules and with open.
fn compare_offer(rings: &Rings, offered: &[u8]) -> Result<(), Refusal> {
    let mut sheet = opened(rings);
    let answer = offer(&mut sheet, offered);
    if offered.len() != 6 * rings.len() - 14 {
        assert_eq!(answer, Err(Refusal::new(2, 0)));
        return answer;
    }
    let by_ring = plain::labels_by_ring(rings, offered);
    assert_eq!(answer.err(), plain::label_refusal(rings, &by_ring));
    let opened = open_both(&file(rings, Some(offered), None));
    assert_eq!(opened.as_ref().err(), answer.as_ref().err());
    if let Ok(opened) = opened {
        assert_eq!(opened, sheet);
    }
    answer
}

#[test]
fn labelled_tori_have_no_chart() {
    let mut random = Random::new(6);
    for count in 0..600 {
        let part = generate::families::irreducible(random.between(5, 20), &mut random);
        let torus = if count % 2 == 0 {
            generate::odd::ring_torus(random.between(7, 30))
        } else {
            generate::odd::grid_torus(random.between(3, 6), random.between(3, 6))
        };
        let mut labels = flat(&plain::sweep(&part).unwrap());
        labels.extend(generate::odd::torus_labels(torus.len(), &mut random));
        let rings = generate::odd::beside(&part, &torus);
        assert_eq!(compare_offer(&rings, &labels), Ok(()));
        let mut sheet = opened(&rings);
        offer(&mut sheet, &labels).unwrap();
        assert_eq!(chart(&mut sheet), Err(Refusal::new(11, 0)));
        let by_ring = plain::labels_by_ring(&rings, &labels);
        assert_eq!(plain::chart(&rings, &by_ring), Err(Refusal::new(11, 0)));
    }
}
