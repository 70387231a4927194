//! Charts: least among all placements, areas, and each point in one face.

mod common;

use common::opened;
use generate::sample::{any_plan, plan_of_family};
use generate::{families, Random, Rings};
use reference::{plain, *};

/// All label lists of a plan that keep the rules, each as a labelled sheet.
///
/// The darts of the border contexts have one label each; the other edges are tried in all ways.
fn all_labellings(rings: &Rings) -> Vec<Sheet> {
    let sheet = opened(rings);
    let plan = sheet.plan().unwrap();
    let mut labels = vec![4; 6 * rings.len() - 14];
    let mut free = Vec::new();
    for u in 0..plan.n() {
        for dart in plan.darts(u) {
            let v = plan.ring(u)[dart - plan.darts(u).start] as usize;
            if u < 4 && v >= 4 {
                labels[dart] = [2, 3, 0, 1][u];
                labels[plan.back(dart)] = (labels[dart] + 2) % 4;
            }
            if 4 <= u && u < v {
                free.push(dart);
            }
        }
    }
    let mut found = Vec::new();
    for code in 0..1u64 << (2 * free.len()) {
        for (at, &dart) in free.iter().enumerate() {
            labels[dart] = (code >> (2 * at) & 3) as u8;
            labels[plan.back(dart)] = (labels[dart] + 2) % 4;
        }
        let mut copy = sheet.clone();
        if offer(&mut copy, &labels).is_ok() {
            found.push(copy);
        }
    }
    found
}

/// The least values of one coordinate among all that keep the rules, by trying all values up to
/// n. Values: one for each inner context, then the width or the height. The rules say:
/// value b is at least value a plus c, where nothing stands for zero.
fn least_values(count: usize, most: u16, rules: &[Rule]) -> Option<Vec<u16>> {
    let mut values = vec![0; count];
    let mut least: Option<Vec<u16>> = None;
    let keeps = |values: &[u16]| {
        let value = |index: Option<usize>| index.map_or(0, |index| values[index]);
        rules.iter().all(|&(a, b, c)| value(b) >= value(a) + c)
    };
    loop {
        if keeps(&values) {
            let old = least.unwrap_or_else(|| values.clone());
            let both = old.iter().zip(&values);
            least = Some(both.map(|(&one, &other)| one.min(other)).collect());
        }
        let Some(at) = values.iter().position(|&value| value < most) else {
            break;
        };
        values[..at].fill(0);
        values[at] += 1;
    }
    // The least of all placements must be one of them.
    least.inspect(|values| assert!(keeps(values)))
}

/// Value b is at least value a plus c.
type Rule = (Option<usize>, Option<usize>, u16);

/// The chart of a labelled sheet by trying all values, or nothing if there is no placement.
fn chart_by_trial(sheet: &Sheet) -> Option<Chart> {
    let (plan, labels) = (sheet.plan().unwrap(), sheet.labels().unwrap());
    let n = plan.n();
    let inner = n - 4;
    let x = |u: usize| match u {
        0 | 1 => Some(inner),
        2 | 3 => None,
        _ => Some(u - 4),
    };
    let y = |u: usize| match u {
        0 | 3 => Some(inner),
        1 | 2 => None,
        _ => Some(u - 4),
    };
    let (mut rules_x, mut rules_y) = (Vec::new(), Vec::new());
    for u in 0..n {
        for (&v, dart) in plan.ring(u).iter().zip(plan.darts(u)) {
            let v = v as usize;
            match labels.bytes()[dart] {
                0 => {
                    rules_x.push((x(u), x(v), 0));
                    rules_y.push((y(u), y(v), 1));
                }
                1 => {
                    rules_x.push((x(u), x(v), 1));
                    rules_y.push((y(v), y(u), 0));
                }
                _ => {}
            }
        }
    }
    let most = n as u16 - 2;
    let xs = least_values(inner + 1, most, &rules_x)?;
    let ys = least_values(inner + 1, most, &rules_y)?;
    let (w, h) = (xs[inner], ys[inner]);
    let mut points = vec![(w, h), (w, 0), (0, 0), (0, h)];
    points.extend((0..inner).map(|u| (xs[u], ys[u])));
    Some(Chart { w, h, points })
}

#[test]
fn charts_are_least() {
    let mut random = Random::new(21);
    let mut count = 0;
    let mut small: Vec<Rings> = vec![families::trench_a(), families::trench_b()];
    small.extend((0..150).map(|_| families::irreducible(random.between(5, 9), &mut random)));
    small.extend((0..6).map(|_| families::irreducible(10, &mut random)));
    for rings in small {
        for mut sheet in all_labellings(&rings) {
            let by_trial = chart_by_trial(&sheet);
            let answer = chart(&mut sheet);
            assert_eq!(answer.is_ok(), by_trial.is_some());
            assert_eq!(sheet.chart(), by_trial.as_ref());
            count += 1;
        }
    }
    println!("charts against all placements: {count}");
    assert!(count > 60);
}

#[test]
fn plans_with_triples_have_no_labels() {
    let mut random = Random::new(22);
    for _ in 0..60 {
        let rings = families::reducible(random.between(6, 8), &mut random);
        if plain::scan(&rings).is_some() {
            assert_eq!(all_labellings(&rings), []);
        }
    }
}

/// A charted sheet, with labels turned at random.
fn random_chart(rings: &Rings, random: &mut Random) -> Option<Sheet> {
    let mut sheet = opened(rings);
    sweep(&mut sheet).ok()?;
    for _ in 0..random.below(60) {
        let list = generate::damage::turn_list(rings, 1, random);
        let _ = turn(&mut sheet, &list, random.below(2) as u8);
    }
    chart(&mut sheet).unwrap();
    Some(sheet)
}

/// Checks the compass rules, the corners and the areas.
fn check_chart(sheet: &Sheet) {
    let (plan, labels) = (sheet.plan().unwrap(), sheet.labels().unwrap());
    let chart = sheet.chart().unwrap();
    let (w, h) = (chart.w, chart.h);
    assert_eq!(chart.points[..4], [(w, h), (w, 0), (0, 0), (0, h)]);
    assert!((w.max(h) as usize) <= plan.n() - 3);
    for u in 0..plan.n() {
        for (&v, dart) in plan.ring(u).iter().zip(plan.darts(u)) {
            let ((ux, uy), (vx, vy)) = (chart.points[u], chart.points[v as usize]);
            match labels.bytes()[dart] {
                0 => assert!(ux <= vx && uy < vy),
                1 => assert!(ux < vx && uy >= vy),
                _ => {}
            }
        }
    }
    let faces = inner_faces(plan);
    assert_eq!(faces.len(), 2 * plan.n() - 6);
    let areas = faces.iter().map(|&face| doubled_area(chart, face));
    assert!(areas.clone().all(|area| area > 0));
    assert_eq!(areas.sum::<i64>(), 2 * w as i64 * h as i64);
}

/// Whether a point is on a line of the plan.
fn is_on_a_line(sheet: &Sheet, p: i64, q: i64, d: i64) -> bool {
    let (plan, chart) = (sheet.plan().unwrap(), sheet.chart().unwrap());
    let at = |u: usize| (chart.points[u].0 as i64 * d, chart.points[u].1 as i64 * d);
    (0..plan.n()).any(|u| {
        plan.ring(u).iter().any(|&v| {
            let ((ux, uy), (vx, vy)) = (at(u), at(v as usize));
            let side = (vx - ux) * (q - uy) - (p - ux) * (vy - uy);
            let beside = |a: i64, b: i64, c: i64| a.min(b) <= c && c <= a.max(b);
            side == 0 && beside(ux, vx, p) && beside(uy, vy, q)
        })
    })
}

/// Checks random points: each one strictly inside the rectangle and on no line is strictly inside
/// one face, each other one inside none. Gives the number of points inside a face.
fn check_points(sheet: &Sheet, random: &mut Random) -> usize {
    let chart = sheet.chart().unwrap();
    let faces = inner_faces(sheet.plan().unwrap());
    let (w, h) = (chart.w as i64, chart.h as i64);
    let mut inside = 0;
    for _ in 0..40 {
        let d = *random.pick(&[1, 2, 3, 7, 256, 1009]);
        let p = random.below((w * d + 2 * d) as usize) as i64 - d;
        let q = random.below((h * d + 2 * d) as usize) as i64 - d;
        let found = faces
            .iter()
            .filter(|&&face| strictly_inside(chart, face, p, q, d));
        let in_rectangle = 0 < p && p < w * d && 0 < q && q < h * d;
        let due = in_rectangle && !is_on_a_line(sheet, p, q, d);
        assert_eq!(found.count(), due as usize);
        inside += due as usize;
    }
    inside
}

#[test]
fn areas_and_points() {
    let mut random = Random::new(23);
    let (mut charts, mut points) = (0, 0);
    for _ in 0..1_500 {
        let rings = any_plan(50, &mut random);
        if let Some(sheet) = random_chart(&rings, &mut random) {
            check_chart(&sheet);
            points += check_points(&sheet, &mut random);
            charts += 1;
        }
    }
    println!("charts: {charts}, points inside a face: {points}");
}

#[test]
fn large_charts() {
    let mut random = Random::new(24);
    let mut charts = 0;
    for family in 0..7 {
        for _ in 0..4 {
            let rings = plan_of_family(family, 200, &mut random);
            let rings = generate::edit::disguise(&rings, &mut random);
            if let Some(sheet) = random_chart(&rings, &mut random) {
                check_chart(&sheet);
                check_points(&sheet, &mut random);
                let labels = plain::labels_by_ring(&rings, sheet.labels().unwrap().bytes());
                let (w, h, points) = plain::chart(&rings, &labels).unwrap();
                let chart = sheet.chart().unwrap();
                assert_eq!((chart.w as i64, chart.h as i64), (w, h));
                let same = |(one, other): (&(u16, u16), &(i64, i64))| {
                    (one.0 as i64, one.1 as i64) == *other
                };
                assert!(chart.points.iter().zip(&points).all(same));
                charts += 1;
            }
        }
    }
    println!("charts of 200 contexts: {charts}");
}
