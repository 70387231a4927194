//! Times each call of the engine and of the independent implementation, in one run.
//!
//! From the folder rust, after `tools/staticlib` in the repository's root:
//!
//!     cargo run --release --example times
//!
//! Both sides do the same work: they open the sheet that is handed over as bytes, make the call, and write the new sheet into a
//! buffer that is not cleared in between. A figure is the least of 60 rounds, in µs, the engine's before the stroke; the two take turns, 15 rounds at a time.

use generate::edit::{disguise, flip, random_dart};
use generate::families::{column, fan_behind_column, irreducible, irreducible_with_hubs, wheel};
use generate::file::file;
use generate::{Random, Rings};
use reference::Sheet;
use std::hint::black_box;
use std::time::Instant;

/// The least time of a call in 15 rounds of four, in µs.
fn rounds(call: &mut impl FnMut() -> u64) -> f64 {
    let mut round = || {
        let start = Instant::now();
        for _ in 0..4 {
            black_box(call());
        }
        start.elapsed().as_secs_f64() * 1e6 / 4.0
    };
    (0..15).fold(f64::MAX, |least, _| least.min(round()))
}

/// The least times of two calls in 60 rounds each, in µs. They take turns, 15 rounds at a time, so that a change of the machine's clock meets both.
fn least(mut one: impl FnMut() -> u64, mut other: impl FnMut() -> u64) -> (f64, f64) {
    (0..4).fold((f64::MAX, f64::MAX), |(a, b), _| {
        (a.min(rounds(&mut one)), b.min(rounds(&mut other)))
    })
}

/// The sheet of a file that the engine wrote.
fn open(file: &[u8]) -> Sheet {
    reference::open(file).expect("a file of the engine's")
}

/// The sheet of a file, after a call, written into a buffer.
fn plain(file: &[u8], out: &mut [u8], call: impl FnOnce(&mut Sheet)) -> u64 {
    let mut sheet = open(file);
    call(&mut sheet);
    reference::write(&sheet, out).expect("room for the file") as u64
}

/// Every inner edge of a plan once.
fn inner_edges(rings: &Rings) -> Vec<u16> {
    let darts = (0u16..)
        .zip(rings)
        .flat_map(|(u, ring)| ring.iter().map(move |&v| (u, v)));
    darts
        .filter(|&(u, v)| u < v && v >= 4)
        .flat_map(|(u, v)| [u, v])
        .collect()
}

/// The row of a plan.
fn row(name: &str, rings: &Rings) {
    let plan = file(rings, None, None);
    let mut sheet = open(&plan);
    reference::sweep(&mut sheet).expect("labels");
    let labels = sheet.labels().expect("labels").bytes().to_vec();
    let labelled = reference::encode(&sheet);
    reference::chart(&mut sheet).expect("a chart");
    let charted = reference::encode(&sheet);
    let edges = inner_edges(rings);
    let (mut one, mut two) = (vec![0; 8192], vec![0; 8192]);
    let mut cells = vec![name.to_string(), rings.len().to_string()];
    let mut cell = |(engine, plain): (f64, f64)| cells.push(format!("{engine:.1} / {plain:.1}"));
    use engine::raw::*;
    for bytes in [&plan, &labelled, &charted] {
        cell(least(
            || open_into(bytes, &mut one),
            || plain_open(bytes, &mut two),
        ));
    }
    cell(least(
        || sweep_into(&plan, &mut one),
        || {
            plain(&plan, &mut two, |s| {
                let _ = reference::sweep(s);
            })
        },
    ));
    cell(least(
        || offer_into(&plan, &labels, &mut one),
        || {
            plain(&plan, &mut two, |s| {
                let _ = reference::offer(s, &labels);
            })
        },
    ));
    cell(least(
        || turn_into(&labelled, &edges, 0, &mut one),
        || {
            plain(&labelled, &mut two, |s| {
                let _ = reference::turn(s, &edges, 0);
            })
        },
    ));
    cell(least(
        || chart_into(&labelled, &mut one),
        || {
            plain(&labelled, &mut two, |s| {
                let _ = reference::chart(s);
            })
        },
    ));
    cell(least(
        || scan_of(&plan),
        || reference::scan(&open(&plan)).is_ok() as u64,
    ));
    cell(least(
        || same_of(&charted, &charted),
        || reference::same(&open(&charted), &open(&charted)).is_ok() as u64,
    ));
    cell(least(
        || ring_of(&plan, 4),
        || reference::ring(&plan, 4).is_ok() as u64,
    ));
    println!("| {} |", cells.join(" | "));
}

/// A file opened and written.
fn plain_open(file: &[u8], out: &mut [u8]) -> u64 {
    plain(file, out, |_| ())
}

/// The time of the engine's sweep of a plan, in µs.
fn sweep_time(rings: &Rings, out: &mut [u8]) -> f64 {
    let plan = file(rings, None, None);
    let round = || {
        let start = Instant::now();
        black_box(engine::raw::sweep_into(&plan, out));
        start.elapsed().as_secs_f64() * 1e6
    };
    std::iter::repeat_with(round)
        .take(5)
        .fold(f64::MAX, f64::min)
}

/// A plan that is hard for the sweep: flips of edges that keep it irreducible, those kept that make the sweep slower.
fn hard_for_the_sweep(n: usize, random: &mut Random) -> Rings {
    let mut out = vec![0; 8192];
    let mut hardest = irreducible(n, random);
    for _ in 0..4000 {
        let mut tried = hardest.clone();
        for _ in 0..random.between(1, 4) {
            if let Some((u, v)) = random_dart(&tried, random) {
                flip(&mut tried, u, v, true);
            }
        }
        if sweep_time(&tried, &mut out) > sweep_time(&hardest, &mut out) {
            hardest = tried;
        }
    }
    hardest
}

fn main() {
    let mut random = Random::new(7);
    println!("| family | n | open | with labels | with chart | sweep | offer | turn of all edges | chart | scan | same | ring |");
    println!("|{}", "---|".repeat(12));
    let sizes = [10, 25, 50, 100, 200];
    for n in sizes {
        row("irreducible", &irreducible(n, &mut random));
    }
    for n in sizes {
        row(
            "irreducible with hubs",
            &irreducible_with_hubs(n, &mut random),
        );
    }
    for n in sizes {
        row("column", &column(n));
    }
    for n in sizes {
        row("column, renumbered", &disguise(&column(n), &mut random));
    }
    for n in sizes {
        row("wheel", &wheel(n, &mut random));
    }
    for n in sizes {
        let fan = fan_behind_column(n / 4 - 1, n - n / 4 - 4);
        row(
            "fan behind a column, renumbered",
            &disguise(&fan, &mut random),
        );
    }
    for n in sizes {
        row("hard for the sweep", &hard_for_the_sweep(n, &mut random));
    }
}
