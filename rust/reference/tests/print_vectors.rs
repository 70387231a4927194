//! The stored vectors of the program `trial_print`, the stored run of `sheetprint` and the plan files of the folder examples:
//! they are those that the example `print_vectors` makes.

#[path = "../examples/calls_items/case.rs"]
#[allow(dead_code)]
mod case;
#[path = "../examples/print_vectors/inputs.rs"]
mod inputs;
#[path = "../examples/print_vectors/plans.rs"]
mod plans;
#[path = "../examples/print_vectors/printed.rs"]
mod printed;

use reference::{open, sheetprint, PRINT_LIMIT};
use std::collections::BTreeSet;
use std::path::Path;

const INPUTS: &[u8] = include_bytes!("../../../crates/trial_print/stdin");
const PRINTED: &str = include_str!("../../../crates/trial_print/stdout");

/// A file below the repository's root.
fn stored(name: &str) -> Vec<u8> {
    let root = Path::new(env!("CARGO_MANIFEST_DIR")).join("../..");
    std::fs::read(root.join(name)).unwrap_or_else(|error| panic!("{name}: {error}"))
}

#[test]
fn the_inputs_are_the_generated_ones() {
    assert!(INPUTS == inputs::framed());
    assert!(INPUTS.len() <= 65_536, "the program reads no more");
}

#[test]
fn the_text_is_the_reference_s() {
    let text = printed::run(INPUTS);
    for (at, (stored, found)) in PRINTED.lines().zip(text.lines()).enumerate() {
        assert_eq!(stored, found, "line {}", at + 1);
    }
    assert!(PRINTED == text);
}

/// Each refusal that sheetprint can print is among them: those of open, 14 and 10 of the sweep.
#[test]
fn every_refusal() {
    let numbers: BTreeSet<u8> = PRINTED
        .lines()
        .filter_map(|line| line.strip_prefix("refused "))
        .filter_map(|line| line.split(' ').next()?.parse().ok())
        .collect();
    assert_eq!(numbers, (1..=12).chain([14]).collect());
    assert!(PRINTED.contains("triangle 5 6 7\nrefused 10 at 5\n"));
    assert!(PRINTED.contains("triangle 0 1 4\nrefused 14 at 0\n"));
}

/// A file with labels is swept again: the chart that it holds is not the one that is printed.
#[test]
fn it_sweeps_again() {
    let bytes = inputs::other_labels();
    let sheet = open(&bytes).expect("a file");
    let chart = sheet.chart().expect("a chart");
    let held: Vec<String> = (chart.points.iter().enumerate())
        .map(|(u, (x, y))| format!("{u} {x} {y}"))
        .collect();
    let text = sheetprint(&bytes);
    let printed: Vec<&str> = text.lines().skip(3).collect();
    assert_eq!(printed.len(), held.len());
    assert_ne!(printed, held);
}

/// The cut at 8,192 bytes makes a 1 of another refusal.
#[test]
fn the_cut_makes_a_1() {
    let inputs = inputs::inputs();
    let long: Vec<_> = inputs.iter().filter(|b| b.len() > PRINT_LIMIT).collect();
    assert_eq!(long.len(), 2);
    for input in long {
        assert!(open(input).expect_err("a refusal").number > 1);
        assert!(sheetprint(input).starts_with("refused 1 at "));
    }
}

#[test]
fn the_stored_run_is_trench_b() {
    assert_eq!(stored("crates/sheetprint/stdin"), plans::plan("b").unwrap());
    let text = sheetprint(&stored("crates/sheetprint/stdin"));
    assert_eq!(stored("crates/sheetprint/stdout"), text.into_bytes());
}

#[test]
fn the_plan_files_are_the_generated_ones() {
    for name in plans::NAMES {
        let file = stored(&format!("examples/{name}.plan"));
        assert_eq!(Some(file), plans::plan(name), "{name}");
    }
}
