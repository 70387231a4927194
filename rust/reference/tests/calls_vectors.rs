//! The stored vectors of the programs `trial_calls`, `trial_reports` and `trial_scripts`: their items are those that the example
//! `calls_items` writes, and the expected lines are those of the example `run_calls`.

#[path = "../examples/calls_items/case.rs"]
mod case;
#[path = "../examples/calls_items/items.rs"]
mod items;
#[path = "../examples/calls_items/lists.rs"]
mod lists;
#[path = "../examples/run_calls/runner.rs"]
mod runner;
#[path = "../examples/calls_items/vectors.rs"]
mod vectors;

use std::collections::BTreeSet;

const CALLS: &[u8] = include_bytes!("../../../crates/trial_calls/stdin");
const CALL_LINES: &str = include_str!("../../../crates/trial_calls/stdout");
const REPORTS: &[u8] = include_bytes!("../../../crates/trial_reports/stdin");
const REPORT_LINES: &str = include_str!("../../../crates/trial_reports/stdout");
const SCRIPTS: &[u8] = include_bytes!("../../../crates/trial_scripts/stdin");
const SCRIPT_LINES: &str = include_str!("../../../crates/trial_scripts/stdout");

/// What is said of the call in a line.
fn call(line: &str) -> &str {
    line.split(';').next().unwrap_or(line)
}

#[test]
fn the_items_are_the_generated_ones() {
    let items = vectors::items();
    assert!(CALLS == items.calls);
    assert!(REPORTS == items.reports);
    assert!(SCRIPTS == items.scripts);
}

#[test]
fn the_lines_are_the_reference_s() {
    hold(CALL_LINES, &runner::calls(CALLS));
    hold(REPORT_LINES, &runner::reports(REPORTS));
    hold(SCRIPT_LINES, &runner::scripts(SCRIPTS));
}

/// Holds stored lines to those that are due.
fn hold(stored: &str, due: &str) {
    for (at, (stored, due)) in stored.lines().zip(due.lines()).enumerate() {
        assert_eq!(stored, due, "line {}", at + 1);
    }
    assert!(stored == due);
}

/// Each input ends with an item that is cut, which ends the run: the last line has the number of those before it.
#[test]
fn a_cut_item_ends_the_run() {
    for lines in [CALL_LINES, REPORT_LINES, SCRIPT_LINES] {
        let last = lines.lines().last().expect("a last line");
        let count = last.split(' ').next().and_then(|word| word.parse().ok());
        assert_eq!(count, Some(lines.lines().count() - 1), "{last}");
    }
}

/// The examples of 01's table, its numbers and places written here by hand.
#[test]
fn the_table_of_01() {
    let calls = [
        "fresh accepted",
        "open  refused 1 at 46",
        "open  refused 2 at 0",
        "open  refused 3 at 0",
        "open  refused 4 at 4",
        "open  refused 5 at 0",
        "open  refused 6 at 4",
        "open  refused 7 at 0",
        "open  refused 8 at 1",
        "open  refused 9 at 0",
        "open  refused 10 at 0",
        "open  refused 11 at 0",
        "open  refused 12 at 0",
        "chart refused 13 at 0",
        "open  accepted",
    ];
    let reports = ["write      refused 16 at 58", "ring       refused 17 at 5"];
    let lines = CALL_LINES
        .lines()
        .take(calls.len())
        .chain(REPORT_LINES.lines());
    for (line, due) in lines.zip(calls.iter().chain(&reports)) {
        assert_eq!(call(line), *due);
    }
}

/// Each refusal that a call can give is in the vectors.
#[test]
fn every_refusal_of_every_call() {
    let lines = CALL_LINES.lines().chain(REPORT_LINES.lines());
    let seen: BTreeSet<(&str, u8)> = lines.filter_map(refusal).collect();
    let opened = 1..=12;
    let mut due: BTreeSet<(&str, u8)> = BTreeSet::new();
    for name in ["open", "ring", "open_write"] {
        due.extend(opened.clone().map(|number| (name, number)));
    }
    due.extend([
        ("ring", 17),
        ("open_write", 16),
        ("chart", 13),
        ("chart", 11),
    ]);
    due.extend([("offer", 13), ("offer", 2), ("offer", 10), ("scan", 13)]);
    due.extend([("write", 13), ("write", 16), ("same", 13)]);
    due.extend([("sweep", 13), ("sweep", 14), ("sweep", 10)]);
    due.extend([("turn", 13), ("turn", 15), ("turn", 10)]);
    assert_eq!(seen, due);
}

/// The call and the number of a line with a refusal.
fn refusal(line: &str) -> Option<(&str, u8)> {
    let mut words = call(line).split_whitespace();
    let name = words.next()?;
    let refused = words.next()? == "refused";
    let number = words.next()?.parse().ok()?;
    refused.then_some((name, number))
}

/// After a refused call the sheet is as it was.
#[test]
fn refused_calls_change_nothing() {
    let sheet = |line: &'static str| line.split_once(';').map(|parts| parts.1);
    for (before, line) in CALL_LINES.lines().zip(CALL_LINES.lines().skip(1)) {
        if refusal(line).is_some() {
            assert_eq!(sheet(before), sheet(line), "{line}");
        }
    }
}
