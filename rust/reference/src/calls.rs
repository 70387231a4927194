//! The calls on a sheet, apart from those on files.

use crate::chart::least_chart;
use crate::labels::test_labels;
use crate::scan::smallest_triple;
use crate::sweep::sweep_labels;
use crate::types::{Labels, Plan, Refusal, Sheet};

/// The refusal of a call that comes too early.
const TOO_EARLY: Refusal = Refusal {
    number: 13,
    place: 0,
};

/// The plan of a sheet that is OPEN up.
fn open_up(sheet: &Sheet) -> Result<&Plan, Refusal> {
    sheet.plan().ok_or(TOO_EARLY)
}

/// Plan and labels of a sheet that is LABELLED up.
fn labelled_up(sheet: &Sheet) -> Result<(&Plan, &Labels), Refusal> {
    sheet.plan().zip(sheet.labels()).ok_or(TOO_EARLY)
}

/// Offers label bytes, all rings in context order.
pub fn offer(sheet: &mut Sheet, bytes: &[u8]) -> Result<(), Refusal> {
    let plan = open_up(sheet)?;
    if bytes.len() != plan.heads.len() {
        return Err(Refusal::new(2, 0));
    }
    let labels = test_labels(plan, bytes)?;
    sheet.enter_labels(labels);
    Ok(())
}

/// Works out labels by the sweep.
pub fn sweep(sheet: &mut Sheet) -> Result<(), Refusal> {
    let labels = sweep_labels(open_up(sheet)?)?;
    sheet.enter_labels(labels);
    Ok(())
}

/// Turns the labels of the named edges by a quarter: direction 0 clockwise, 1 counterclockwise.
pub fn turn(sheet: &mut Sheet, pairs: &[u16], direction: u8) -> Result<(), Refusal> {
    let (plan, labels) = labelled_up(sheet)?;
    let darts = named_darts(plan, pairs)?;
    if pairs.len() % 2 == 1 || direction > 1 {
        return Err(Refusal::new(15, pairs.len() / 2));
    }
    let quarters = if direction == 0 { 1 } else { 3 };
    let mut bytes = labels.0.clone();
    for dart in darts {
        for dart in [dart, plan.back(dart)] {
            bytes[dart] = (bytes[dart] + quarters) % 4;
        }
    }
    let labels = test_labels(plan, &bytes)?;
    sheet.enter_labels(labels);
    Ok(())
}

/// One dart of each named edge; every whole pair must be a new inner edge.
fn named_darts(plan: &Plan, pairs: &[u16]) -> Result<Vec<usize>, Refusal> {
    let mut named = vec![false; plan.heads.len()];
    let mut darts = Vec::new();
    for (index, pair) in pairs.chunks_exact(2).enumerate() {
        let bad = Refusal::new(15, index);
        let dart = plan.dart(pair[0] as usize, pair[1] as usize).ok_or(bad)?;
        if named[dart] || pair[0] < 4 && pair[1] < 4 {
            return Err(bad);
        }
        named[dart] = true;
        named[plan.back(dart)] = true;
        darts.push(dart);
    }
    Ok(darts)
}

/// Works out and stores the chart.
pub fn chart(sheet: &mut Sheet) -> Result<(), Refusal> {
    let (plan, labels) = labelled_up(sheet)?;
    let chart = least_chart(plan, labels)?;
    sheet.enter_chart(chart);
    Ok(())
}

/// The smallest triple of mutual neighbours that are no inner face.
pub fn scan(sheet: &Sheet) -> Result<Option<[u16; 3]>, Refusal> {
    Ok(smallest_triple(open_up(sheet)?))
}

/// Whether two charted sheets have equal n, w, h and points.
pub fn same(one: &Sheet, other: &Sheet) -> Result<bool, Refusal> {
    let one = one.chart().ok_or(TOO_EARLY)?;
    let other = other.chart().ok_or(TOO_EARLY)?;
    Ok(one == other)
}
