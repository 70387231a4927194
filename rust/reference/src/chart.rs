//! The chart, as longest paths in two graphs without cycles.
//!
//! For x the arcs are the up darts, of length 0, and the right darts, of length 1; for y the up
//! darts, of length 1, and the left darts, of length 0. A cycle of the first graph has a right
//! dart, which makes x rise around it, or consists of up darts, which make y rise around it.
//! A cycle of the second graph has an up dart, or consists of left darts, which make x fall around
//! it. So there is a placement exactly when neither graph has a cycle, and the least one gives each
//! context the length of the longest path that leads to it.

use crate::types::{Chart, Labels, Plan, Refusal};

/// What a label does in one coordinate: whether the dart is an arc, and its length.
type Arcs = [(bool, u8); 4];

/// The arcs for x.
const ARCS_X: Arcs = [(true, 0), (true, 1), (false, 0), (false, 0)];

/// The arcs for y.
const ARCS_Y: Arcs = [(true, 1), (false, 0), (false, 0), (true, 0)];

/// The chart of a plan with labels that keep the label rules.
pub fn least_chart(plan: &Plan, labels: &Labels) -> Result<Chart, Refusal> {
    let none = Refusal::new(11, 0);
    let xs = longest_paths(plan, &labels.0, ARCS_X).ok_or(none)?;
    let ys = longest_paths(plan, &labels.0, ARCS_Y).ok_or(none)?;
    let w = xs[0].max(xs[1]) as u16;
    let h = ys[0].max(ys[3]) as u16;
    let mut points = Vec::with_capacity(plan.n());
    points.extend([(w, h), (w, 0), (0, 0), (0, h)]);
    let inner = xs[4..plan.n()].iter().zip(&ys[4..plan.n()]);
    points.extend(inner.map(|(&x, &y)| (x as u16, y as u16)));
    Ok(Chart { w, h, points })
}

/// The length of the longest path to each context, or nothing if there is a cycle.
fn longest_paths(plan: &Plan, labels: &[u8], arcs: Arcs) -> Option<[u8; 256]> {
    let n = plan.n();
    let mut waiting = arcs_to(plan, labels, arcs);
    let mut ready = Vec::with_capacity(n);
    ready.extend((0..n as u8).filter(|&u| waiting[u as usize] == 0));
    let mut lengths = [0u8; 256];
    let mut done = 0;
    while let Some(&u) = ready.get(done) {
        done += 1;
        let darts = plan.darts(u as usize);
        for (&v, &label) in plan.heads[darts.clone()].iter().zip(&labels[darts]) {
            let (is_arc, length) = arcs[label as usize % 4];
            if label < 4 && is_arc {
                let v = v as usize;
                lengths[v] = lengths[v].max(lengths[u as usize] + length);
                waiting[v] -= 1;
                if waiting[v] == 0 {
                    ready.push(v as u8);
                }
            }
        }
    }
    (done == n).then_some(lengths)
}

/// The number of arcs that lead to each context: as many as darts that leave it the other way.
fn arcs_to(plan: &Plan, labels: &[u8], arcs: Arcs) -> [u8; 256] {
    let leads_back = |&&label: &&u8| label < 4 && arcs[(label as usize + 2) % 4].0;
    let mut counts = [0; 256];
    for (u, count) in counts.iter_mut().enumerate().take(plan.n()) {
        *count = labels[plan.darts(u)].iter().filter(leads_back).count() as u8;
    }
    counts
}
