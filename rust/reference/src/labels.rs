//! The label rules.

use crate::types::{Labels, Plan, Refusal};

/// Tests the label rules on label bytes in dart order, as many as the plan has darts.
pub fn test_labels(plan: &Plan, bytes: &[u8]) -> Result<Labels, Refusal> {
    for u in 0..plan.n() {
        let kept = if u < 4 {
            border_keeps(plan, bytes, u)
        } else {
            inner_keeps(plan, bytes, u)
        };
        if !kept {
            return Err(Refusal::new(10, u));
        }
    }
    Ok(Labels(bytes.to_vec()))
}

/// Whether the darts of a border context keep the rules.
fn border_keeps(plan: &Plan, bytes: &[u8], u: usize) -> bool {
    let due = [2, 3, 0, 1][u];
    plan.darts(u).all(|dart| {
        if plan.heads[dart] < 4 {
            bytes[dart] == 4
        } else {
            bytes[dart] == due && bytes[plan.back(dart)] == (due + 2) % 4
        }
    })
}

/// Whether the darts of an inner context and its ring keep the rules.
fn inner_keeps(plan: &Plan, bytes: &[u8], u: usize) -> bool {
    let darts = plan.darts(u);
    let (ring, backs) = (&bytes[darts.clone()], &plan.backs[darts]);
    let Some(&last) = ring.last() else {
        return false;
    };
    // All steps between labels that follow each other are 0 or 1 quarters, four quarters in all.
    let (mut before, mut wrong, mut quarters) = (last, 0, 0);
    for (&label, &back) in ring.iter().zip(backs) {
        let step = label.wrapping_sub(before) & 3;
        wrong |= (label ^ 2) ^ bytes[back as usize] | label & !3 | step & 2;
        quarters += step as u32;
        before = label;
    }
    wrong == 0 && quarters == 4
}
