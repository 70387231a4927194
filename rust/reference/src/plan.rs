//! The plan rules 4 to 9.

use crate::types::{Plan, Refusal};

/// The number of darts of a plan of n contexts.
pub(crate) fn dart_count(n: usize) -> usize {
    6 * n - 14
}

/// Two bytes, the lower one first.
pub(crate) fn number(bytes: &[u8]) -> u16 {
    u16::from_le_bytes([bytes[0], bytes[1]])
}

/// Tests the plan rules on framed ring bodies, 5 to 200 of them, each of less than n entries.
pub(crate) fn test_plan(bodies: &[&[u8]]) -> Result<Plan, Refusal> {
    let (starts, heads) = test_entries(bodies)?;
    let places = test_repeats(&starts, &heads)?;
    let backs = test_returns(&starts, &heads, &places)?;
    if heads.len() != dart_count(bodies.len()) {
        return Err(Refusal::new(7, 0));
    }
    let plan = Plan {
        starts,
        heads,
        backs,
    };
    test_border(&plan)?;
    test_faces(&plan)?;
    Ok(plan)
}

/// Rule 4. Gives the first dart of each context and the heads of all darts.
fn test_entries(bodies: &[&[u8]]) -> Result<(Vec<u16>, Vec<u8>), Refusal> {
    let n = bodies.len();
    let count: usize = bodies.iter().map(|body| body.len() / 2).sum();
    let mut starts = Vec::with_capacity(n + 1);
    let mut heads = vec![0; count];
    let mut rest = &mut heads[..];
    for (u, body) in bodies.iter().enumerate() {
        starts.push((count - rest.len()) as u16);
        let (ring, others) = rest.split_at_mut(body.len() / 2);
        let mut bad = false;
        for (head, entry) in ring.iter_mut().zip(body.chunks_exact(2)) {
            let v = number(entry) as usize;
            bad |= v >= n || v == u;
            *head = v as u8;
        }
        if bad {
            return Err(Refusal::new(4, u));
        }
        rest = others;
    }
    starts.push(count as u16);
    Ok((starts, heads))
}

/// Rule 5. Gives, at 256 u + v, one more than the index of v in u's ring, or 0.
fn test_repeats(starts: &[u16], heads: &[u8]) -> Result<Vec<u8>, Refusal> {
    let n = starts.len() - 1;
    let mut places = vec![0; n << 8];
    for (u, row) in places.chunks_exact_mut(256).enumerate() {
        let ring = &heads[starts[u] as usize..starts[u + 1] as usize];
        let mut seen = 0;
        for (&v, place) in ring.iter().zip(1..) {
            seen |= row[v as usize];
            row[v as usize] = place;
        }
        if seen != 0 {
            return Err(Refusal::new(5, u));
        }
    }
    Ok(places)
}

/// Rule 6. Gives the reverse of each dart.
fn test_returns(starts: &[u16], heads: &[u8], places: &[u8]) -> Result<Vec<u16>, Refusal> {
    let mut backs = vec![0; heads.len()];
    for u in 0..starts.len() - 1 {
        let darts = starts[u] as usize..starts[u + 1] as usize;
        let mut missing = false;
        for (back, &v) in backs[darts.clone()].iter_mut().zip(&heads[darts]) {
            let place = places[(v as usize) << 8 | u];
            missing |= place == 0;
            *back = (starts[v as usize] + place as u16).wrapping_sub(1);
        }
        if missing {
            return Err(Refusal::new(6, u));
        }
    }
    Ok(backs)
}

/// Rule 8.
fn test_border(plan: &Plan) -> Result<(), Refusal> {
    for u in 0..4u8 {
        let ring = plan.ring(u as usize);
        let [after, opposite, before] = [1, 2, 3].map(|step| (u + step) % 4);
        let ends = ring.first() == Some(&after) && ring.last() == Some(&before);
        if !ends || ring.contains(&opposite) {
            return Err(Refusal::new(8, u as usize));
        }
    }
    Ok(())
}

/// The dart that follows each dart on its face.
pub(crate) fn face_steps(plan: &Plan) -> Vec<u16> {
    let darts = plan.heads.iter().zip(&plan.backs);
    let step = |(&v, &back): (&u8, &u16)| {
        let (start, end) = (plan.starts[v as usize], plan.starts[v as usize + 1]);
        if back + 1 == end {
            start
        } else {
            back + 1
        }
    };
    darts.map(step).collect()
}

/// Rule 9, on a plan that keeps rules 4 to 8.
fn test_faces(plan: &Plan) -> Result<(), Refusal> {
    let steps = face_steps(plan);
    let step = |dart: usize| steps[dart] as usize;
    let comes_back = |dart: usize| step(step(step(dart))) == dart;
    let bad: u32 = (0..steps.len()).map(|dart| !comes_back(dart) as u32).sum();
    // The four outer darts follow each other and do not come back after three steps.
    if bad == 4 {
        return Ok(());
    }
    // The first dart of a border context leads to the next border context: it is an outer one.
    let is_outer = |u: usize, dart: usize| u < 4 && dart == plan.darts(u).start;
    let is_bad = |u, dart| !is_outer(u, dart) && !comes_back(dart);
    match (0..plan.n()).find(|&u| plan.darts(u).any(|dart| is_bad(u, dart))) {
        Some(u) => Err(Refusal::new(9, u)),
        None => Ok(()),
    }
}
