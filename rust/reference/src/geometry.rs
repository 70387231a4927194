//! Faces, doubled areas and the test for points.

use crate::plan::face_steps;
use crate::types::{Chart, Plan};

/// The inner faces, each as its walk, beginning with its lowest dart.
pub fn inner_faces(plan: &Plan) -> Vec<[usize; 3]> {
    let steps = face_steps(plan);
    let mut faces = Vec::new();
    for u in 0..plan.n() {
        for dart in plan.darts(u) {
            let second = steps[dart] as usize;
            let third = steps[second] as usize;
            let outer = u < 4 && dart == plan.darts(u).start;
            if !outer && dart < second && dart < third {
                faces.push([dart, second, third].map(|dart| tail(plan, dart)));
            }
        }
    }
    faces
}

/// The context that a dart leaves.
fn tail(plan: &Plan, dart: usize) -> usize {
    plan.heads[plan.back(dart)] as usize
}

/// The signed doubled area of a face: positive when its walk is counterclockwise in the chart.
pub fn doubled_area(chart: &Chart, face: [usize; 3]) -> i64 {
    let [(ax, ay), (bx, by), (cx, cy)] = face.map(|u| {
        let (x, y) = chart.points[u];
        (x as i64, y as i64)
    });
    (bx - ax) * (cy - ay) - (cx - ax) * (by - ay)
}

/// Whether the point (p/d, q/d), d above 0, is strictly left of each dart of a face's walk.
pub fn strictly_inside(chart: &Chart, face: [usize; 3], p: i64, q: i64, d: i64) -> bool {
    let [a, b, c] = face;
    [(a, b), (b, c), (c, a)].iter().all(|&(u, v)| {
        let [(ux, uy), (vx, vy)] = [u, v].map(|u| {
            let (x, y) = chart.points[u];
            (x as i64, y as i64)
        });
        (vx - ux) * (q - uy * d) - (p - ux * d) * (vy - uy) > 0
    })
}
