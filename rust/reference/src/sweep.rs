//! The sweep in linear time.
//!
//! Under each frontier edge lies the third context of its face. A context that was never on the
//! frontier touches it in places: stretches of frontier edges over it, or single frontier
//! contexts that have it strictly between the two ends of what lies below them. `touches` counts
//! these places. A list is good exactly when each of its contexts is inner and touches the frontier
//! in one place, and no two of them are neighbours unless they follow each other on the list; and
//! then it must span whole stretches. So for each position j there is one shortest list to try:
//! the context of the stretch that ends at j, if it has two edges or more; otherwise all that lies
//! below position j - 1. Longer lists contain this one and fail where it fails.
//!
//! After a step only lists that end at most one stretch to the right of the new contexts' right
//! neighbour can have become good, so the search goes on from there.

use crate::types::{Labels, Plan, Refusal};

const NORTH: u8 = 0;
const EAST: u8 = 1;
const SOUTH: u8 = 2;
const WEST: u8 = 3;

const UP: u8 = 0;
const RIGHT: u8 = 1;
const DOWN: u8 = 2;
const LEFT: u8 = 3;

/// The labels that the sweep gives for a plan.
pub fn sweep_labels(plan: &Plan) -> Result<Labels, Refusal> {
    let mut state = State::new(plan);
    if !state.begin() {
        return Err(Refusal::new(14, 0));
    }
    state.run();
    if !state.all_above_south() {
        return Err(Refusal::new(14, 0));
    }
    // A context that was on the frontier has all its darts labelled by the rules.
    match (4..plan.n()).find(|&u| !state.entered[u]) {
        Some(u) => Err(Refusal::new(10, u)),
        None => Ok(Labels(state.finish())),
    }
}

/// A reason why all that lies below a context is no good list.
#[derive(Clone, Copy)]
enum Obstacle {
    /// None known.
    None,
    /// This context touches the frontier in more than one place.
    Touches(u8),
    /// These two contexts are neighbours and do not follow each other on the list.
    Contact(u8, u8),
}

/// The number of cells for dart numbers: a power of two above all of them.
const DARTS: usize = 2048;

/// The state of the sweep. Contexts are numbered as in the plan, darts in ring order.
///
/// The plan is copied into arrays whose lengths fit the types of the indices.
struct State {
    starts: [u16; 257],
    heads: [u8; DARTS],
    backs: [u16; DARTS],
    count: usize,
    labels: [u8; DARTS],
    /// Whether the context is or was on the frontier.
    entered: [bool; 256],
    /// The dart to the left frontier neighbour.
    left: [u16; 256],
    /// The dart to the right frontier neighbour.
    right: [u16; 256],
    /// In how many places a context that never was on the frontier touches it.
    touches: [u8; 256],
    /// What was found to be in the way below a frontier context.
    obstacle: [Obstacle; 256],
    /// The list of the step that is being tried.
    list: Vec<u8>,
}

impl State {
    /// Nothing entered yet.
    fn new(plan: &Plan) -> Self {
        let count = plan.heads.len();
        let mut state = State {
            starts: [0; 257],
            heads: [0; DARTS],
            backs: [0; DARTS],
            count,
            labels: [4; DARTS],
            entered: [false; 256],
            left: [0; 256],
            right: [0; 256],
            touches: [0; 256],
            obstacle: [Obstacle::None; 256],
            list: Vec::with_capacity(plan.n()),
        };
        state.starts[..plan.starts.len()].copy_from_slice(&plan.starts);
        state.heads[..count].copy_from_slice(&plan.heads);
        state.backs[..count].copy_from_slice(&plan.backs);
        state
    }

    /// The first dart of a context.
    fn start(&self, u: u8) -> u16 {
        self.starts[u as usize]
    }

    /// The number after a context's last dart.
    fn end(&self, u: u8) -> u16 {
        self.starts[u as usize + 1]
    }

    /// The dart after this one in the ring of `u`.
    fn after(&self, u: u8, dart: u16) -> u16 {
        if dart + 1 == self.end(u) {
            self.start(u)
        } else {
            dart + 1
        }
    }

    /// The dart before this one in the ring of `u`.
    fn before(&self, u: u8, dart: u16) -> u16 {
        if dart == self.start(u) {
            self.end(u) - 1
        } else {
            dart - 1
        }
    }

    /// The context that a dart leads to.
    fn head(&self, dart: u16) -> u8 {
        self.heads[dart as usize % DARTS]
    }

    /// The reverse of a dart.
    fn back(&self, dart: u16) -> u16 {
        self.backs[dart as usize % DARTS]
    }

    /// Labels a dart.
    fn label(&mut self, dart: u16, label: u8) {
        self.labels[dart as usize % DARTS] = label;
    }

    /// The left frontier neighbour.
    fn left_of(&self, u: u8) -> u8 {
        self.head(self.left[u as usize])
    }

    /// The right frontier neighbour.
    fn right_of(&self, u: u8) -> u8 {
        self.head(self.right[u as usize])
    }

    /// The context under the frontier edge to the left of `u`.
    fn under_left(&self, u: u8) -> u8 {
        self.head(self.before(u, self.left[u as usize]))
    }

    /// The context under the frontier edge to the right of `u`.
    fn under_right(&self, u: u8) -> u8 {
        self.head(self.after(u, self.right[u as usize]))
    }

    /// Builds the first frontier. False if two of its contexts that are not adjacent on it are
    /// neighbours: then no pair is ever eligible.
    fn begin(&mut self) -> bool {
        self.entered[EAST as usize] = true;
        self.entered[WEST as usize] = true;
        for dart in self.start(NORTH) + 1..self.end(NORTH) - 1 {
            let (u, back) = (self.head(dart), self.back(dart));
            self.left[u as usize] = self.before(u, back);
            self.right[u as usize] = self.after(u, back);
            self.entered[u as usize] = true;
            self.label(dart, DOWN);
            self.label(back, UP);
            self.list.push(u);
        }
        // West's ring begins with North, East's ends with North: beside it stands the neighbour.
        self.right[WEST as usize] = self.start(WEST) + 1;
        self.left[EAST as usize] = self.end(EAST) - 2;
        // West's first entry below lies under the edge to its right.
        let below_west = self.start(WEST) + 3..self.end(WEST);
        let below_east = self.start(EAST)..self.end(EAST) - 2;
        for dart in below_west.chain(below_east) {
            self.touches[self.head(dart) as usize] += 1;
        }
        self.touch_below().is_none()
    }

    /// Counts the places where what lies below the list's contexts touches the frontier. The
    /// entry under the edge to the right is left out: its stretch is counted at the right end.
    ///
    /// Gives a contact with a context that is on the frontier or on the list, if there is one.
    fn touch_below(&mut self) -> Option<(u8, u8)> {
        let mut contact = None;
        for at in 0..self.list.len() {
            let u = self.list[at];
            let end = self.left[u as usize];
            let mut dart = self.after(u, self.right[u as usize]);
            let mut place = 0;
            while dart != end {
                let v = self.head(dart);
                self.touches[v as usize] += place;
                if self.entered[v as usize] {
                    contact = Some((u, v));
                }
                place = 1;
                dart = self.after(u, dart);
            }
        }
        contact
    }

    /// Takes the last call of `touch_below` back, and the list's contexts from the frontier.
    fn take_back(&mut self) {
        for at in 0..self.list.len() {
            let u = self.list[at];
            self.entered[u as usize] = false;
            let end = self.left[u as usize];
            let mut dart = self.after(u, self.right[u as usize]);
            let mut place = 0;
            while dart != end {
                self.touches[self.head(dart) as usize] -= place;
                place = 1;
                dart = self.after(u, dart);
            }
        }
    }

    /// Takes steps as long as there is an eligible pair.
    fn run(&mut self) {
        let mut j = EAST;
        while j != WEST {
            j = match self.try_step(j) {
                true => self.go_on_from(j),
                false => self.left_of(j),
            };
        }
    }

    /// Where the search goes on after a step with right end `j`.
    fn go_on_from(&self, j: u8) -> u8 {
        if j == EAST {
            return EAST;
        }
        let under = self.under_right(j);
        if !self.is_whole(under) {
            return j;
        }
        let mut end = self.right_of(j);
        while end != EAST && self.under_right(end) == under {
            end = self.right_of(end);
        }
        if end == EAST {
            EAST
        } else {
            self.right_of(end)
        }
    }

    /// Whether a context below the frontier is inner and touches the frontier in one place.
    fn is_whole(&self, u: u8) -> bool {
        u >= 4 && self.touches[u as usize] == 1
    }

    /// Takes the step with right end `j` and the greatest left end, if there is one.
    fn try_step(&mut self, j: u8) -> bool {
        let under = self.under_left(j);
        if !self.is_whole(under) || j != EAST && self.under_right(j) == under {
            return false;
        }
        let last = self.left_of(j);
        if last == WEST {
            return false;
        }
        let first_under = self.under_left(last);
        if first_under != under && !self.is_good_below(last) {
            return false;
        }
        let mut first = last;
        let mut i = self.left_of(last);
        while i != WEST && self.under_left(i) == first_under {
            first = i;
            i = self.left_of(i);
        }
        self.replace(i, first, last, j)
    }

    /// Whether all contexts below `u` are inner and touch the frontier in one place, and no
    /// contact between them is known.
    fn is_good_below(&mut self, u: u8) -> bool {
        match self.obstacle[u as usize] {
            Obstacle::Touches(v) if !self.entered[v as usize] && !self.is_whole(v) => return false,
            Obstacle::Contact(v, w) if !self.entered[v as usize] && !self.entered[w as usize] => {
                return false
            }
            _ => {}
        }
        let (mut dart, end) = (self.left[u as usize], self.right[u as usize]);
        loop {
            dart = self.before(u, dart);
            if dart == end {
                return true;
            }
            let v = self.head(dart);
            if !self.is_whole(v) {
                self.obstacle[u as usize] = Obstacle::Touches(v);
                return false;
            }
        }
    }

    /// Replaces the frontier contexts `first` to `last`, which stand between `i` and `j`, by what
    /// lies below them. Gives false and leaves the frontier if there is a contact inside the list.
    fn replace(&mut self, i: u8, first: u8, last: u8, j: u8) -> bool {
        self.collect(first, last);
        if let Some((u, v)) = self.touch_below() {
            self.take_back();
            self.obstacle[last as usize] = Obstacle::Contact(u, v);
            return false;
        }
        let (right, left) = (self.right[i as usize], self.left[j as usize]);
        self.label(right, RIGHT);
        self.label(left, LEFT);
        self.right[i as usize] = self.after(i, right);
        self.left[j as usize] = self.before(j, left);
        let under = self.under_right(i);
        self.touches[under as usize] -= 1;
        true
    }

    /// Puts what lies below the contexts `first` to `last` on the list, left to right, and notes
    /// the darts to their frontier neighbours. Labels the darts that leave `first` to `last` and
    /// the reverses of those that lead down.
    fn collect(&mut self, first: u8, last: u8) {
        self.list.clear();
        let mut u = first;
        loop {
            let (left, right) = (self.left[u as usize], self.right[u as usize]);
            self.label(left, LEFT);
            self.label(right, RIGHT);
            let mut dart = self.before(u, left);
            while dart != right {
                self.collect_one(dart);
                dart = self.before(u, dart);
            }
            if u == last {
                return;
            }
            u = self.head(right);
        }
    }

    /// Puts the context that a dart leads down to on the list, if it is not there yet.
    fn collect_one(&mut self, dart: u16) {
        let (v, back) = (self.head(dart), self.back(dart));
        self.label(dart, DOWN);
        self.label(back, UP);
        if !self.entered[v as usize] {
            self.entered[v as usize] = true;
            self.left[v as usize] = self.before(v, back);
            self.list.push(v);
        }
        self.right[v as usize] = self.after(v, back);
    }

    /// Whether each inner frontier context has South alone below.
    fn all_above_south(&self) -> bool {
        let mut u = self.right_of(WEST);
        while u != EAST {
            let below = self.after(u, self.right[u as usize]);
            if self.head(below) != SOUTH || self.after(u, below) != self.left[u as usize] {
                return false;
            }
            u = self.right_of(u);
        }
        true
    }

    /// Labels what is left at the end, around the last frontier. Gives all labels.
    fn finish(mut self) -> Vec<u8> {
        let mut u = WEST;
        while u != EAST {
            let right = self.right[u as usize];
            self.label(right, RIGHT);
            self.label(self.back(right), LEFT);
            u = self.head(right);
        }
        for dart in self.start(SOUTH) + 1..self.end(SOUTH) - 1 {
            self.label(dart, UP);
            self.label(self.back(dart), DOWN);
        }
        self.labels[..self.count].to_vec()
    }
}
