//! Sheets and their parts.

/// A numbered refusal and its place.
#[derive(Clone, Copy, Debug, PartialEq, Eq, Hash, PartialOrd, Ord)]
pub struct Refusal {
    /// The number, 1 to 17.
    pub number: u8,
    /// The place that the table gives for this number.
    pub place: u64,
}

impl Refusal {
    /// The refusal with this number and place.
    pub fn new(number: u8, place: usize) -> Self {
        Refusal {
            number,
            place: place as u64,
        }
    }
}

/// A plan that keeps the plan rules 4 to 9.
///
/// The darts are numbered in ring order, context by context.
#[derive(Clone, Debug, PartialEq, Eq)]
pub struct Plan {
    /// Number of the first dart of each context, then the number of darts.
    pub(crate) starts: Vec<u16>,
    /// The context that each dart leads to.
    pub(crate) heads: Vec<u8>,
    /// The number of each dart's reverse.
    pub(crate) backs: Vec<u16>,
}

impl Plan {
    /// The number of contexts.
    pub fn n(&self) -> usize {
        self.starts.len() - 1
    }

    /// The ring of a context below n.
    pub fn ring(&self, context: usize) -> &[u8] {
        &self.heads[self.darts(context)]
    }

    /// The numbers of the darts that leave a context below n.
    pub fn darts(&self, context: usize) -> std::ops::Range<usize> {
        self.starts[context] as usize..self.starts[context + 1] as usize
    }

    /// The number of the dart from `u` to `v`, if they are neighbours.
    pub fn dart(&self, u: usize, v: usize) -> Option<usize> {
        if u >= self.n() {
            return None;
        }
        let at = self.ring(u).iter().position(|&head| head as usize == v)?;
        Some(self.starts[u] as usize + at)
    }

    /// The number of the reverse of a dart.
    pub fn back(&self, dart: usize) -> usize {
        self.backs[dart] as usize
    }

    /// All rings, copied.
    pub fn rings(&self) -> Vec<Vec<u16>> {
        let copy = |u| self.ring(u).iter().map(|&v| v as u16).collect();
        (0..self.n()).map(copy).collect()
    }
}

/// One label per dart, in dart order, keeping the label rules.
#[derive(Clone, Debug, PartialEq, Eq)]
pub struct Labels(pub(crate) Vec<u8>);

impl Labels {
    /// The label bytes.
    pub fn bytes(&self) -> &[u8] {
        &self.0
    }
}

/// The chart: width, height and one point per context.
#[derive(Clone, Debug, PartialEq, Eq)]
pub struct Chart {
    /// The width.
    pub w: u16,
    /// The height.
    pub h: u16,
    /// x and y of each context.
    pub points: Vec<(u16, u16)>,
}

/// The stage of a sheet.
#[derive(Clone, Copy, Debug, PartialEq, Eq, PartialOrd, Ord)]
pub enum Stage {
    /// Nothing entered.
    Empty,
    /// A plan.
    Open,
    /// A plan with labels.
    Labelled,
    /// A plan with labels and chart.
    Charted,
}

/// A sheet, by stage.
#[derive(Clone, Debug, Default, PartialEq, Eq)]
pub enum Sheet {
    /// A fresh sheet.
    #[default]
    Empty,
    /// A plan.
    Open(Plan),
    /// A plan with labels.
    Labelled(Plan, Labels),
    /// A plan with labels and the chart.
    Charted(Plan, Labels, Chart),
}

impl Sheet {
    /// The stage.
    pub fn stage(&self) -> Stage {
        match self {
            Sheet::Empty => Stage::Empty,
            Sheet::Open(..) => Stage::Open,
            Sheet::Labelled(..) => Stage::Labelled,
            Sheet::Charted(..) => Stage::Charted,
        }
    }

    /// The plan, if any.
    pub fn plan(&self) -> Option<&Plan> {
        match self {
            Sheet::Empty => None,
            Sheet::Open(plan) | Sheet::Labelled(plan, _) | Sheet::Charted(plan, _, _) => Some(plan),
        }
    }

    /// The labels, if any.
    pub fn labels(&self) -> Option<&Labels> {
        match self {
            Sheet::Empty | Sheet::Open(_) => None,
            Sheet::Labelled(_, labels) | Sheet::Charted(_, labels, _) => Some(labels),
        }
    }

    /// The chart, if any.
    pub fn chart(&self) -> Option<&Chart> {
        match self {
            Sheet::Charted(_, _, chart) => Some(chart),
            _ => None,
        }
    }

    /// Enters labels and drops the chart. Does nothing on an empty sheet.
    pub(crate) fn enter_labels(&mut self, labels: Labels) {
        *self = match std::mem::take(self) {
            Sheet::Empty => Sheet::Empty,
            Sheet::Open(plan) | Sheet::Labelled(plan, _) | Sheet::Charted(plan, _, _) => {
                Sheet::Labelled(plan, labels)
            }
        };
    }

    /// Enters a chart. Does nothing on a sheet without labels.
    pub(crate) fn enter_chart(&mut self, chart: Chart) {
        *self = match std::mem::take(self) {
            Sheet::Labelled(plan, labels) | Sheet::Charted(plan, labels, _) => {
                Sheet::Charted(plan, labels, chart)
            }
            other => other,
        };
    }
}
