//! What a sheet holds, read from the bytes of its file. These are bytes that the engine has accepted, so that every record is whole.

use crate::Sheet;

/// The stage of a sheet. Each stage has what those before it have.
#[derive(Clone, Copy, Debug, PartialEq, Eq, PartialOrd, Ord, Hash)]
pub enum Stage {
    /// A fresh sheet.
    Empty,
    /// A plan.
    Open,
    /// Labels.
    Labelled,
    /// The chart.
    Charted,
}

/// The numbers of two bytes in a record's body.
fn numbers(body: &[u8]) -> impl Iterator<Item = u16> + '_ {
    body.chunks_exact(2)
        .map(|two| u16::from_le_bytes([two[0], two[1]]))
}

impl Sheet {
    /// The bodies of the file's records of a kind, in their order.
    fn bodies(&self, kind: u16) -> impl Iterator<Item = &[u8]> {
        let mut rest = self.bytes();
        let records = std::iter::from_fn(move || {
            let [a, b, c, d] = *rest.first_chunk()?;
            let (record, after) = rest.split_at(2 + usize::from(u16::from_le_bytes([a, b])));
            rest = after;
            Some((u16::from_le_bytes([c, d]), &record[4..]))
        });
        records.filter_map(move |(it, body)| (it == kind).then_some(body))
    }

    /// The numbers of the chart: width, height, then x and y of each context.
    fn drawn(&self) -> Option<Vec<u16>> {
        Some(numbers(self.bodies(4).next()?).collect())
    }

    /// The stage.
    pub fn stage(&self) -> Stage {
        match (self.n(), self.labels(), self.width()) {
            (0, ..) => Stage::Empty,
            (_, None, _) => Stage::Open,
            (_, _, None) => Stage::Labelled,
            _ => Stage::Charted,
        }
    }

    /// The number of contexts; 0 of a fresh sheet.
    pub fn n(&self) -> usize {
        self.bodies(2).count()
    }

    /// The ring of each context: its neighbours, clockwise; none of a fresh sheet.
    pub fn rings(&self) -> Vec<Vec<u16>> {
        let rings = self.bodies(2).map(numbers);
        rings.map(Iterator::collect).collect()
    }

    /// The labels, one for each ring entry, all rings in context order, as [`Sheet::offer`] takes them.
    pub fn labels(&self) -> Option<&[u8]> {
        self.bodies(3).next()
    }

    /// The chart's width.
    pub fn width(&self) -> Option<u16> {
        Some(self.drawn()?[0])
    }

    /// The chart's height.
    pub fn height(&self) -> Option<u16> {
        Some(self.drawn()?[1])
    }

    /// x and y of each context in the chart.
    pub fn points(&self) -> Option<Vec<(u16, u16)>> {
        let drawn = self.drawn()?;
        let points = drawn[2..].chunks_exact(2);
        Some(points.map(|it| (it[0], it[1])).collect())
    }
}
