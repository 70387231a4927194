//! The file: framing, open, write and ring.

use crate::chart::least_chart;
use crate::labels::test_labels;
use crate::plan::{dart_count, number, test_plan};
use crate::types::{Chart, Labels, Plan, Refusal, Sheet};

/// The parts of a framed file.
struct Frames<'a> {
    rings: Vec<&'a [u8]>,
    labels: Option<&'a [u8]>,
    chart: Option<&'a [u8]>,
}

/// Kind and body of the record at an offset.
fn record(bytes: &[u8], offset: usize) -> Result<(u16, &[u8]), Refusal> {
    let rest = &bytes[offset..];
    if rest.len() < 2 {
        return Err(Refusal::new(1, offset));
    }
    let length = number(rest) as usize;
    if length < 2 || length > rest.len() - 2 {
        return Err(Refusal::new(1, offset));
    }
    Ok((number(&rest[2..]), &rest[4..2 + length]))
}

/// The body of the record at an offset, which must be of this kind and of a due length.
fn due(
    bytes: &[u8],
    offset: usize,
    kind: u16,
    length_is_due: impl Fn(usize) -> bool,
) -> Result<&[u8], Refusal> {
    let (found, body) = record(bytes, offset)?;
    if found != kind || !length_is_due(body.len()) {
        return Err(Refusal::new(2, offset));
    }
    Ok(body)
}

/// Frames all records: refusals 1, 2 and 3 in file order.
fn frame(bytes: &[u8]) -> Result<Frames<'_>, Refusal> {
    let n = number(due(bytes, 0, 1, |length| length == 2)?) as usize;
    if !(5..=200).contains(&n) {
        return Err(Refusal::new(3, 0));
    }
    let mut offset = 6;
    let mut rings = Vec::with_capacity(n);
    for _ in 0..n {
        let body = due(bytes, offset, 2, |length| {
            length % 2 == 0 && length <= 2 * (n - 1)
        })?;
        offset += 4 + body.len();
        rings.push(body);
    }
    let mut optional = |kind, length| {
        if offset == bytes.len() {
            return Ok(None);
        }
        let body = due(bytes, offset, kind, |found| found == length)?;
        offset += 4 + length;
        Ok(Some(body))
    };
    let labels = optional(3, dart_count(n))?;
    let chart = optional(4, 4 + 4 * n)?;
    if offset < bytes.len() {
        record(bytes, offset)?;
        return Err(Refusal::new(2, offset));
    }
    Ok(Frames {
        rings,
        labels,
        chart,
    })
}

/// Opens a file.
pub fn open(bytes: &[u8]) -> Result<Sheet, Refusal> {
    let frames = frame(bytes)?;
    let plan = test_plan(&frames.rings)?;
    let Some(bytes) = frames.labels else {
        return Ok(Sheet::Open(plan));
    };
    let labels = test_labels(&plan, bytes)?;
    let Some(bytes) = frames.chart else {
        return Ok(Sheet::Labelled(plan, labels));
    };
    let chart = least_chart(&plan, &labels)?;
    if !chart_numbers(&chart).eq(bytes.chunks_exact(2).map(number)) {
        return Err(Refusal::new(12, 0));
    }
    Ok(Sheet::Charted(plan, labels, chart))
}

/// The numbers of a chart in file order.
fn chart_numbers(chart: &Chart) -> impl Iterator<Item = u16> + '_ {
    let points = chart.points.iter().flat_map(|&(x, y)| [x, y]);
    [chart.w, chart.h].into_iter().chain(points)
}

/// The offset and the length in bytes of a ring's body in a file that `open` accepts.
pub fn ring(bytes: &[u8], context: usize) -> Result<(usize, usize), Refusal> {
    let sheet = open(bytes)?;
    let plan = sheet.plan().ok_or(Refusal::new(13, 0))?;
    if context >= plan.n() {
        return Err(Refusal::new(17, plan.n()));
    }
    let darts = plan.darts(context);
    let offset = 6 + 4 * (context + 1) + 2 * darts.start;
    Ok((offset, 2 * darts.len()))
}

/// The length in bytes of a sheet's file; 0 on an empty sheet.
fn file_length(sheet: &Sheet) -> usize {
    let Some(plan) = sheet.plan() else { return 0 };
    let (n, darts) = (plan.n(), plan.heads.len());
    let rings = 6 + 4 * n + 2 * darts;
    let labels = sheet.labels().map_or(0, |_| 4 + darts);
    let chart = sheet.chart().map_or(0, |_| 8 + 4 * n);
    rings + labels + chart
}

/// A place in a buffer that is being filled.
struct Pen<'a> {
    buffer: &'a mut [u8],
    at: usize,
}

impl Pen<'_> {
    /// Puts two bytes.
    fn number(&mut self, value: u16) {
        self.bytes(&value.to_le_bytes());
    }

    /// Puts bytes.
    fn bytes(&mut self, bytes: &[u8]) {
        self.buffer[self.at..self.at + bytes.len()].copy_from_slice(bytes);
        self.at += bytes.len();
    }

    /// Puts the first four bytes of a record with a body of this length.
    fn head(&mut self, kind: u16, body: usize) {
        self.number(body as u16 + 2);
        self.number(kind);
    }

    /// Puts the records of kinds 1 and 2.
    fn plan(&mut self, plan: &Plan) {
        self.head(1, 2);
        self.number(plan.n() as u16);
        for u in 0..plan.n() {
            let ring = plan.ring(u);
            self.head(2, 2 * ring.len());
            for &v in ring {
                self.number(v as u16);
            }
        }
    }

    /// Puts the record of kind 3.
    fn labels(&mut self, labels: &Labels) {
        self.head(3, labels.0.len());
        self.bytes(&labels.0);
    }

    /// Puts the record of kind 4.
    fn chart(&mut self, chart: &Chart) {
        self.head(4, 4 + 4 * chart.points.len());
        for value in chart_numbers(chart) {
            self.number(value);
        }
    }
}

/// Writes the file of a sheet at the start of a buffer and gives its length.
pub fn write(sheet: &Sheet, buffer: &mut [u8]) -> Result<usize, Refusal> {
    let plan = sheet.plan().ok_or(Refusal::new(13, 0))?;
    let length = file_length(sheet);
    if buffer.len() < length {
        return Err(Refusal::new(16, length));
    }
    let mut pen = Pen { buffer, at: 0 };
    pen.plan(plan);
    if let Some(labels) = sheet.labels() {
        pen.labels(labels);
    }
    if let Some(chart) = sheet.chart() {
        pen.chart(chart);
    }
    Ok(length)
}

/// The file of a sheet; no bytes for an empty sheet.
pub fn encode(sheet: &Sheet) -> Vec<u8> {
    let mut bytes = vec![0; file_length(sheet)];
    match write(sheet, &mut bytes) {
        Ok(_) => bytes,
        Err(_) => Vec::new(),
    }
}
