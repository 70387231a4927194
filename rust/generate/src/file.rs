//! Files from tables, without any test.

use crate::Rings;

/// A record of this kind and body.
pub fn record(kind: u16, body: &[u8]) -> Vec<u8> {
    let mut bytes = (body.len() as u16 + 2).to_le_bytes().to_vec();
    bytes.extend(kind.to_le_bytes());
    bytes.extend(body);
    bytes
}

/// Numbers of two bytes each, the lower one first.
pub fn numbers(values: &[u16]) -> Vec<u8> {
    values
        .iter()
        .flat_map(|value| value.to_le_bytes())
        .collect()
}

/// The file of a table of rings, with label bytes and the numbers of a chart if given.
pub fn file(rings: &Rings, labels: Option<&[u8]>, chart: Option<&[u16]>) -> Vec<u8> {
    let mut bytes = record(1, &numbers(&[rings.len() as u16]));
    for ring in rings {
        bytes.extend(record(2, &numbers(ring)));
    }
    bytes.extend(labels.map_or(Vec::new(), |labels| record(3, labels)));
    bytes.extend(chart.map_or(Vec::new(), |chart| record(4, &numbers(chart))));
    bytes
}

/// The offsets of the records of a file that is framed well.
pub fn record_offsets(bytes: &[u8]) -> Vec<usize> {
    let mut offsets = Vec::new();
    let mut offset = 0;
    while offset + 2 <= bytes.len() {
        offsets.push(offset);
        offset += 2 + u16::from_le_bytes([bytes[offset], bytes[offset + 1]]) as usize;
    }
    offsets
}
