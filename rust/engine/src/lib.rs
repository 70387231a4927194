//! The proved engine of the touch chart, as safe Rust over its C interface (`include/touchchart.h`).
//!
//! A [`Sheet`] is the bytes of its file, and a fresh one has none. Each call gives its result or a [`Refusal`] with the number
//! and the place of the specification's table, and a refused call leaves the sheet as it was. What a sheet holds (stage, rings,
//! labels, chart) it gives as values. `examples/rust/draw.rs` shows a host.
#![warn(missing_docs)]

mod interface;
mod refusal;
mod values;

pub use refusal::Refusal;
pub use values::Stage;

use interface::*;

/// The largest file of a sheet has 5,176 bytes.
const ROOM: usize = 8192;

/// What an answer of the interface says: a value, or the refusal.
fn read(answer: u64) -> Result<u64, Refusal> {
    let (number, value) = ((answer >> 48) as u8, answer & ((1 << 48) - 1));
    match number {
        0 => Ok(value),
        _ => Err(Refusal {
            number,
            place: value,
        }),
    }
}

/// A sheet, held as the bytes of its file; a fresh one has none.
#[derive(Clone, Debug, Default, PartialEq, Eq)]
pub struct Sheet {
    bytes: Vec<u8>,
}

impl Sheet {
    /// The bytes of the sheet's file; none of a fresh sheet.
    pub fn bytes(&self) -> &[u8] {
        &self.bytes
    }

    /// Takes the sheet that a call wrote, if it is accepted.
    fn take(&mut self, call: impl FnOnce(&[u8], &mut [u8]) -> u64) -> Result<(), Refusal> {
        let mut room = [0; ROOM];
        let length = read(call(&self.bytes, &mut room))? as usize;
        self.bytes.clear();
        self.bytes.extend(&room[..length]);
        Ok(())
    }

    /// Replaces everything by a file's contents.
    pub fn open(&mut self, file: &[u8]) -> Result<(), Refusal> {
        self.take(|_, out| open_into(file, out))
    }

    /// Works out labels.
    pub fn sweep(&mut self) -> Result<(), Refusal> {
        self.take(sweep_into)
    }

    /// Takes labels, one for each entry of all rings in context order.
    pub fn offer(&mut self, labels: &[u8]) -> Result<(), Refusal> {
        self.take(|sheet, out| offer_into(sheet, labels, out))
    }

    /// Turns the labels of the named edges, clockwise (direction 0) or counterclockwise (1).
    pub fn turn(&mut self, pairs: &[u16], direction: u8) -> Result<(), Refusal> {
        self.take(|sheet, out| turn_into(sheet, pairs, direction, out))
    }

    /// Works out the chart.
    pub fn chart(&mut self) -> Result<(), Refusal> {
        self.take(chart_into)
    }

    /// The smallest triple of mutual neighbours that are no inner face, if there is one.
    pub fn scan(&self) -> Result<Option<[u16; 3]>, Refusal> {
        let value = read(scan_of(&self.bytes))?;
        let triple = [16, 8, 0].map(|shift| (value >> shift) as u16 & 255);
        Ok((value != 0).then_some(triple))
    }

    /// Whether two sheets have the same n, width, height and points.
    pub fn same(&self, other: &Sheet) -> Result<bool, Refusal> {
        Ok(read(same_of(&self.bytes, &other.bytes))? == 1)
    }
}

/// The part of a file that is the body of a context's ring.
pub fn ring(file: &[u8], context: u16) -> Result<&[u8], Refusal> {
    let value = read(ring_of(file, context))? as usize;
    let (offset, length) = (value >> 16, value & 65535);
    Ok(&file[offset..offset + length])
}

/// The calls as the interface has them: bytes in, a lent buffer out, the answer packed into a number.
pub mod raw {
    pub use crate::interface::*;
}
