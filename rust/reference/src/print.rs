//! The text of the program `sheetprint`.

use crate::calls::{chart, scan, sweep};
use crate::file::open;
use crate::types::Refusal;
use std::fmt::Write;

/// The number of input bytes that are taken as the plan file.
pub const PRINT_LIMIT: usize = 8192;

/// What `sheetprint` prints for this input.
pub fn sheetprint(input: &[u8]) -> String {
    let mut text = String::new();
    if let Err(refusal) = print_sheet(&input[..input.len().min(PRINT_LIMIT)], &mut text) {
        let _ = writeln!(text, "refused {} at {}", refusal.number, refusal.place);
    }
    text
}

/// Prints the lines of the calls up to the first refusal.
fn print_sheet(file: &[u8], text: &mut String) -> Result<(), Refusal> {
    let mut sheet = open(file)?;
    let n = sheet.plan().map_or(0, |plan| plan.n());
    let _ = writeln!(text, "plan {n}");
    let _ = match scan(&sheet)? {
        Some([a, b, c]) => writeln!(text, "triangle {a} {b} {c}"),
        None => writeln!(text, "triangle none"),
    };
    sweep(&mut sheet)?;
    chart(&mut sheet)?;
    if let Some(chart) = sheet.chart() {
        let _ = writeln!(text, "size {} {}", chart.w, chart.h);
        for (u, (x, y)) in chart.points.iter().enumerate() {
            let _ = writeln!(text, "{u} {x} {y}");
        }
    }
    Ok(())
}
