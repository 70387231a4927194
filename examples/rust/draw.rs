//! draw: reads a plan file, labels it by the sweep and prints its chart. From the folder rust, after `tools/staticlib`:
//!
//!     cargo run --release --example draw ../examples/c/trench_b.plan
//!
//! prints width and height, then number, x and y of each context. A refusal prints its number and place, and on standard error what
//! they mean. Given a second file, it writes the sheet there: the plan with its labels and its chart.

use engine::{Refusal, Sheet};
use std::fs::{read, write};
use std::process::ExitCode;

/// The sheet of a plan file, labelled and charted.
fn drawn(file: &[u8]) -> Result<Sheet, Refusal> {
    let mut sheet = Sheet::default();
    sheet.open(file)?;
    sheet.sweep()?;
    sheet.chart()?;
    Ok(sheet)
}

/// Prints a sheet's chart, if it has one: width and height, then number, x and y of each context.
fn print_chart(sheet: &Sheet) {
    if let (Some(width), Some(height), Some(points)) =
        (sheet.width(), sheet.height(), sheet.points())
    {
        println!("size {width} {height}");
        for (context, (x, y)) in points.iter().enumerate() {
            println!("{context} {x} {y}");
        }
    }
}

fn main() -> ExitCode {
    let words: Vec<String> = std::env::args().skip(1).collect();
    let Some(file) = words.first().and_then(|name| read(name).ok()) else {
        eprintln!("usage: draw PLAN [SHEET]");
        return ExitCode::from(2);
    };
    let sheet = match drawn(&file) {
        Ok(sheet) => sheet,
        Err(refusal) => {
            println!("refused {} at {}", refusal.number, refusal.place);
            eprintln!("draw: {refusal}");
            return ExitCode::from(1);
        }
    };
    print_chart(&sheet);
    if let Some(Err(error)) = words.get(1).map(|name| write(name, sheet.bytes())) {
        eprintln!("draw: {}: {error}", words[1]);
        return ExitCode::from(2);
    }
    ExitCode::SUCCESS
}
