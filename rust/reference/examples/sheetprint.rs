//! Prints what `sheetprint` prints for the plan file on standard input.

use std::io::{self, Read, Write};

fn main() -> io::Result<()> {
    let mut file = Vec::new();
    let limit = reference::PRINT_LIMIT as u64;
    io::stdin().lock().take(limit).read_to_end(&mut file)?;
    io::stdout().write_all(reference::sheetprint(&file).as_bytes())
}
