//! Writes what the programs `trial_calls`, `trial_reports` and `trial_scripts` run.
//!
//! From the folder rust, for each of them:
//!
//!     cargo run --release --example calls_items trial_calls > ../crates/trial_calls/stdin
//!
//! All seeds are fixed: the same items come out each time.

mod case;
mod items;
mod lists;
mod vectors;

use std::io::{self, Write};

fn main() -> io::Result<()> {
    let items = vectors::items();
    let wanted = match std::env::args().nth(1).as_deref() {
        Some("trial_calls") => items.calls,
        Some("trial_reports") => items.reports,
        Some("trial_scripts") => items.scripts,
        _ => {
            eprintln!("calls_items trial_calls | trial_reports | trial_scripts");
            std::process::exit(2)
        }
    };
    io::stdout().write_all(&wanted)
}
