//! Prints what the programs `trial_calls`, `trial_reports` and `trial_scripts` have to print for their input.
//!
//! From the folder rust, for each of them:
//!
//!     cargo run --release --example run_calls trial_calls < ../crates/trial_calls/stdin > ../crates/trial_calls/stdout

mod runner;

use std::io::{self, Read, Write};

fn main() -> io::Result<()> {
    let run = match std::env::args().nth(1).as_deref() {
        Some("trial_calls") => runner::calls,
        Some("trial_reports") => runner::reports,
        Some("trial_scripts") => runner::scripts,
        _ => {
            eprintln!("run_calls trial_calls | trial_reports | trial_scripts");
            std::process::exit(2)
        }
    };
    let mut input = Vec::new();
    io::stdin().lock().read_to_end(&mut input)?;
    io::stdout().write_all(run(&input).as_bytes())
}
