//! The vectors of the program `trial_print`, what it has to print for them, and the plan files of the folder examples.
//!
//! From the folder rust:
//!
//!     cargo run --release --example print_vectors inputs > ../crates/trial_print/stdin
//!     cargo run --release --example print_vectors printed > ../crates/trial_print/stdout
//!     cargo run --release --example print_vectors plan b > ../examples/b.plan
//!
//! All seeds are fixed: the same bytes come out each time.

#[path = "../calls_items/case.rs"]
#[allow(dead_code)]
mod case;
mod inputs;
mod plans;
mod printed;

use std::io::{self, Write};

/// What the words after the program's name ask for.
fn wanted(words: &[String]) -> Option<Vec<u8>> {
    let words: Vec<&str> = words.iter().map(String::as_str).collect();
    match words[..] {
        ["inputs"] => Some(inputs::framed()),
        ["printed"] => Some(printed::run(&inputs::framed()).into_bytes()),
        ["plan", name] => plans::plan(name),
        _ => None,
    }
}

fn main() -> io::Result<()> {
    let words: Vec<String> = std::env::args().skip(1).collect();
    match wanted(&words) {
        Some(bytes) => io::stdout().write_all(&bytes),
        None => {
            eprintln!(
                "print_vectors inputs | printed | plan NAME, NAME one of {}",
                plans::NAMES.join(" ")
            );
            std::process::exit(2)
        }
    }
}
