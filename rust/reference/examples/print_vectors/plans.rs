//! The plan files of the folder examples.

use generate::families::{column, irreducible, trench_a, trench_b, trench_c, wheel};
use generate::file::file;
use generate::odd::trench_d;
use generate::Random;

/// The names of the plans.
pub const NAMES: [&str; 8] = [
    "a",
    "b",
    "c",
    "d",
    "column-12",
    "wheel-20",
    "irreducible-25",
    "irreducible-200",
];

/// The plan file of a name.
pub fn plan(name: &str) -> Option<Vec<u8>> {
    let rings = match name {
        "a" => trench_a(),
        "b" => trench_b(),
        "c" => trench_c(),
        "d" => trench_d(),
        "column-12" => column(12),
        "wheel-20" => wheel(20, &mut Random::new(20)),
        "irreducible-25" => irreducible(25, &mut Random::new(25)),
        "irreducible-200" => irreducible(200, &mut Random::new(200)),
        _ => return None,
    };
    Some(file(&rings, None, None))
}
