//! Plans of all families together.

use crate::edit::{disguise, renumber_backwards, rotate_inner};
use crate::families::{
    column, fan_behind_column, irreducible, irreducible_with_hubs, reducible, wheel,
};
use crate::odd::{beside, random_odd, ring_torus, trench_d};
use crate::{Random, Rings};

/// The names of the families, in the order of their numbers.
pub const FAMILIES: [&str; 9] = [
    "irreducible",
    "irreducible with hubs",
    "reducible",
    "column",
    "column numbered backwards",
    "wheel",
    "fan behind a column",
    "flat part beside a torus",
    "odd",
];

/// A random plan of a family with n contexts, n at least 24. Odd plans can have fewer.
pub fn plan_of_family(family: usize, n: usize, random: &mut Random) -> Rings {
    match family {
        0 => irreducible(n, random),
        1 => irreducible_with_hubs(n, random),
        2 => reducible(n, random),
        3 => column(n),
        4 => renumber_backwards(&column(n)),
        5 => wheel(n, random),
        6 => {
            let column = random.between(1, n - 6);
            fan_behind_column(column, n - 5 - column)
        }
        7 => {
            let part = random.between(5, n - 7);
            beside(&irreducible(part, random), &ring_torus(n - part))
        }
        _ => random_odd(n, random),
    }
}

/// A random plan with at most `most` contexts, most at least 24, in one of the eight positions,
/// with random inner numbers and ring starts most of the time.
pub fn any_plan(most: usize, random: &mut Random) -> Rings {
    let rings = if random.once_in(2) {
        plan_of_family(
            random.below(FAMILIES.len()),
            random.between(24, most),
            random,
        )
    } else {
        small_plan(random)
    };
    match random.below(8) {
        0 => rings,
        1 => {
            let mut rings = rings;
            rotate_inner(&mut rings, random);
            rings
        }
        _ => disguise(&rings, random),
    }
}

/// A random plan of at most 23 contexts.
pub fn small_plan(random: &mut Random) -> Rings {
    match random.below(8) {
        0 => trench_d(),
        1 => fan_behind_column(random.between(1, 8), random.between(1, 8)),
        2 => column(random.between(5, 14)),
        3 => wheel(random.between(9, 20), random),
        4 | 5 => irreducible(random.between(5, 23), random),
        6 => irreducible_with_hubs(random.between(5, 23), random),
        _ => reducible(random.between(6, 23), random),
    }
}
