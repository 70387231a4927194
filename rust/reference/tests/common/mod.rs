//! What several tests use.
#![allow(dead_code)]

use generate::file::file;
use generate::Rings;
use reference::{open, plain, Refusal, Sheet};
use std::collections::BTreeMap;

/// Opens a plan that must be accepted.
pub fn opened(rings: &Rings) -> Sheet {
    let bytes = file(rings, None, None);
    let sheet = open(&bytes);
    assert_eq!(sheet.as_ref().err(), None, "{rings:?}");
    sheet.unwrap()
}

/// How often each refusal was seen; 0 stands for an accepted call.
#[derive(Default, Debug)]
pub struct Tally(pub BTreeMap<u8, usize>);

impl Tally {
    /// Counts an answer.
    pub fn count<T>(&mut self, answer: &Result<T, Refusal>) {
        let number = answer.as_ref().err().map_or(0, |refusal| refusal.number);
        *self.0.entry(number).or_default() += 1;
    }
}

/// The label bytes in dart order.
pub fn flat(labels: &[Vec<u8>]) -> Vec<u8> {
    labels.concat()
}

/// Opens a file with both versions and compares them.
pub fn open_both(bytes: &[u8]) -> Result<Sheet, Refusal> {
    let answer = open(bytes);
    match (&answer, plain::open(bytes)) {
        (Ok(sheet), Ok(parts)) => assert!(plain::sheet_holds(sheet, &parts)),
        (Err(one), Err(other)) => assert_eq!(*one, other),
        (one, other) => panic!("{one:?} against {other:?}"),
    }
    answer
}
