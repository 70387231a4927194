//! The items of the programs `trial_calls`, `trial_reports` and `trial_scripts`, as the headings of their sources have them.

use generate::file::numbers;
use reference::{chart, encode, offer, open, sweep, turn, Sheet};

/// The inputs of the three programs, written side by side. What is asked of a sheet between its calls is asked in
/// `trial_reports` of the sheet that is opened from its file.
#[derive(Default)]
pub struct Items {
    /// The items of `trial_calls`.
    pub calls: Vec<u8>,
    /// The items of `trial_reports`.
    pub reports: Vec<u8>,
    /// The items of `trial_scripts`.
    pub scripts: Vec<u8>,
    /// The sheet after the calls so far.
    sheet: Sheet,
    /// The file of the sheet that was kept last.
    kept: Vec<u8>,
}

/// Adds an item of a kind with the parts of its argument.
fn add(items: &mut Vec<u8>, kind: u8, parts: &[&[u8]]) {
    let length: usize = parts.iter().map(|part| part.len()).sum();
    items.push(kind);
    items.extend(&(length as u32).to_le_bytes()[..3]);
    parts.iter().for_each(|part| items.extend(*part));
}

impl Items {
    /// A fresh sheet.
    pub fn fresh(&mut self) {
        add(&mut self.calls, 0, &[]);
        self.sheet = Sheet::default();
    }

    /// Open a file.
    pub fn open(&mut self, file: &[u8]) {
        add(&mut self.calls, 1, &[file]);
        if let Ok(sheet) = open(file) {
            self.sheet = sheet;
        }
    }

    /// Offer labels.
    pub fn offer(&mut self, labels: &[u8]) {
        add(&mut self.calls, 2, &[labels]);
        let _ = offer(&mut self.sheet, labels);
    }

    /// Sweep.
    pub fn sweep(&mut self) {
        add(&mut self.calls, 3, &[]);
        let _ = sweep(&mut self.sheet);
    }

    /// Turn a list of numbers.
    pub fn turn(&mut self, direction: u8, list: &[u16]) {
        add(&mut self.calls, 4, &[&[direction], &numbers(list)]);
        let _ = turn(&mut self.sheet, list, direction);
    }

    /// Chart.
    pub fn chart(&mut self) {
        add(&mut self.calls, 5, &[]);
        let _ = chart(&mut self.sheet);
    }

    /// An item of `trial_reports`: a number and the bytes of a file.
    fn report(&mut self, kind: u8, number: u16, file: &[u8]) {
        add(&mut self.reports, kind, &[&numbers(&[number]), file]);
    }

    /// Write into a buffer of a length.
    pub fn write(&mut self, length: usize) {
        self.report(0, length as u16, &encode(&self.sheet));
    }

    /// Open a file and write it into a buffer of a length.
    pub fn open_write(&mut self, length: usize, file: &[u8]) {
        self.report(1, length as u16, file);
    }

    /// The ring of a context in a file.
    pub fn ring(&mut self, context: u16, file: &[u8]) {
        self.report(2, context, file);
    }

    /// Scan.
    pub fn scan(&mut self) {
        self.report(3, 0, &encode(&self.sheet));
    }

    /// The sheet becomes the kept one.
    pub fn keep(&mut self) {
        self.kept = encode(&self.sheet);
    }

    /// Compare the sheet with the kept one.
    pub fn same(&mut self) {
        let one = encode(&self.sheet);
        self.report(4, one.len() as u16, &[&one[..], &self.kept].concat());
    }

    /// A script.
    pub fn script(&mut self, calls: &[u8]) {
        add(&mut self.scripts, 0, &[calls]);
    }

    /// An item of each program that is cut before it ends; the last one.
    pub fn cut_items(&mut self) {
        self.open(b"cut");
        self.scan();
        self.script(b"cut");
        for items in [&mut self.calls, &mut self.reports, &mut self.scripts] {
            items.pop();
        }
    }
}
