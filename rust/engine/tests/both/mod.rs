//! The engine and the reference side by side: each call is made on both, and both must answer the same and leave the same sheet.

use std::collections::BTreeMap;

/// What a buffer is filled with before a call.
const FILLED: u8 = 170;

/// A refusal as number and place, whichever side it comes from.
type Refused = (u8, u64);

/// An answer of the reference.
fn of_reference<T>(answer: Result<T, reference::Refusal>) -> Result<T, Refused> {
    answer.map_err(|refusal| (refusal.number, refusal.place))
}

/// An answer of the engine.
fn of_engine<T>(answer: Result<T, engine::Refusal>) -> Result<T, Refused> {
    answer.map_err(|refusal| (refusal.number, refusal.place))
}

/// The two sheets, and how often each refusal was seen.
#[derive(Default)]
pub struct Both {
    engine: engine::Sheet,
    reference: reference::Sheet,
    calls: usize,
    refusals: BTreeMap<u8, usize>,
}

impl Both {
    /// Compares two answers and counts them.
    fn agree<T: PartialEq + std::fmt::Debug>(
        &mut self,
        engine: Result<T, Refused>,
        reference: Result<T, Refused>,
    ) {
        assert_eq!(engine, reference);
        self.calls += 1;
        if let Err((number, _)) = reference {
            *self.refusals.entry(number).or_default() += 1;
        }
    }

    /// Compares the two sheets, byte for byte, and by what they give as values.
    fn same_sheet(&self) {
        self.same_values();
        let bytes = match self.reference.plan() {
            Some(_) => reference::encode(&self.reference),
            None => Vec::new(),
        };
        assert_eq!(self.engine.bytes(), bytes);
    }

    /// Compares the values that the two sheets give.
    fn same_values(&self) {
        let (engine, reference) = (&self.engine, &self.reference);
        assert_eq!(engine.stage() as u8, reference.stage() as u8);
        let rings = reference.plan().map(reference::Plan::rings);
        assert_eq!(engine.rings(), rings.unwrap_or_default());
        assert_eq!(engine.n(), reference.plan().map_or(0, reference::Plan::n));
        assert_eq!(
            engine.labels(),
            reference.labels().map(reference::Labels::bytes)
        );
        let chart = reference.chart();
        assert_eq!(engine.width(), chart.map(|chart| chart.w));
        assert_eq!(engine.height(), chart.map(|chart| chart.h));
        assert_eq!(engine.points(), chart.map(|chart| chart.points.clone()));
    }

    /// Compares what a call answered and left.
    fn settle(
        &mut self,
        engine: Result<(), engine::Refusal>,
        reference: Result<(), reference::Refusal>,
    ) {
        self.agree(of_engine(engine), of_reference(reference));
        self.same_sheet();
    }

    /// A fresh sheet on both sides.
    pub fn fresh(&mut self) {
        self.engine = engine::Sheet::default();
        self.reference = reference::Sheet::default();
    }

    /// Open.
    pub fn open(&mut self, bytes: &[u8]) {
        let engine = self.engine.open(bytes);
        let reference = reference::open(bytes).map(|sheet| self.reference = sheet);
        self.settle(engine, reference);
    }

    /// Sweep.
    pub fn sweep(&mut self) {
        let engine = self.engine.sweep();
        let reference = reference::sweep(&mut self.reference);
        self.settle(engine, reference);
    }

    /// Offer.
    pub fn offer(&mut self, labels: &[u8]) {
        let engine = self.engine.offer(labels);
        let reference = reference::offer(&mut self.reference, labels);
        self.settle(engine, reference);
    }

    /// Turn.
    pub fn turn(&mut self, pairs: &[u16], direction: u8) {
        let engine = self.engine.turn(pairs, direction);
        let reference = reference::turn(&mut self.reference, pairs, direction);
        self.settle(engine, reference);
    }

    /// Chart.
    pub fn chart(&mut self) {
        let engine = self.engine.chart();
        let reference = reference::chart(&mut self.reference);
        self.settle(engine, reference);
    }

    /// Scan, same and ring, which never alter a sheet.
    pub fn look(&mut self, context: u16) {
        let engine = of_engine(self.engine.scan());
        let reference = of_reference(reference::scan(&self.reference));
        self.agree(engine, reference);
        let engine = of_engine(self.engine.same(&self.engine));
        let reference = of_reference(reference::same(&self.reference, &self.reference));
        self.agree(engine, reference);
        let bytes = self.engine.bytes().to_vec();
        self.ring(&bytes, context);
        self.same_sheet();
    }

    /// Ring.
    pub fn ring(&mut self, bytes: &[u8], context: u16) {
        let engine = of_engine(engine::ring(bytes, context));
        let reference = of_reference(reference::ring(bytes, context as usize));
        self.agree(
            engine,
            reference.map(|(at, length)| &bytes[at..at + length]),
        );
    }

    /// Open into a buffer of a length.
    pub fn open_into(&mut self, bytes: &[u8], room: usize) {
        let mut out = vec![FILLED; room];
        let answer = engine::raw::open_into(bytes, &mut out);
        let sheet = reference::open(bytes);
        self.written(answer, &out, sheet, room);
    }

    /// Sweep into a buffer of a length.
    pub fn sweep_into(&mut self, bytes: &[u8], room: usize) {
        let mut out = vec![FILLED; room];
        let answer = engine::raw::sweep_into(bytes, &mut out);
        let sheet = reference::open(bytes).and_then(|mut sheet| {
            reference::sweep(&mut sheet)?;
            Ok(sheet)
        });
        self.written(answer, &out, sheet, room);
    }

    /// Compares an answer and every byte of a lent buffer.
    fn written(
        &mut self,
        answer: u64,
        out: &[u8],
        sheet: Result<reference::Sheet, reference::Refusal>,
        room: usize,
    ) {
        let mut due = vec![FILLED; room];
        let reference = sheet.and_then(|sheet| reference::write(&sheet, &mut due));
        let value = answer & ((1 << 48) - 1);
        let engine = match answer >> 48 {
            0 => Ok(value as usize),
            number => Err((number as u8, value)),
        };
        self.agree(engine, of_reference(reference));
        assert_eq!(out, due);
    }

    /// Says how many calls were compared, and how often each refusal was seen.
    pub fn report(&self, name: &str) -> BTreeMap<u8, usize> {
        println!("{name}: {} calls, refusals {:?}", self.calls, self.refusals);
        self.refusals.clone()
    }
}
