//! A plan with the labels and the chart that it has, worked out by the reference.

use generate::file::file;
use generate::{Random, Rings};
use reference::{chart, offer, open, sweep, Sheet};

/// A plan, its labels and its chart's numbers, as far as there are any.
#[derive(Clone)]
pub struct Case {
    /// The rings.
    pub rings: Rings,
    /// Labels that keep the rules.
    pub labels: Option<Vec<u8>>,
    /// Width, height, and x and y of each context.
    pub numbers: Option<Vec<u16>>,
}

impl Case {
    /// The plan with the labels that the sweep gives, and their chart.
    pub fn swept(rings: Rings) -> Case {
        let mut sheet = open(&file(&rings, None, None)).expect("a plan");
        let _ = sweep(&mut sheet);
        Case::of_sheet(rings, sheet)
    }

    /// The plan with these labels, and their chart.
    pub fn labelled(rings: Rings, labels: &[u8]) -> Case {
        let mut sheet = open(&file(&rings, None, None)).expect("a plan");
        offer(&mut sheet, labels).expect("labels");
        Case::of_sheet(rings, sheet)
    }

    /// What a sheet holds, and its chart if it has one.
    fn of_sheet(rings: Rings, mut sheet: Sheet) -> Case {
        let _ = chart(&mut sheet);
        let labels = sheet.labels().map(|labels| labels.bytes().to_vec());
        let numbers = sheet.chart().map(|chart| {
            let points = chart.points.iter().flat_map(|&(x, y)| [x, y]);
            [chart.w, chart.h].into_iter().chain(points).collect()
        });
        Case {
            rings,
            labels,
            numbers,
        }
    }

    /// The number of contexts.
    pub fn n(&self) -> usize {
        self.rings.len()
    }

    /// The number of darts.
    pub fn darts(&self) -> usize {
        6 * self.n() - 14
    }

    /// The file of the plan alone.
    pub fn plain(&self) -> Vec<u8> {
        file(&self.rings, None, None)
    }

    /// The file with the labels, if there are any.
    pub fn with_labels(&self) -> Vec<u8> {
        file(&self.rings, self.labels.as_deref(), None)
    }

    /// The file with all parts.
    pub fn whole(&self) -> Vec<u8> {
        file(&self.rings, self.labels.as_deref(), self.numbers.as_deref())
    }

    /// The files of all stages that the plan has.
    pub fn files(&self) -> Vec<Vec<u8>> {
        let mut files = vec![self.plain()];
        if self.labels.is_some() {
            files.push(self.with_labels());
        }
        if self.numbers.is_some() {
            files.push(self.whole());
        }
        files
    }

    /// The labels, or random ones where there are none.
    pub fn some_labels(&self, random: &mut Random) -> Vec<u8> {
        match &self.labels {
            Some(labels) => labels.clone(),
            None => generate::damage::random_labels(self.darts(), random),
        }
    }
}
