//! An independent executable reading of document 01: the whole check with its tables and refusals.

pub mod left;
pub mod stack_pass;
pub mod state;
pub mod top_down;

use crate::image::{self, Grammar};

/// The places of the three lent tables.
#[derive(Clone, Copy, Debug, PartialEq, Eq)]
pub struct Places {
    pub outcome: u32,
    pub walked: u32,
    pub report: u32,
}

/// No place.
pub const NONE: Places = Places {
    outcome: 0,
    walked: 0,
    report: 0,
};

/// More places than any check takes.
pub const PLENTY: Places = Places {
    outcome: u32::MAX,
    walked: u32::MAX,
    report: u32::MAX,
};

/// The report list that passes write to, with its number of places.
pub struct Reports {
    pub list: Vec<u64>,
    places: u32,
}

impl Reports {
    /// Places a report, or gives 10.
    pub fn place(&mut self, report: u64) -> Result<(), u32> {
        if self.list.len() as u64 >= u64::from(self.places) {
            return Err(10);
        }
        self.list.push(report);
        Ok(())
    }
}

/// What comes back, and the places that were taken up to then.
#[derive(Clone, Debug, PartialEq, Eq)]
pub struct Answer {
    pub refusal: u32,
    pub reports: Vec<u64>,
    pub taken: Places,
}

impl Answer {
    fn refused(refusal: u32, taken: Places) -> Answer {
        Answer {
            refusal,
            reports: vec![],
            taken,
        }
    }

    /// The bytes of a report table of this length on return: the reports, then zeros.
    pub fn report_table(&self, length: usize) -> Vec<u8> {
        let mut bytes: Vec<u8> = self.reports.iter().flat_map(|r| r.to_le_bytes()).collect();
        bytes.resize(length, 0);
        bytes
    }
}

/// The check of an image.
pub fn check(bytes: &[u8], places: Places) -> Answer {
    match image::decode(bytes) {
        Ok(g) => check_grammar(&g, places),
        Err(refusal) => Answer::refused(refusal, NONE),
    }
}

/// The check of a grammar: the passes, then the reports by span start, then end, ties as found.
pub fn check_grammar(g: &Grammar, places: Places) -> Answer {
    let mut reports = Reports {
        list: vec![],
        places: places.report,
    };
    let mut taken = NONE;
    let passed = passes(g, places, &mut reports, &mut taken);
    taken.report = reports.list.len() as u32;
    if let Err(refusal) = passed {
        return Answer::refused(refusal, taken);
    }
    let mut list = reports.list;
    list.sort_by_key(|r| {
        let node = &g.nodes[(r & 0xffff) as usize];
        (node.start, node.end)
    });
    Answer {
        refusal: 0,
        reports: list,
        taken,
    }
}

/// Passes run 1 and 2 together, 3, 4, 5.
fn passes(
    g: &Grammar,
    places: Places,
    reports: &mut Reports,
    taken: &mut Places,
) -> Result<(), u32> {
    top_down::repetitions(g, reports)?;
    stack_pass::run(g, places, reports, taken)?;
    top_down::choices(g, reports)?;
    left::recursion(g, reports)
}
