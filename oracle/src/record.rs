//! Makes the recorded corpus: written cases, sides of limits, faulty images and generated ones, each
//! with tables just large enough, and many with one place short.

use std::collections::{BTreeMap, HashSet};

use crate::cases::{claims, grammar, images, limits, written, Bits, Spans};
use crate::compare::{self, Seen};
use crate::corpus::Case;
use crate::gen;
use crate::image::encode;
use crate::model::{self, Answer, Places, NONE, PLENTY};
use crate::rng::Rng;

/// A group of generated images.
struct Group {
    kind: &'static str,
    seed: u64,
    /// Images looked at, and the longest that is kept.
    look: u32,
    longest: usize,
    /// Images kept with a report of the wanted reason (0: with any report, or refused), and without.
    wanted: u64,
    with: usize,
    without: usize,
}

const fn group(kind: &'static str, seed: u64, look: u32, with: usize, without: usize) -> Group {
    Group {
        kind,
        seed,
        look,
        longest: 900,
        wanted: 0,
        with,
        without,
    }
}

/// A group whose images are kept for a report of reason 3.
const fn looping(kind: &'static str, seed: u64, look: u32, with: usize, without: usize) -> Group {
    Group {
        wanted: 3,
        ..group(kind, seed, look, with, without)
    }
}

/// The generated images.
const GENERATED: [Group; 21] = [
    group("small", 101, 2000, 100, 30),
    group("stack", 102, 2000, 100, 30),
    group("loops", 103, 1500, 100, 80),
    looping("loops", 117, 6000, 160, 0),
    looping("probes", 120, 2000, 330, 30),
    group("recursive", 104, 1000, 100, 20),
    looping("recursive", 118, 3000, 60, 0),
    group("left", 105, 1000, 120, 20),
    group("skips", 106, 1000, 100, 30),
    group("modifying", 107, 600, 40, 10),
    group("tags", 108, 1000, 100, 20),
    group("names", 109, 1500, 120, 30),
    group("ties", 110, 1500, 100, 10),
    group("counts", 111, 1500, 120, 30),
    looping("counts", 119, 4000, 60, 0),
    group("clear", 112, 1500, 120, 40),
    group("bits", 113, 1000, 80, 20),
    Group {
        longest: 12_000,
        ..group("deep", 114, 60, 9, 3)
    },
    Group {
        longest: 30_000,
        ..group("large", 115, 20, 3, 1)
    },
    group("damaged", 116, 1000, 160, 40),
    group("odd", 121, 600, 60, 15),
];

/// The cases, and what was seen on the way, by group.
pub struct Record {
    pub cases: Vec<Case>,
    pub groups: Vec<(String, usize, usize)>,
    pub refusals: BTreeMap<u32, usize>,
    pub reasons: BTreeMap<u64, usize>,
    pub seen: Seen,
}

impl Record {
    /// What stands beside the corpus.
    pub fn statistics(&self, bytes: usize) -> String {
        let mut text =
            String::from("Statistics of the recorded corpus, as `oracle record` made it.\n\n");
        text += &format!("{} cases, {bytes} bytes\n\n", self.cases.len());
        text += "group: cases, bytes\n";
        for (name, cases, bytes) in &self.groups {
            text += &format!("{name}: {cases}, {bytes}\n");
        }
        text += "\nrefusal: cases\n";
        for (refusal, cases) in &self.refusals {
            text += &format!("{refusal}: {cases}\n");
        }
        text += "\nreason: reports\n";
        for (reason, reports) in &self.reasons {
            text += &format!("{reason}: {reports}\n");
        }
        let Seen {
            images,
            whole,
            stack_only,
            differences,
            ..
        } = &self.seen;
        text += &format!(
            "\n{images} images; {whole} held against the whole validator, {stack_only} against its \
             stack pass: {} differences\n",
            differences.len()
        );
        text
    }
}

/// Makes the whole record.
pub fn make() -> Record {
    let mut maker = Maker {
        record: Record {
            cases: vec![],
            groups: vec![],
            refusals: BTreeMap::new(),
            reasons: BTreeMap::new(),
            seen: Seen::default(),
        },
        known: HashSet::new(),
        rng: Rng::new(100),
    };
    maker.group("starred and claimed", claimed());
    maker.group("written", written());
    maker.group("sides of limits", sides());
    maker.group("faulty images", faulty());
    for group in &GENERATED {
        maker.group(&group.name(), group.kept());
    }
    maker.record
}

fn claimed() -> Vec<Vec<u8>> {
    let all = claims::STARRED.iter().chain(claims::CLAIMS);
    all.map(|claim| encode(&claim.grammar())).collect()
}

/// The written grammars, with the Rust's bits.
fn written() -> Vec<Vec<u8>> {
    let skips = written::with_skips();
    let texts = written::TEXTS.iter().copied();
    texts
        .chain(skips.iter().map(String::as_str))
        .map(|text| encode(&grammar(text, Bits::Rust, Spans::Text)))
        .collect()
}

fn sides() -> Vec<Vec<u8>> {
    limits::all().iter().map(|side| encode(&side.g)).collect()
}

fn faulty() -> Vec<Vec<u8>> {
    images::all().into_iter().map(|fault| fault.image).collect()
}

impl Group {
    fn name(&self) -> String {
        let Group {
            kind, seed, look, ..
        } = self;
        format!("{kind}, seed {seed}, of {look}")
    }

    /// The first images that are wanted, and the first without a report, so many of each.
    fn kept(&self) -> Vec<Vec<u8>> {
        let (mut with, mut without) = (vec![], vec![]);
        for image in gen::images(self.kind, self.seed, self.look) {
            if image.len() > self.longest {
                continue;
            }
            let answer = model::check(&image, PLENTY);
            if self.wants(&answer) {
                with.push(image);
            } else if answer.reports.is_empty() {
                without.push(image);
            }
        }
        with.truncate(self.with);
        without.truncate(self.without);
        with.into_iter().chain(without).collect()
    }

    fn wants(&self, answer: &Answer) -> bool {
        match self.wanted {
            0 => answer.refusal != 0 || !answer.reports.is_empty(),
            reason => answer.reports.iter().any(|r| r >> 32 == reason),
        }
    }
}

struct Maker {
    record: Record,
    known: HashSet<Vec<u8>>,
    rng: Rng,
}

impl Maker {
    /// Records a group of images that were not there before.
    fn group(&mut self, name: &str, images: Vec<Vec<u8>>) {
        let (cases, bytes) = (self.record.cases.len(), self.bytes());
        for image in images {
            if self.known.insert(image.clone()) {
                compare::one(&image, &mut self.record.seen);
                self.image(&image);
            }
        }
        let added = (self.record.cases.len() - cases, self.bytes() - bytes);
        self.record.groups.push((name.to_owned(), added.0, added.1));
    }

    fn bytes(&self) -> usize {
        let one = |case: &Case| 24 + case.image.len() + 8 * case.reports.len();
        self.record.cases.iter().map(one).sum()
    }

    /// An image with tables just large enough; small ones also with tables that are not.
    fn image(&mut self, image: &[u8]) {
        let answer = model::check(image, PLENTY);
        let exact = answer.taken;
        self.case(image, exact);
        let dear = image.len() > 1500;
        let once_only = image.len() > 20_000 || dear && !self.rng.once_in(8);
        if (1..8).contains(&answer.refusal) || once_only {
            return;
        }
        if dear || self.rng.once_in(6) {
            self.one_short(image, exact);
        }
        if !dear && self.rng.once_in(8) {
            let some = |rng: &mut Rng, most: u32| rng.between(0, most + 1);
            let places = Places {
                outcome: some(&mut self.rng, exact.outcome),
                walked: some(&mut self.rng, exact.walked),
                report: some(&mut self.rng, exact.report),
            };
            self.case(image, places);
        }
    }

    /// One place short in each table that has one.
    fn one_short(&mut self, image: &[u8], exact: Places) {
        let short = [
            (
                exact.outcome > 0,
                Places {
                    outcome: exact.outcome.wrapping_sub(1),
                    ..exact
                },
            ),
            (
                exact.walked > 0,
                Places {
                    walked: exact.walked.wrapping_sub(1),
                    ..exact
                },
            ),
            (
                exact.report > 0,
                Places {
                    report: exact.report.wrapping_sub(1),
                    ..exact
                },
            ),
            (exact != NONE, NONE),
        ];
        for (possible, places) in short {
            if possible {
                self.case(image, places);
            }
        }
    }

    fn case(&mut self, image: &[u8], places: Places) {
        let answer = model::check(image, places);
        *self.record.refusals.entry(answer.refusal).or_default() += 1;
        for report in &answer.reports {
            *self.record.reasons.entry(report >> 32).or_default() += 1;
        }
        self.record.cases.push(Case::new(image, places, &answer));
    }
}
