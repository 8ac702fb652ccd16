//! host.rs: a Rust host. Checks the image in the file named and prints its reports; ends with 0 none, 1 some, 2 refused, 3 not run.
//! Build: rustc --edition 2021 -L target/staticlib -l static=thatchnip examples/host.rs

use std::process::ExitCode;

mod thatchnip {
    //! The safe side of the entry: slices in, a list of reports or a refusal out.

    // The ABI of include/thatchnip.h: each slice is a pointer and a length.
    extern "C" {
        fn thatchnip_check(
            image: *const u8,
            image_length: usize,
            outcomes: *mut u8,
            outcomes_length: usize,
            walked: *mut u8,
            walked_length: usize,
            reports: *mut u8,
            reports_length: usize,
        ) -> u64;
    }

    /// No image has more reports.
    pub const REPORTS_MOST: usize = 6400;

    /// A refusal, 1 to 13, as include/thatchnip.h names them.
    #[derive(Clone, Copy, Debug, PartialEq, Eq)]
    pub struct Refusal(pub u32);

    /// A node, the state for reason 3 (else 0), and the reason, 1 to 5.
    #[derive(Clone, Copy, Debug, PartialEq, Eq)]
    pub struct Report {
        pub node: u16,
        pub state: State,
        pub reason: u32,
    }

    /// An abstract stack by its number.
    #[derive(Clone, Copy, Debug, PartialEq, Eq)]
    pub struct State(pub u16);

    impl State {
        /// Which tracked entries surely have length 0, the lowest entry at bit 0.
        pub fn blank(self) -> u16 {
            self.0 & 0xff
        }

        /// How many entries are tracked, 0 to 8.
        pub fn length(self) -> u16 {
            self.0 >> 8 & 0xf
        }

        /// 0 Empty, 1 Blank, 2 Any.
        pub fn base(self) -> u16 {
            self.0 >> 12 & 0x3
        }

        /// Whether the base is the list with which the rule began.
        pub fn intact(self) -> bool {
            self.0 >> 14 & 1 == 1
        }
    }

    impl Report {
        fn from_number(report: u64) -> Report {
            Report {
                node: report as u16,
                state: State((report >> 16) as u16),
                reason: (report >> 32) as u32,
            }
        }
    }

    /// Checks an image, with work tables of so many places.
    pub fn check(
        image: &[u8],
        outcome_places: usize,
        walked_places: usize,
    ) -> Result<Vec<Report>, Refusal> {
        let mut outcomes = vec![0u8; outcome_places * 8];
        let mut walked = vec![0u8; walked_places * 4];
        let mut reports = vec![0u8; REPORTS_MOST * 8];
        // Sound: each pointer and length is that of one slice, and the three tables are allocated here, so nothing overlaps.
        let result = unsafe {
            thatchnip_check(
                image.as_ptr(),
                image.len(),
                outcomes.as_mut_ptr(),
                outcomes.len(),
                walked.as_mut_ptr(),
                walked.len(),
                reports.as_mut_ptr(),
                reports.len(),
            )
        };
        if result >> 32 != 0 {
            return Err(Refusal((result >> 32) as u32));
        }
        let words = reports.chunks_exact(8).take(result as u32 as usize);
        Ok(words
            .map(|w| Report::from_number(u64::from_le_bytes(w.try_into().unwrap())))
            .collect())
    }
}

/// More than any image of the recorded corpus takes.
const WORK_PLACES: usize = 131072;

const REFUSALS: &str = include_str!("refusals.inc");
const REASONS: &str = include_str!("reasons.inc");

/// The text of a number in one of these lists.
fn text(list: &str, number: usize) -> &str {
    let line = list.lines().filter(|line| line.starts_with('"')).nth(number);
    line.unwrap_or("").trim_end_matches(',').trim_matches('"')
}

const BASES: [&str; 4] = ["empty", "blank", "any", "no base"];

fn print_report(report: &thatchnip::Report) {
    print!("node {}: {}", report.node, text(REASONS, report.reason as usize));
    if report.reason == 3 {
        let s = report.state;
        let intact = if s.intact() { "intact" } else { "not intact" };
        let base = BASES[s.base() as usize];
        print!(
            ", state {} (base {}, length {}, blank {}, {})",
            s.0,
            base,
            s.length(),
            s.blank(),
            intact
        );
    }
    println!();
}

fn main() -> ExitCode {
    let mut args = std::env::args_os().skip(1);
    let (Some(path), None) = (args.next(), args.next()) else {
        eprintln!("usage: host IMAGE");
        return ExitCode::from(3);
    };
    let image = match std::fs::read(&path) {
        Ok(image) => image,
        Err(e) => {
            eprintln!("{}: {e}", path.to_string_lossy());
            return ExitCode::from(3);
        }
    };
    match thatchnip::check(&image, WORK_PLACES, WORK_PLACES) {
        Err(refusal) => {
            println!("refused {}: {}", refusal.0, text(REFUSALS, refusal.0 as usize));
            ExitCode::from(2)
        }
        Ok(reports) => {
            reports.iter().for_each(print_report);
            ExitCode::from(!reports.is_empty() as u8)
        }
    }
}
