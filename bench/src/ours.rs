//! The proved check across its C boundary, over lent tables.

use oracle::model::Places;

extern "C" {
    fn thatchnip_check(
        image: *const u8,
        image_len: usize,
        outcomes: *mut u8,
        outcomes_len: usize,
        walked: *mut u8,
        walked_len: usize,
        reports: *mut u8,
        reports_len: usize,
    ) -> u64;
}

/// Three tables to lend.
pub struct Tables {
    outcomes: Vec<u8>,
    walked: Vec<u8>,
    reports: Vec<u8>,
}

impl Tables {
    /// Tables of so many places, not zero: the check may find anything in them.
    pub fn new(places: Places) -> Tables {
        let bytes = |places: u32, size: usize| vec![0xa5; places as usize * size];
        Tables {
            outcomes: bytes(places.outcome, 8),
            walked: bytes(places.walked, 4),
            reports: bytes(places.report, 8),
        }
    }

    /// All bytes lent.
    pub fn len(&self) -> usize {
        self.outcomes.len() + self.walked.len() + self.reports.len()
    }

    /// Asks the check: count + 2^32 x refusal.
    #[inline(never)]
    pub fn check(&mut self, image: &[u8]) -> u64 {
        // SAFETY: four slices that do not overlap, each as its pointer and its length.
        unsafe {
            thatchnip_check(
                image.as_ptr(),
                image.len(),
                self.outcomes.as_mut_ptr(),
                self.outcomes.len(),
                self.walked.as_mut_ptr(),
                self.walked.len(),
                self.reports.as_mut_ptr(),
                self.reports.len(),
            )
        }
    }

    /// The first reports of the report table.
    pub fn reports(&self, count: usize) -> Vec<u64> {
        let word = |bytes: &[u8]| u64::from_le_bytes(bytes.try_into().expect("8 bytes"));
        self.reports.chunks_exact(8).take(count).map(word).collect()
    }
}
