//! The analyzer of the proved library.

use reference::{Answer, Refusal};

use crate::noise::Noise;

#[link(name = "fiuraccju_c", kind = "static")]
extern "C" {
    /// The report's length, with the report in `report`; or the five values of a refusal, packed (library/include/fiuraccju.h).
    fn fiuraccju_run(
        module: *const u8,
        length: usize,
        report: *mut u8,
        report_length: usize,
        work: *mut u8,
        work_length: usize,
    ) -> u64;
}

/// The published size of the working memory.
pub const WORK: usize = 22_016;

/// Slices to lend, longer than needed and full of noise before each run.
pub struct Lent {
    report: Vec<u8>,
    work: Vec<u8>,
    noise: Noise,
}

impl Lent {
    pub fn new() -> Self {
        Lent {
            report: vec![0; 65_536 + 64],
            work: vec![0; WORK + 64],
            noise: Noise::new(),
        }
    }

    /// Slices of exactly the published sizes, as a user lends them.
    pub fn exact() -> Self {
        Lent {
            report: vec![0; 65_536],
            work: vec![0; WORK],
            noise: Noise::new(),
        }
    }

    /// The answer; `None` where a byte that must be zero afterwards is not.
    pub fn answer(&mut self, module: &[u8]) -> Option<Answer> {
        self.noise.fill(&mut self.report);
        self.noise.fill(&mut self.work);
        let told = self.run(module);
        let report = (told[0] == 0).then_some(told[1] as usize).unwrap_or(0);
        let cleared =
            self.work.iter().all(|&b| b == 0) && self.report[report..].iter().all(|&b| b == 0);
        cleared.then(|| match told[0] {
            0 => Answer::Report(self.report[..report].to_vec()),
            number => Answer::Refused(Refusal {
                number: number as u8,
                function: told[1] as u16,
                place: told[2] as u16,
                cause: told[3] as u8,
                value: told[4] as u16,
            }),
        })
    }

    /// One run, with the slices as they are: zero and the report's length, or the five values of a refusal.
    pub fn run(&mut self, module: &[u8]) -> [u64; 5] {
        self.run_from(module, 0)
    }

    /// Only the clearing of a run that gives a report of `length` bytes. A run on no bytes, lent what lies behind that
    /// report, refuses at once and clears the same bytes in the same way.
    pub fn clear_behind(&mut self, length: usize) -> [u64; 5] {
        self.run_from(&[], length)
    }

    /// One run, lent the report from `from` on.
    fn run_from(&mut self, module: &[u8], from: usize) -> [u64; 5] {
        let report = &mut self.report[from..];
        // SAFETY: the library stays within the slices that it is lent; its contract, which is proved, requires nothing else.
        let packed = unsafe {
            fiuraccju_run(
                module.as_ptr(),
                module.len(),
                report.as_mut_ptr(),
                report.len(),
                self.work.as_mut_ptr(),
                self.work.len(),
            )
        };
        unpacked(packed)
    }
}

/// The values that an answer packs: 8 bits of number, 16 of function, 16 of place, 8 of cause, 16 of its value.
fn unpacked(packed: u64) -> [u64; 5] {
    match packed >> 56 {
        0 => [0, packed, 0, 0, 0],
        number => [
            number,
            packed >> 40 & 0xFFFF,
            packed >> 24 & 0xFFFF,
            packed >> 16 & 0xFF,
            packed & 0xFFFF,
        ],
    }
}
