//! The analyzer, with the memory that it works in.

use crate::library;
use crate::refusal::Refusal;
use crate::report::{Report, MOST_BYTES};

/// The published size of the working memory (01, 9.2).
const WORK: usize = 22_016;

/// An analyzer that owns the memory of its runs, and can be used again and again.
///
/// A run leaves nothing behind that another could see. It allocates nothing and takes no lock; for runs in several threads make one
/// analyzer for each.
#[derive(Debug)]
pub struct Analyzer {
    report: Box<[u8]>,
    work: Box<[u8]>,
}

impl Analyzer {
    pub fn new() -> Self {
        Analyzer {
            report: vec![0; MOST_BYTES].into_boxed_slice(),
            work: vec![0; WORK].into_boxed_slice(),
        }
    }

    /// The report on a module file, or why there is none. Any bytes get one of the two.
    ///
    /// ```
    /// use fiuraccju::{Analyzer, RefusalKind};
    ///
    /// let refusal = Analyzer::new().analyse(b"no module file").unwrap_err();
    /// assert_eq!(refusal.kind, RefusalKind::Length);
    /// assert_eq!(refusal.kind.number(), 2);
    /// ```
    pub fn analyse(&mut self, module: &[u8]) -> Result<Report<'_>, Refusal> {
        let packed = library::run(module, &mut self.report, &mut self.work);
        match Refusal::of_packed(packed) {
            Some(refusal) => Err(refusal),
            None => {
                let bytes = &self.report[..packed as usize];
                Ok(Report::read(bytes).expect("the library promises a report that reads back"))
            }
        }
    }
}

impl Default for Analyzer {
    fn default() -> Self {
        Analyzer::new()
    }
}
