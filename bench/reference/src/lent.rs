//! Section 9: what a run leaves in the slices that it was lent.

use crate::report::MOST_REPORT_BYTES;
use crate::{analyse, Answer, Refusal};

/// A run over lent slices, `work_size` being the published size of the working memory (01, 9).
///
/// Answers the report's length. The report stands at the start of the lent report, with zeros behind it;
/// after a refusal, whichever it is, the lent report is all zero. The working memory always ends all zero.
pub fn run(
    file: &[u8],
    report: &mut [u8],
    work: &mut [u8],
    work_size: usize,
) -> Result<usize, Refusal> {
    report.fill(0);
    work.fill(0);
    if report.len() < MOST_REPORT_BYTES || work.len() < work_size {
        return Err(Refusal::at(1, 0, 0));
    }
    match analyse(file) {
        Answer::Report(bytes) => {
            report[..bytes.len()].copy_from_slice(&bytes);
            Ok(bytes.len())
        }
        Answer::Refused(refusal) => Err(refusal),
    }
}
