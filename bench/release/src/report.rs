//! Reports (01, section 7) as summaries, through the reference's reader.

use crate::summary::{End, ExpressionSummary, Summary};
use reference::report::{ExpressionRecord, MixedPair, Report, Section};

/// The sections of a report, in order of function; `None` where the bytes are no report.
pub fn read_report(bytes: &[u8]) -> Option<Vec<Summary>> {
    Report::read(bytes)?
        .sections()
        .iter()
        .map(summary)
        .collect()
}

/// The reader checks lengths alone, so a flag or tag that is none is found here.
fn summary(section: &Section) -> Option<Summary> {
    Some(Summary {
        origin: section.origin(),
        requirements: section.requirements(),
        may_kill: flag(section.may_kill())?,
        uses: section.uses().to_vec(),
        pairs: section
            .pairs()
            .iter()
            .map(|pair| (pair.image, pair.sampler))
            .collect(),
        mixed: section
            .mixed()
            .iter()
            .map(mixed_pair)
            .collect::<Option<_>>()?,
        expressions: section.expressions().iter().map(expression).collect(),
    })
}

fn flag(byte: u8) -> Option<bool> {
    match byte {
        0 => Some(false),
        1 => Some(true),
        _ => None,
    }
}

fn mixed_pair(pair: &MixedPair) -> Option<(End, End)> {
    Some((
        end(pair.image_tag, pair.image)?,
        end(pair.sampler_tag, pair.sampler)?,
    ))
}

fn end(tag: u8, number: u16) -> Option<End> {
    match tag {
        0 => Some(End::Global(number)),
        1 => Some(End::Argument(number)),
        _ => None,
    }
}

fn expression(record: &ExpressionRecord) -> ExpressionSummary {
    ExpressionSummary {
        origin: record.origin,
        requirements: record.requirements,
        count: record.references,
        assignable: record.assignable,
    }
}

#[cfg(test)]
mod tests {
    use super::*;

    #[test]
    fn the_smallest_reports_are_read() {
        assert_eq!(read_report(&[0, 0, 0, 5, 1, 0, 0, 0, 0]), Some(vec![]));

        let mut one = vec![0, 0, 0, 15, 1, 0, 0, 0, 1, 255, 255];
        one.extend([0; 8]);
        let summaries = read_report(&one).expect("01, 11, case 2 is a report");
        assert_eq!(summaries.len(), 1);
        assert_eq!(summaries[0].origin, None);
        assert!(summaries[0].expressions.is_empty());
    }

    #[rustfmt::skip]
    const EVERY_PART: [u8; 40] = [
        0, 0, 0, 36, 1, 0, 2, 0, 1,
        0, 7, 9, 1, 0, 1, 0, 1, 0, 1,
        1, 4,
        0, 0, 0, 1,
        1, 0, 0, 3, 0, 1,
        255, 255, 8, 0, 0, 1, 2, 0, 1,
    ];

    #[test]
    fn every_part_is_read_from_its_own_place() {
        let expected = Summary {
            origin: Some(7),
            requirements: 9,
            may_kill: true,
            uses: vec![1, 4],
            pairs: vec![(0, 1)],
            mixed: vec![(End::Argument(3), End::Global(1))],
            expressions: vec![ExpressionSummary {
                origin: None,
                requirements: 8,
                count: 258,
                assignable: Some(1),
            }],
        };
        assert_eq!(read_report(&EVERY_PART), Some(vec![expected]));
    }

    #[test]
    fn short_long_and_wrong_reports_are_none() {
        for length in 0..EVERY_PART.len() {
            assert_eq!(read_report(&EVERY_PART[..length]), None);
        }
        assert_eq!(read_report(&[0, 0, 0, 5, 2, 0, 0, 0, 0]), None);
        assert_eq!(read_report(&[0, 0, 0, 6, 1, 0, 0, 0, 0, 0]), None);
        // May-kill, and the tags of the mixed pair.
        for place in [12, 25, 26] {
            let mut wrong = EVERY_PART;
            wrong[place] = 2;
            assert_eq!(read_report(&wrong), None, "byte {place}");
        }
    }
}
