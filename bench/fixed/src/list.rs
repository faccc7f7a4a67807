//! The data file: module files, each with its answer, one after another.
//!
//! All numbers are big-endian. The file begins with the eight bytes `FIURLIST` and a u32 count of entries.
//! An entry is
//!
//! - u32 length of the module file, and its bytes;
//! - u8 tag, and then by the tag
//!   - 0, a report: u32 length, and its bytes;
//!   - 1, a refusal: u8 number, u16 function, u16 place, u8 cause, u16 value;
//!   - 2, a report of more than [`MOST_WHOLE`] bytes: u32 length, u32 [`checksum`] of its bytes.
//!
//! Nothing follows the last entry. A program that replays the list needs room for one module file, which may
//! be longer than 65,536 bytes by a few where it has to be refused for that, and for the analyzer's slices; a
//! whole report can be compared byte by byte as it is read.

use reference::{first_difference, Answer, Refusal};

const MAGIC: &[u8; 8] = b"FIURLIST";

const TAG_REPORT: u8 = 0;
const TAG_REFUSAL: u8 = 1;
const TAG_LONG_REPORT: u8 = 2;

/// The longest report that stands in the list byte by byte.
pub const MOST_WHOLE: usize = 5_120;

/// What the list says that the answer is.
#[derive(Clone, Debug, PartialEq, Eq)]
pub enum Expected {
    Whole(Answer),
    LongReport { length: usize, checksum: u32 },
}

impl Expected {
    /// What the list says of this answer.
    pub fn of(answer: Answer) -> Self {
        match answer {
            Answer::Report(bytes) if bytes.len() > MOST_WHOLE => Expected::LongReport {
                length: bytes.len(),
                checksum: checksum(&bytes),
            },
            answer => Expected::Whole(answer),
        }
    }

    /// The first difference from an answer, in words.
    pub fn differs_from(&self, answer: &Answer) -> Option<String> {
        if let Expected::Whole(expected) = self {
            return first_difference(expected, answer).map(|difference| difference.to_string());
        }
        let found = Expected::of(answer.clone());
        (found != *self).then(|| format!("{self:?} / {found:?}"))
    }
}

/// Two sums modulo 65,521: the low one, which starts at 1, adds up the bytes; the high one, which starts at 0,
/// adds up the low one after each byte (Adler-32).
pub fn checksum(bytes: &[u8]) -> u32 {
    const MODULUS: u32 = 65_521;
    let (mut low, mut high) = (1, 0);
    for &byte in bytes {
        low = (low + u32::from(byte)) % MODULUS;
        high = (high + low) % MODULUS;
    }
    high << 16 | low
}

/// The data file on these module files and what is expected of each.
pub fn write<'a>(files: impl ExactSizeIterator<Item = (&'a [u8], &'a Expected)>) -> Vec<u8> {
    let mut out = MAGIC.to_vec();
    put32(&mut out, files.len());
    for (file, expected) in files {
        put32(&mut out, file.len());
        out.extend_from_slice(file);
        write_expected(&mut out, expected);
    }
    out
}

fn write_expected(out: &mut Vec<u8>, expected: &Expected) {
    match expected {
        Expected::Whole(Answer::Report(bytes)) => {
            out.push(TAG_REPORT);
            put32(out, bytes.len());
            out.extend_from_slice(bytes);
        }
        Expected::Whole(Answer::Refused(refusal)) => {
            out.push(TAG_REFUSAL);
            out.push(refusal.number);
            out.extend_from_slice(&refusal.function.to_be_bytes());
            out.extend_from_slice(&refusal.place.to_be_bytes());
            out.push(refusal.cause);
            out.extend_from_slice(&refusal.value.to_be_bytes());
        }
        &Expected::LongReport { length, checksum } => {
            out.push(TAG_LONG_REPORT);
            put32(out, length);
            out.extend_from_slice(&checksum.to_be_bytes());
        }
    }
}

/// The module files and what is expected of each; `None` where the layout is wrong.
pub fn read(data: &[u8]) -> Option<Vec<(&[u8], Expected)>> {
    let mut reader = Reader { rest: data };
    if reader.bytes(MAGIC.len())? != MAGIC {
        return None;
    }
    let count = reader.u32()?;
    let mut entries = Vec::new();
    for _ in 0..count {
        let length = reader.u32()? as usize;
        entries.push((reader.bytes(length)?, reader.expected()?));
    }
    reader.rest.is_empty().then_some(entries)
}

/// Big-endian numbers from the front of the data, as long as there are any.
struct Reader<'a> {
    rest: &'a [u8],
}

impl<'a> Reader<'a> {
    fn expected(&mut self) -> Option<Expected> {
        match self.u8()? {
            TAG_REPORT => {
                let length = self.u32()? as usize;
                let report = self.bytes(length)?.to_vec();
                Some(Expected::Whole(Answer::Report(report)))
            }
            TAG_REFUSAL => Some(Expected::Whole(Answer::Refused(Refusal {
                number: self.u8()?,
                function: self.u16()?,
                place: self.u16()?,
                cause: self.u8()?,
                value: self.u16()?,
            }))),
            TAG_LONG_REPORT => Some(Expected::LongReport {
                length: self.u32()? as usize,
                checksum: self.u32()?,
            }),
            _ => None,
        }
    }

    fn bytes(&mut self, count: usize) -> Option<&'a [u8]> {
        let (taken, rest) = self.rest.split_at_checked(count)?;
        self.rest = rest;
        Some(taken)
    }

    fn u8(&mut self) -> Option<u8> {
        self.bytes(1).map(|bytes| bytes[0])
    }

    fn u16(&mut self) -> Option<u16> {
        let bytes = self.bytes(2)?;
        Some(u16::from_be_bytes([bytes[0], bytes[1]]))
    }

    fn u32(&mut self) -> Option<u32> {
        let bytes = self.bytes(4)?;
        Some(u32::from_be_bytes([bytes[0], bytes[1], bytes[2], bytes[3]]))
    }
}

fn put32(out: &mut Vec<u8>, number: usize) {
    out.extend_from_slice(&(number as u32).to_be_bytes());
}

#[cfg(test)]
mod tests {
    use super::*;
    use reference::analyse;

    /// Worked out by hand: after `a` (97) the sums are 98 and 98, after `b` 196 and 294, after `c` 295 and
    /// 589.
    #[test]
    fn checksum_by_hand() {
        assert_eq!(checksum(b""), 1);
        assert_eq!(checksum(b"abc"), 589 << 16 | 295);
    }

    #[test]
    fn what_is_written_is_read() {
        let refused = Refusal {
            number: 11,
            function: 3,
            place: 500,
            cause: 1,
            value: 499,
        };
        let expected = [
            Expected::Whole(Answer::Report(vec![0, 0, 0, 5, 1, 0, 0, 0, 0])),
            Expected::Whole(Answer::Refused(refused)),
            Expected::of(Answer::Report(vec![7; MOST_WHOLE + 1])),
        ];
        let files: [&[u8]; 3] = [&[1, 2, 3], &[], &[4]];
        let data = write(
            files
                .into_iter()
                .zip(&expected)
                .collect::<Vec<_>>()
                .into_iter(),
        );
        let read = read(&data).expect("a list");
        assert_eq!(read, files.into_iter().zip(expected).collect::<Vec<_>>());
    }

    #[test]
    fn a_list_cut_short_is_not_read() {
        let file: &[u8] = &[0, 0, 0, 6, 1, 0, 0, 0, 0, 0];
        let expected = Expected::of(analyse(file));
        let data = write([(file, &expected)].into_iter());
        assert!(read(&data).is_some());
        assert!((0..data.len()).all(|length| read(&data[..length]).is_none()));
    }
}
