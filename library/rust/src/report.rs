//! A report, read (01, section 7).

use std::error::Error;
use std::fmt;
use std::iter::FusedIterator;

use crate::flags::{Requirements, Uses};
use crate::index::{ArgumentIndex, ExpressionIndex, FunctionIndex, GlobalIndex};

/// Most bytes of a report (01, 7.5).
pub const MOST_BYTES: usize = 65_536;

const VERSION: u8 = 1;

/// Bytes before the first section, and of a section before its use bytes (01, 7.1 and 7.2).
const HEADER_BYTES: usize = 9;
const SECTION_HEADER_BYTES: usize = 10;

/// Bytes of each record (01, 7.4).
const PAIR_BYTES: usize = 4;
const MIXED_BYTES: usize = 6;
const EXPRESSION_BYTES: usize = 9;

/// A report on a module: one section for each function.
#[derive(Clone, Copy, PartialEq, Eq)]
pub struct Report<'a> {
    bytes: &'a [u8],
}

/// The bytes are not a report.
#[derive(Clone, Copy, Debug, PartialEq, Eq)]
pub enum Malformed {
    /// Too short, too long, or another length than the header says.
    Length,
    /// A version other than 1.
    Version,
    /// The section of this function does not fit, or bytes are left over behind the last one.
    Section(FunctionIndex),
    /// An end of a mixed pair of this function is neither a global nor an argument.
    Tag(FunctionIndex),
}

impl fmt::Display for Malformed {
    fn fmt(&self, f: &mut fmt::Formatter<'_>) -> fmt::Result {
        match self {
            Malformed::Length => f.write_str("not a report: its length is wrong"),
            Malformed::Version => f.write_str("not a report of version 1"),
            Malformed::Section(function) => {
                write!(f, "not a report: the section of {function} is wrong")
            }
            Malformed::Tag(function) => {
                write!(
                    f,
                    "not a report: an end in {function} is neither global nor argument"
                )
            }
        }
    }
}

impl Error for Malformed {}

impl<'a> Report<'a> {
    /// Reads a report, as [`Analyzer::analyse`](crate::Analyzer::analyse) gives it or the program `fiuraccju` writes it.
    ///
    /// ```
    /// use fiuraccju::Report;
    ///
    /// let bytes = std::fs::read("../../examples/wall/wall.report")?;
    /// let report = Report::read(&bytes)?;
    /// assert_eq!(report.functions().len(), 3);
    /// # Ok::<(), Box<dyn std::error::Error>>(())
    /// ```
    pub fn read(bytes: &'a [u8]) -> Result<Self, Malformed> {
        if bytes.len() < HEADER_BYTES
            || bytes.len() > MOST_BYTES
            || u32_at(bytes, 0) as usize != bytes.len() - 4
        {
            return Err(Malformed::Length);
        }
        if bytes[4] != VERSION {
            return Err(Malformed::Version);
        }
        let report = Report { bytes };
        report.check_sections()?;
        Ok(report)
    }

    /// Every section fits, nothing is left over, and every tag is known: what the accessors rely on.
    fn check_sections(self) -> Result<(), Malformed> {
        let mut rest = &self.bytes[HEADER_BYTES..];
        for number in 0..self.function_count() {
            let index = FunctionIndex(number);
            let (section, behind) = FunctionReport::split(rest, index, self.globals())
                .ok_or(Malformed::Section(index))?;
            if section
                .mixed_bytes()
                .chunks_exact(MIXED_BYTES)
                .any(|m| m[0] > 1 || m[1] > 1)
            {
                return Err(Malformed::Tag(index));
            }
            rest = behind;
        }
        if rest.is_empty() {
            Ok(())
        } else {
            Err(Malformed::Section(FunctionIndex(self.function_count())))
        }
    }

    /// The report's bytes.
    pub fn bytes(&self) -> &'a [u8] {
        self.bytes
    }

    /// How many globals the module has.
    pub fn globals(&self) -> u16 {
        u16_at(self.bytes, 5)
    }

    fn function_count(&self) -> u16 {
        u16_at(self.bytes, 7)
    }

    /// What is known of each function, in order of number: a function stands behind all those that it calls.
    pub fn functions(&self) -> Functions<'a> {
        Functions {
            rest: &self.bytes[HEADER_BYTES..],
            globals: self.globals(),
            next: 0,
            end: self.function_count(),
        }
    }

    /// What is known of one function.
    pub fn function(&self, index: FunctionIndex) -> Option<FunctionReport<'a>> {
        self.functions().nth(usize::from(index.0))
    }
}

impl fmt::Debug for Report<'_> {
    fn fmt(&self, f: &mut fmt::Formatter<'_>) -> fmt::Result {
        f.debug_list().entries(self.functions()).finish()
    }
}

/// The functions of a report.
#[derive(Clone)]
pub struct Functions<'a> {
    rest: &'a [u8],
    globals: u16,
    next: u16,
    end: u16,
}

impl<'a> Iterator for Functions<'a> {
    type Item = FunctionReport<'a>;

    fn next(&mut self) -> Option<Self::Item> {
        if self.next == self.end {
            return None;
        }
        let (section, rest) =
            FunctionReport::split(self.rest, FunctionIndex(self.next), self.globals)?;
        self.rest = rest;
        self.next += 1;
        Some(section)
    }

    fn size_hint(&self) -> (usize, Option<usize>) {
        let left = usize::from(self.end - self.next);
        (left, Some(left))
    }
}

impl ExactSizeIterator for Functions<'_> {}
impl FusedIterator for Functions<'_> {}

/// What is known of a function (01, 7.2).
#[derive(Clone, Copy, PartialEq, Eq)]
pub struct FunctionReport<'a> {
    index: FunctionIndex,
    globals: u16,
    bytes: &'a [u8],
}

impl<'a> FunctionReport<'a> {
    /// The section at the front of these bytes, and what stands behind it; `None` where it does not fit.
    fn split(bytes: &'a [u8], index: FunctionIndex, globals: u16) -> Option<(Self, &'a [u8])> {
        let header = bytes.get(..SECTION_HEADER_BYTES)?;
        let [expressions, pairs, mixed] = [4, 6, 8].map(|at| usize::from(u16_at(header, at)));
        let length = SECTION_HEADER_BYTES
            + usize::from(globals)
            + pairs * PAIR_BYTES
            + mixed * MIXED_BYTES
            + expressions * EXPRESSION_BYTES;
        let (bytes, rest) = (bytes.get(..length)?, bytes.get(length..)?);
        let section = FunctionReport {
            index,
            globals,
            bytes,
        };
        Some((section, rest))
    }

    pub fn index(&self) -> FunctionIndex {
        self.index
    }

    /// Where its result stops being uniform; `None` where it never does.
    pub fn origin(&self) -> Option<ExpressionIndex> {
        ExpressionIndex::or_none(u16_at(self.bytes, 0))
    }

    /// What it requires of control flow.
    pub fn requirements(&self) -> Requirements {
        Requirements::of_bits(self.bytes[2])
    }

    /// Whether it may kill the invocation where control flow is not uniform.
    pub fn may_kill(&self) -> bool {
        self.bytes[3] != 0
    }

    /// Each global of the module, with what the function, or anything that it calls, does with it.
    pub fn uses(&self) -> impl ExactSizeIterator<Item = (GlobalIndex, Uses)> + 'a {
        let uses = &self.bytes[SECTION_HEADER_BYTES..self.pairs_start()];
        uses.iter().enumerate().map(|(global, &bits)| {
            let global =
                GlobalIndex(u16::try_from(global).expect("a report counts globals in u16"));
            (global, Uses::of_bits(bits))
        })
    }

    /// What it does with one global; `None` where the module has no such global.
    pub fn uses_of(&self, global: GlobalIndex) -> Option<Uses> {
        self.uses().nth(usize::from(global.0)).map(|(_, uses)| uses)
    }

    /// The images and samplers that it, or anything that it calls, samples together. They ascend, and each stands once.
    pub fn pairs(&self) -> impl ExactSizeIterator<Item = Pair> + 'a {
        let bytes = &self.bytes[self.pairs_start()..self.mixed_start()];
        bytes.chunks_exact(PAIR_BYTES).map(|record| Pair {
            image: GlobalIndex(u16_at(record, 0)),
            sampler: GlobalIndex(u16_at(record, 2)),
        })
    }

    /// The pairs in which an end, or both, is still an argument of the function: what a caller passes decides.
    pub fn mixed_pairs(&self) -> impl ExactSizeIterator<Item = MixedPair> + 'a {
        self.mixed_bytes()
            .chunks_exact(MIXED_BYTES)
            .map(|record| MixedPair {
                image: End::read(record[0], u16_at(record, 2)),
                sampler: End::read(record[1], u16_at(record, 4)),
            })
    }

    /// What is known of each of its expressions.
    pub fn expressions(&self) -> impl ExactSizeIterator<Item = ExpressionReport> + 'a {
        let bytes = &self.bytes[self.expressions_start()..];
        bytes
            .chunks_exact(EXPRESSION_BYTES)
            .map(|record| ExpressionReport {
                origin: ExpressionIndex::or_none(u16_at(record, 0)),
                requirements: Requirements::of_bits(record[2]),
                references: u32_at(record, 3),
                assignable: GlobalIndex::or_none(u16_at(record, 7)),
            })
    }

    /// What is known of one expression.
    pub fn expression(&self, index: ExpressionIndex) -> Option<ExpressionReport> {
        self.expressions().nth(usize::from(index.0))
    }

    fn mixed_bytes(&self) -> &'a [u8] {
        &self.bytes[self.mixed_start()..self.expressions_start()]
    }

    fn pairs_start(&self) -> usize {
        SECTION_HEADER_BYTES + usize::from(self.globals)
    }

    fn mixed_start(&self) -> usize {
        self.pairs_start() + usize::from(u16_at(self.bytes, 6)) * PAIR_BYTES
    }

    fn expressions_start(&self) -> usize {
        self.mixed_start() + usize::from(u16_at(self.bytes, 8)) * MIXED_BYTES
    }
}

impl fmt::Debug for FunctionReport<'_> {
    fn fmt(&self, f: &mut fmt::Formatter<'_>) -> fmt::Result {
        f.debug_struct("FunctionReport")
            .field("index", &self.index)
            .field("origin", &self.origin())
            .field("requirements", &self.requirements())
            .field("may_kill", &self.may_kill())
            .field("uses", &self.uses().collect::<Vec<_>>())
            .field("pairs", &self.pairs().collect::<Vec<_>>())
            .field("mixed_pairs", &self.mixed_pairs().collect::<Vec<_>>())
            .field("expressions", &self.expressions().collect::<Vec<_>>())
            .finish()
    }
}

/// An image and a sampler that are sampled together (01, 4.4).
#[derive(Clone, Copy, Debug, PartialEq, Eq, PartialOrd, Ord, Hash)]
pub struct Pair {
    pub image: GlobalIndex,
    pub sampler: GlobalIndex,
}

/// A pair in which at least one end is an argument of the function (01, 4.4).
#[derive(Clone, Copy, Debug, PartialEq, Eq, PartialOrd, Ord, Hash)]
pub struct MixedPair {
    pub image: End,
    pub sampler: End,
}

/// One end of a mixed pair.
#[derive(Clone, Copy, Debug, PartialEq, Eq, PartialOrd, Ord, Hash)]
pub enum End {
    Global(GlobalIndex),
    Argument(ArgumentIndex),
}

impl End {
    /// `Report::read` has seen that the tag is 0 or 1.
    fn read(tag: u8, number: u16) -> Self {
        match tag {
            0 => End::Global(GlobalIndex(number)),
            _ => End::Argument(ArgumentIndex(number)),
        }
    }
}

impl fmt::Display for End {
    fn fmt(&self, f: &mut fmt::Formatter<'_>) -> fmt::Result {
        match self {
            End::Global(global) => global.fmt(f),
            End::Argument(argument) => argument.fmt(f),
        }
    }
}

/// What is known of an expression (01, 3.1).
#[derive(Clone, Copy, Debug, PartialEq, Eq, Hash)]
pub struct ExpressionReport {
    /// Where it stops being uniform; `None` where it is uniform.
    pub origin: Option<ExpressionIndex>,
    pub requirements: Requirements,
    /// How often it is referred to.
    pub references: u32,
    /// The global that it leads to.
    pub assignable: Option<GlobalIndex>,
}

fn u16_at(bytes: &[u8], at: usize) -> u16 {
    u16::from_be_bytes([bytes[at], bytes[at + 1]])
}

fn u32_at(bytes: &[u8], at: usize) -> u32 {
    u32::from_be_bytes([bytes[at], bytes[at + 1], bytes[at + 2], bytes[at + 3]])
}
