//! Section 7: the report, written and read.

use crate::expressions::ExpressionInfo;
use crate::file::{Argument, Expression, Global, VERSION};
use crate::functions::Summary;
use crate::pairs::End;

/// Most bytes of a report (01, 7.5).
pub const MOST_REPORT_BYTES: usize = 65_536;

/// Bytes before the first section (01, 7.1).
const HEADER_BYTES: usize = 9;

/// Bytes of a section before its use bytes (01, 7.2).
const SECTION_HEADER_BYTES: usize = 10;

/// Bytes of each record (01, 7.4).
const PAIR_BYTES: usize = 4;
const MIXED_BYTES: usize = 6;
const EXPRESSION_BYTES: usize = 9;

/// Stands for no origin and no assignable global (01, 7.2 and 7.4).
const NONE: u16 = 65_535;

/// A report while its sections are added.
pub(crate) struct Writer {
    bytes: Vec<u8>,
}

impl Writer {
    pub(crate) fn new(globals: usize, functions: usize) -> Self {
        let mut writer = Writer { bytes: Vec::new() };
        writer.u32(0);
        writer.u8(VERSION);
        writer.u16(globals as u16);
        writer.u16(functions as u16);
        writer
    }

    /// Whether the report stays within its limit with this section (01, 6.4).
    pub(crate) fn has_room_for(&self, summary: &Summary) -> bool {
        let section = section_bytes(
            summary.uses.len(),
            summary.lists.pairs.len(),
            summary.lists.mixed.len(),
            summary.expressions.len(),
        );
        self.bytes.len() + section <= MOST_REPORT_BYTES
    }

    /// Adds a function's section (01, 7.2).
    pub(crate) fn section(&mut self, summary: &Summary) {
        self.expression_or_none(summary.outcome.origin);
        self.u8(summary.outcome.requirements.0);
        self.u8(u8::from(summary.outcome.may_kill));
        self.u16(summary.expressions.len() as u16);
        self.u16(summary.lists.pairs.len() as u16);
        self.u16(summary.lists.mixed.len() as u16);
        for used in &summary.uses {
            self.u8(used.0);
        }
        for &(Global(image), Global(sampler)) in &summary.lists.pairs {
            self.u16(image);
            self.u16(sampler);
        }
        for &(image, sampler) in &summary.lists.mixed {
            self.mixed(image, sampler);
        }
        for info in &summary.expressions {
            self.expression(info);
        }
    }

    /// The report's bytes, its length field set.
    pub(crate) fn finish(mut self) -> Vec<u8> {
        let length = (self.bytes.len() - 4) as u32;
        self.bytes[..4].copy_from_slice(&length.to_be_bytes());
        self.bytes
    }

    fn mixed(&mut self, image: End, sampler: End) {
        let ((image_tag, image), (sampler_tag, sampler)) = (tagged(image), tagged(sampler));
        self.u8(image_tag);
        self.u8(sampler_tag);
        self.u16(image);
        self.u16(sampler);
    }

    fn expression(&mut self, info: &ExpressionInfo) {
        self.expression_or_none(info.origin);
        self.u8(info.requirements.0);
        self.u32(info.references);
        self.u16(info.assignable.map_or(NONE, |Global(number)| number));
    }

    fn expression_or_none(&mut self, expression: Option<Expression>) {
        self.u16(expression.map_or(NONE, |Expression(number)| number));
    }

    fn u8(&mut self, number: u8) {
        self.bytes.push(number);
    }

    fn u16(&mut self, number: u16) {
        self.bytes.extend_from_slice(&number.to_be_bytes());
    }

    fn u32(&mut self, number: u32) {
        self.bytes.extend_from_slice(&number.to_be_bytes());
    }
}

/// An end's tag and number (01, 7.4).
fn tagged(end: End) -> (u8, u16) {
    match end {
        End::Global(Global(number)) => (0, number),
        End::Argument(Argument(number)) => (1, number),
    }
}

fn section_bytes(globals: usize, pairs: usize, mixed: usize, expressions: usize) -> usize {
    SECTION_HEADER_BYTES
        + globals
        + pairs * PAIR_BYTES
        + mixed * MIXED_BYTES
        + expressions * EXPRESSION_BYTES
}

/// A report that is read: its lengths are right, its fields may say anything.
pub struct Report<'a> {
    bytes: &'a [u8],
    sections: Vec<Section<'a>>,
}

impl<'a> Report<'a> {
    /// Takes bytes apart; `None` where a length or the version is wrong.
    pub fn read(bytes: &'a [u8]) -> Option<Self> {
        let header = bytes.get(..HEADER_BYTES)?;
        if u32_at(header, 0) as usize != bytes.len() - 4 || header[4] != VERSION {
            return None;
        }
        let globals = usize::from(u16_at(header, 5));
        let functions = usize::from(u16_at(header, 7));
        let mut rest = &bytes[HEADER_BYTES..];
        let mut sections = Vec::with_capacity(functions);
        for _ in 0..functions {
            let section = Section::read(rest, globals)?;
            rest = &rest[section.bytes.len()..];
            sections.push(section);
        }
        rest.is_empty().then_some(Report { bytes, sections })
    }

    pub fn globals(&self) -> usize {
        usize::from(u16_at(self.bytes, 5))
    }

    pub fn functions(&self) -> usize {
        self.sections.len()
    }

    /// The sections, one for each function.
    pub fn sections(&self) -> &[Section<'a>] {
        &self.sections
    }
}

/// One function's section (01, 7.2).
#[derive(Clone, Copy)]
pub struct Section<'a> {
    bytes: &'a [u8],
    globals: usize,
}

/// A pair: two globals (01, 7.4).
#[derive(Clone, Copy, Debug, PartialEq, Eq)]
pub struct Pair {
    pub image: u16,
    pub sampler: u16,
}

/// A mixed pair: each end with its tag, 0 global or 1 argument (01, 7.4).
#[derive(Clone, Copy, Debug, PartialEq, Eq)]
pub struct MixedPair {
    pub image_tag: u8,
    pub sampler_tag: u8,
    pub image: u16,
    pub sampler: u16,
}

/// What a report says of an expression (01, 7.4).
#[derive(Clone, Copy, Debug, PartialEq, Eq)]
pub struct ExpressionRecord {
    pub origin: Option<u16>,
    pub requirements: u8,
    pub references: u32,
    pub assignable: Option<u16>,
}

impl<'a> Section<'a> {
    /// The section at the front of these bytes, if they are long enough for it.
    fn read(bytes: &'a [u8], globals: usize) -> Option<Self> {
        let header = bytes.get(..SECTION_HEADER_BYTES)?;
        let [expressions, pairs, mixed] = [4, 6, 8].map(|at| usize::from(u16_at(header, at)));
        let length = section_bytes(globals, pairs, mixed, expressions);
        let bytes = bytes.get(..length)?;
        Some(Section { bytes, globals })
    }

    pub fn origin(&self) -> Option<u16> {
        some(u16_at(self.bytes, 0))
    }

    /// 1 barrier, 2 derivative, 4 implicit level, 8 cooperative.
    pub fn requirements(&self) -> u8 {
        self.bytes[2]
    }

    pub fn may_kill(&self) -> u8 {
        self.bytes[3]
    }

    /// One byte a global: 1 READ, 2 WRITE, 4 QUERY, 8 ATOMIC.
    pub fn uses(&self) -> &'a [u8] {
        &self.bytes[SECTION_HEADER_BYTES..self.pairs_start()]
    }

    pub fn pairs(&self) -> Vec<Pair> {
        let bytes = &self.bytes[self.pairs_start()..self.mixed_start()];
        let pair = |b: &[u8]| Pair {
            image: u16_at(b, 0),
            sampler: u16_at(b, 2),
        };
        bytes.chunks_exact(PAIR_BYTES).map(pair).collect()
    }

    pub fn mixed(&self) -> Vec<MixedPair> {
        let bytes = &self.bytes[self.mixed_start()..self.expressions_start()];
        let mixed = |b: &[u8]| MixedPair {
            image_tag: b[0],
            sampler_tag: b[1],
            image: u16_at(b, 2),
            sampler: u16_at(b, 4),
        };
        bytes.chunks_exact(MIXED_BYTES).map(mixed).collect()
    }

    pub fn expressions(&self) -> Vec<ExpressionRecord> {
        let bytes = &self.bytes[self.expressions_start()..];
        let expression = |b: &[u8]| ExpressionRecord {
            origin: some(u16_at(b, 0)),
            requirements: b[2],
            references: u32_at(b, 3),
            assignable: some(u16_at(b, 7)),
        };
        bytes
            .chunks_exact(EXPRESSION_BYTES)
            .map(expression)
            .collect()
    }

    fn pairs_start(&self) -> usize {
        SECTION_HEADER_BYTES + self.globals
    }

    fn mixed_start(&self) -> usize {
        self.pairs_start() + usize::from(u16_at(self.bytes, 6)) * PAIR_BYTES
    }

    fn expressions_start(&self) -> usize {
        self.mixed_start() + usize::from(u16_at(self.bytes, 8)) * MIXED_BYTES
    }
}

fn some(number: u16) -> Option<u16> {
    (number != NONE).then_some(number)
}

fn u16_at(bytes: &[u8], at: usize) -> u16 {
    u16::from_be_bytes([bytes[at], bytes[at + 1]])
}

fn u32_at(bytes: &[u8], at: usize) -> u32 {
    u32::from_be_bytes([bytes[at], bytes[at + 1], bytes[at + 2], bytes[at + 3]])
}
