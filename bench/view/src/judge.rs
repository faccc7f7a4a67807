//! Which bytes are a report, and the first reason why others are not (docs/VIEW.md).

use std::fmt;

/// The reasons, in their order.
#[derive(Clone, Copy, Debug, PartialEq, Eq)]
pub enum Fault {
    Short { bytes: usize },
    Long,
    Length { field: u32, behind: usize },
    Version(u8),
    Globals(u16),
    Functions(u16),
    InFunction(usize, Part),
    LeftOver,
}

/// What is wrong in a section.
#[derive(Clone, Copy, Debug, PartialEq, Eq)]
pub enum Part {
    Cut,
    Counts,
    Summary,
    Uses,
    Pairs,
    Mixed,
    Expressions,
}

impl Fault {
    /// The reason without its numbers, for counting.
    pub fn name(&self) -> String {
        match self {
            Fault::InFunction(_, part) => format!("{part:?}").to_lowercase(),
            other => {
                let text = format!("{other:?}").to_lowercase();
                let end = text.find([' ', '(']).unwrap_or(text.len());
                text[..end].to_owned()
            }
        }
    }
}

impl fmt::Display for Fault {
    fn fmt(&self, f: &mut fmt::Formatter) -> fmt::Result {
        match self {
            Fault::Short { bytes } => write!(f, "{bytes} bytes, and the shortest has 9"),
            Fault::Long => write!(f, "more than 65536 bytes"),
            Fault::Length { field, behind } => {
                write!(
                    f,
                    "its length field says {field} bytes after it, and there are {behind}"
                )
            }
            Fault::Version(version) => write!(f, "version {version}, and only 1 is known"),
            Fault::Globals(n) => write!(f, "{n} globals, and at most 256 can be"),
            Fault::Functions(n) => write!(f, "{n} functions, and at most 64 can be"),
            Fault::InFunction(function, part) => write!(f, "function {function}: {part}"),
            Fault::LeftOver => write!(f, "bytes are left over behind its last function"),
        }
    }
}

impl fmt::Display for Part {
    fn fmt(&self, f: &mut fmt::Formatter) -> fmt::Result {
        f.write_str(match self {
            Part::Cut => "the bytes end inside it",
            Part::Counts => "a count is over its limit",
            Part::Summary => "its origin, requirements or may-kill can't be",
            Part::Uses => "a use has an unknown bit",
            Part::Pairs => "a pair names no global, or is out of order",
            Part::Mixed => "a mixed pair can't be, or is out of order",
            Part::Expressions => "an expression's line can't be",
        })
    }
}

/// Nothing, where the bytes are a report.
pub fn judge(bytes: &[u8]) -> Result<(), Fault> {
    if bytes.len() < 9 {
        return Err(Fault::Short { bytes: bytes.len() });
    }
    if bytes.len() > 65_536 {
        return Err(Fault::Long);
    }
    let field = u32::from_be_bytes([bytes[0], bytes[1], bytes[2], bytes[3]]);
    let behind = bytes.len() - 4;
    if field as usize != behind {
        return Err(Fault::Length { field, behind });
    }
    let (version, globals, functions) = (bytes[4], word(bytes, 5), word(bytes, 7));
    if version != 1 {
        return Err(Fault::Version(version));
    }
    if globals > 256 {
        return Err(Fault::Globals(globals));
    }
    if functions > 64 {
        return Err(Fault::Functions(functions));
    }
    let mut rest = &bytes[9..];
    for function in 0..usize::from(functions) {
        rest = section(rest, globals).map_err(|part| Fault::InFunction(function, part))?;
    }
    if !rest.is_empty() {
        return Err(Fault::LeftOver);
    }
    Ok(())
}

/// What stands behind the section at the front.
fn section(bytes: &[u8], globals: u16) -> Result<&[u8], Part> {
    let (header, rest) = front(bytes, 10)?;
    let [expressions, pairs, mixed] = [4, 6, 8].map(|at| usize::from(word(header, at)));
    if expressions > 2_048 || pairs > 256 || mixed > 256 {
        return Err(Part::Counts);
    }
    let (uses, rest) = front(rest, usize::from(globals))?;
    let (pairs, rest) = front(rest, 4 * pairs)?;
    let (mixed, rest) = front(rest, 6 * mixed)?;
    let (expressions, rest) = front(rest, 9 * expressions)?;
    let checks = [
        (summary_is_right(header), Part::Summary),
        (uses.iter().all(|&mask| mask < 16), Part::Uses),
        (pairs_are_right(pairs, globals), Part::Pairs),
        (mixed_are_right(mixed, globals), Part::Mixed),
        (
            expressions
                .chunks(9)
                .all(|record| expression_is_right(record, globals)),
            Part::Expressions,
        ),
    ];
    match checks.iter().find(|(right, _)| !right) {
        Some(&(_, part)) => Err(part),
        None => Ok(rest),
    }
}

fn front(bytes: &[u8], length: usize) -> Result<(&[u8], &[u8]), Part> {
    if bytes.len() < length {
        return Err(Part::Cut);
    }
    Ok(bytes.split_at(length))
}

fn summary_is_right(header: &[u8]) -> bool {
    is_origin(word(header, 0)) && header[2] < 16 && header[3] < 2
}

fn is_origin(number: u16) -> bool {
    number == 65_535 || number < 2_048
}

/// An end: globals stand before arguments.
type End = (u8, u16);

fn pairs_are_right(bytes: &[u8], globals: u16) -> bool {
    let pairs: Vec<(u16, u16)> = bytes.chunks(4).map(|b| (word(b, 0), word(b, 2))).collect();
    let known = |&(image, sampler): &(u16, u16)| image < globals && sampler < globals;
    pairs.iter().all(known) && ascends(&pairs)
}

fn mixed_are_right(bytes: &[u8], globals: u16) -> bool {
    let read = |b: &[u8]| ((b[0], word(b, 2)), (b[1], word(b, 4)));
    let pairs: Vec<(End, End)> = bytes.chunks(6).map(read).collect();
    let is_end = |(tag, number): End| match tag {
        0 => number < globals,
        1 => number < 64,
        _ => false,
    };
    let known = |&(image, sampler): &(End, End)| {
        is_end(image) && is_end(sampler) && image.0 + sampler.0 > 0
    };
    pairs.iter().all(known) && ascends(&pairs)
}

fn ascends<T: Ord>(list: &[T]) -> bool {
    list.windows(2).all(|two| two[0] < two[1])
}

fn expression_is_right(record: &[u8], globals: u16) -> bool {
    let global = word(record, 7);
    is_origin(word(record, 0)) && record[2] < 16 && (global == 65_535 || global < globals)
}

fn word(bytes: &[u8], at: usize) -> u16 {
    u16::from_be_bytes([bytes[at], bytes[at + 1]])
}
