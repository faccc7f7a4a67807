//! Ends of samplings, traced in a module file's own records (01, 4.3).

use crate::summary::End;
use files::Sheet;

/// The statement Call (01, 5.2).
pub const CALL: u8 = 6;
/// The expression ImageSample (01, 4.1); its first two operands are image and sampler.
pub const IMAGE_SAMPLE: u8 = 13;

const ARGUMENT: u8 = 1;
const GLOBAL: u8 = 2;
const ACCESS: u8 = 5;
const ACCESS_INDEX: u8 = 6;

/// What an expression traces to, if it can be traced.
pub fn trace(sheet: &Sheet, expression: u16) -> Option<End> {
    let record = sheet.expressions.get(usize::from(expression))?;
    match record.kind {
        ARGUMENT => Some(End::Argument(record.number)),
        GLOBAL => Some(End::Global(record.number)),
        ACCESS | ACCESS_INDEX => {
            let &base = operands(sheet, record.first, record.count).first()?;
            let base = sheet.expressions.get(usize::from(base))?;
            (base.kind == GLOBAL).then_some(End::Global(base.number))
        }
        _ => None,
    }
}

/// The part of the pool that a record names; none of it where that lies outside.
pub fn operands(sheet: &Sheet, first: u16, count: u16) -> &[u16] {
    let first = usize::from(first);
    sheet
        .operands
        .get(first..first + usize::from(count))
        .unwrap_or_default()
}

#[cfg(test)]
mod tests {
    use super::*;

    #[test]
    fn only_a_global_is_seen_through_one_access() {
        let mut sheet = Sheet::default();
        let argument = sheet.expression(ARGUMENT, 0, 1, &[]);
        let global = sheet.expression(GLOBAL, 0, 3, &[]);
        let element = sheet.expression(ACCESS, 2, 0, &[global, argument]);
        let deeper = sheet.expression(ACCESS_INDEX, 0, 0, &[element]);
        let of_argument = sheet.expression(ACCESS_INDEX, 0, 0, &[argument]);
        assert_eq!(trace(&sheet, argument), Some(End::Argument(1)));
        assert_eq!(trace(&sheet, global), Some(End::Global(3)));
        assert_eq!(trace(&sheet, element), Some(End::Global(3)));
        assert_eq!(trace(&sheet, deeper), None);
        assert_eq!(trace(&sheet, of_argument), None);
        assert_eq!(trace(&sheet, 99), None);
    }
}
