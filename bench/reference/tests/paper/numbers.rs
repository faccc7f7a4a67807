//! The fifteen numbers of the table of 8.1: fourteen with an example each, and 13, "retired, given to nothing".

use crate::common::{module, one, report};
use files::shapes;
use files::{ModuleFile, Sheet, ABSENT};
use reference::report::Report;
use reference::{run, NUMBERS};

/// The size that the tests take for the working memory's.
const WORK: usize = 100;

/// The number that a file is refused with where this many bytes of report are lent; 0 for a report.
fn number(file: &[u8], lent: usize) -> u8 {
    run(file, &mut vec![7; lent], &mut [7; WORK], WORK).map_or_else(|refusal| refusal.number, |_| 0)
}

/// A module that is refused with this number, for each that a file can meet.
fn example(number: u8) -> Option<ModuleFile> {
    let plain = |fill: fn(&mut Sheet)| Some(one(&[10], fill));
    match number {
        3 => Some(module(&[], vec![Sheet::default(); 65])),
        4 => plain(|sheet| sheet.flag = 2),
        5 => plain(|sheet| _ = sheet.expression(7, 0, 0, &[ABSENT])),
        6 => plain(|sheet| _ = sheet.expression(7, 0, 0, &[0])),
        7 => plain(|sheet| {
            sheet.expression(0, 0, 0, &[]);
            sheet.expression(13, 1, 0, &shapes::zero_level(0, 0, 0));
        }),
        8 => plain(|sheet| {
            sheet.expression(0, 0, 0, &[]);
            sheet.expression(5, 3, 0, &[0, 0]);
        }),
        9 => plain(|sheet| {
            sheet.expression(3, 0, 0, &[]);
            sheet.expression(5, 1, 0, &[0, 0]);
        }),
        10 => {
            let mut caller = Sheet::default();
            caller.expression(0, 0, 0, &[]);
            caller.statement(6, 0, &[0]);
            Some(module(&[], vec![Sheet::default(), caller]))
        }
        11 => plain(|sheet| {
            sheet.flag = 1;
            sheet.expression(3, 0, 0, &[]);
            sheet.expression(17, 0, 0, &[0, 0]);
            let branch = sheet.open(8, 0, &[0]);
            let accept = sheet.open(11, 0, &[]);
            sheet.emit(1, 2);
            sheet.close(accept);
            let reject = sheet.open(11, 0, &[]);
            sheet.close(reject);
            sheet.close(branch);
        }),
        12 => Some(shapes::pairs(257)),
        14 => Some(shapes::report_of(65_537)),
        15 => Some(shapes::deep(33)),
        _ => None,
    }
}

/// No number moves, and 13 has no example.
#[test]
fn all_fifteen() {
    let empty = ModuleFile::default().encode();
    assert_eq!(number(&empty, 65_536), 0);
    let mut met = Vec::new();
    for expected in 1..=15 {
        let found = match expected {
            1 => Some(number(&empty, 65_535)),
            2 => Some(number(&empty[..9], 65_536)),
            _ => example(expected).map(|module| number(&module.encode(), 65_536)),
        };
        if let Some(found) = found {
            assert_eq!(found, expected);
            met.push(found);
        }
    }
    assert_eq!(met, NUMBERS);
    assert!(!NUMBERS.contains(&13));
}

/// 3.4: no record is handed two globals. Every kind, with another global at each of its operands, is
/// accepted; an Access and an AccessIndex carry their base's, a GlobalVariable its own, the others none.
#[test]
fn one_global_at_most() {
    let counts: [(u8, u8, usize); 14] = [
        (5, 0, 2),
        (6, 0, 1),
        (7, 0, 1),
        (8, 0, 1),
        (9, 0, 2),
        (10, 0, 3),
        (11, 0, 7),
        (12, 0, 4),
        (13, 4, 8),
        (14, 0, 5),
        (15, 0, 2),
        (16, 0, 1),
        (17, 0, 2),
        (18, 0, 3),
    ];
    for (kind, sub, count) in counts {
        let bytes = report(&one(&[10; 8], |sheet| {
            for global in 0..8 {
                sheet.expression(2, 0, global, &[]);
            }
            let operands: Vec<u16> = (0..count as u16).collect();
            sheet.expression(kind, sub, 0, &operands);
        }));
        let read = Report::read(&bytes).unwrap();
        let carried: Vec<_> = read.sections()[0]
            .expressions()
            .iter()
            .map(|expression| expression.assignable)
            .collect();
        let of_the_record = matches!(kind, 5 | 6).then_some(0);
        let expected: Vec<_> = (0..8).map(Some).chain([of_the_record]).collect();
        assert_eq!(carried, expected, "kind {kind}");
    }
}
