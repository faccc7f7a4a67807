//! Modules at a limit and one past it.

use files::shapes::{file_of, long_report_of, module, part_of, PART_LIMITS};
use files::Sheet;

use super::Gathered;

const PART_NAMES: [&str; 6] = [
    "arguments",
    "expressions",
    "operands",
    "statements",
    "initialisers",
    "named",
];

pub fn gather(list: &mut Gathered) {
    for (part, (name, limit)) in PART_NAMES.iter().zip(PART_LIMITS).enumerate() {
        for count in [limit, limit + 1] {
            let name = format!("limit-{name}-{count}");
            list.module(name, "so many records in this part", &part_of(part, count));
        }
    }
    for count in [256, 257] {
        let module = module(count, vec![Sheet::default()]);
        list.module(format!("limit-globals-{count}"), "so many globals", &module);
    }
    for count in [64, 65] {
        let module = module(3, vec![Sheet::default(); count]);
        list.module(
            format!("limit-functions-{count}"),
            "so many functions",
            &module,
        );
    }
    let mut third = module(0, vec![Sheet::default(); 4]);
    third.sheets[2].arguments = vec![0; 65];
    list.module("limit-third", "65 arguments in function 2", &third);
    for length in [65_535, 65_536, 65_537, 65_545] {
        let name = format!("limit-report-{length}");
        list.module(name, "a report of so many bytes", &long_report_of(length));
    }
    report_passed_early(list);
    for length in [65_536, 65_537] {
        let name = format!("limit-file-{length}");
        list.module(name, "a file of so many bytes", &file_of(length));
    }
}

/// The report passes its limit before the last function. A rule that is broken in a later one isn't met; one
/// that is broken in that very function is.
fn report_passed_early(list: &mut Gathered) {
    let passing = long_report_of(65_537);
    let last = passing.sheets.len() - 1;
    let mut then = passing.clone();
    let mut broken = Sheet::default();
    broken.expression(0, 0, 0, &[]);
    broken.expression(5, 3, 0, &[0, 0]);
    then.sheets.push(broken);
    list.module(
        "limit-report-then-rule",
        "14, then 8 in the next function",
        &then,
    );
    let mut both = passing;
    both.sheets[last].expression(5, 3, 0, &[0, 0]);
    list.module("limit-report-and-rule", "14 and 8 in one function", &both);
    for globals in [100, 200, 256] {
        let mut wide = long_report_of(65_536);
        wide.spaces.resize(globals, 10);
        let name = format!("limit-report-globals-{globals}");
        list.module(name, "14 at an earlier function", &wide);
    }
}
