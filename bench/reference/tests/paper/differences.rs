//! The first difference between two answers names the field.

use crate::common::{one, refusal};
use reference::{analyse, first_difference, Answer};

fn answer(references: &[u16]) -> Answer {
    let module = one(&[10], |sheet| {
        sheet.expression(2, 0, 0, &[]);
        sheet.expression(0, 0, 0, &[]);
        sheet.expression(11, 0, 0, references);
    });
    analyse(&module.encode())
}

#[test]
fn same_answers() {
    assert_eq!(first_difference(&answer(&[0]), &answer(&[0])), None);
    let refused = Answer::Refused(refusal(7, 1, 2));
    assert_eq!(first_difference(&refused, &refused.clone()), None);
}

#[test]
fn reports_that_differ() {
    let place = |left: &[u16], right: &[u16]| {
        let difference = first_difference(&answer(left), &answer(right));
        difference.unwrap().place
    };
    assert_eq!(place(&[0], &[1]), "function 0, use of global 0");
    assert_eq!(place(&[1], &[1, 1]), "function 0, expression 1");
}

#[test]
fn report_and_refusal() {
    let refused = Answer::Refused(refusal(7, 1, 2));
    let difference = first_difference(&answer(&[]), &refused).unwrap();
    assert_eq!(
        difference.to_string(),
        "answer: report of 47 bytes / refused 7 (function 1, place 2, cause 0, value 0)"
    );
}

#[test]
fn damaged_report() {
    let Answer::Report(mut bytes) = answer(&[]) else {
        panic!("accepted");
    };
    bytes[3] += 1;
    let difference = first_difference(&answer(&[]), &Answer::Report(bytes)).unwrap();
    assert_eq!(difference.place, "byte 3");
}
