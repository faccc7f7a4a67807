//! What the tests share: short ways to make a module and to say what is expected of it.

use files::{ModuleFile, Sheet};
use reference::{analyse, Answer, Refusal};

/// A module with these spaces, no capabilities, and these functions.
pub fn module(spaces: &[u8], sheets: Vec<Sheet>) -> ModuleFile {
    ModuleFile {
        capabilities: 0,
        spaces: spaces.to_vec(),
        sheets,
    }
}

/// One function made by `fill`, in a module with these spaces.
pub fn one(spaces: &[u8], fill: impl FnOnce(&mut Sheet)) -> ModuleFile {
    let mut sheet = Sheet::default();
    fill(&mut sheet);
    module(spaces, vec![sheet])
}

/// The report's bytes of a module that is accepted.
pub fn report(module: &ModuleFile) -> Vec<u8> {
    match analyse(&module.encode()) {
        Answer::Report(bytes) => bytes,
        Answer::Refused(refusal) => panic!("refused: {refusal:?}"),
    }
}

/// A refusal without a cause.
pub fn refusal(number: u8, function: u16, place: u16) -> Refusal {
    Refusal {
        number,
        function,
        place,
        ..Refusal::default()
    }
}

/// The module is refused with these values and no cause.
#[track_caller]
pub fn refused(module: &ModuleFile, number: u8, function: u16, place: u16) {
    refused_bytes(&module.encode(), number, function, place);
}

/// The bytes are refused with these values and no cause.
#[track_caller]
pub fn refused_bytes(file: &[u8], number: u8, function: u16, place: u16) {
    let expected = Answer::Refused(refusal(number, function, place));
    assert_eq!(analyse(file), expected);
}
