//! The proved library directly against the released crate, as `compare` holds the reference against it.

use std::cell::RefCell;

use compare::{keep_naga_quiet, Run};

use crate::analyzer::Lent;

/// Compares on generated modules, or on those that are mostly loops, until `count` were comparable; whether no difference
/// was left unexplained.
pub fn compare(loops: bool, count: usize, seed: u64) -> Result<bool, String> {
    keep_naga_quiet();
    let lent = RefCell::new(Lent::new());
    let analyse = |file: &[u8]| {
        let answer = lent.borrow_mut().answer(file);
        answer.ok_or_else(|| "leaves a byte that isn't zero".to_string())
    };
    let mut run = Run::new(&analyse);
    if loops {
        run.take_loops(count, seed);
    } else {
        run.take_generated(count, seed);
    }
    run.finish()
}
