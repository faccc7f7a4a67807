//! Modules from the seeds that `compare` goes through: WGSL programs of odd seeds, naga modules built directly of
//! even ones.
//!
//! Of the seeds 1 to 5,999 these are, for each outcome on which reference and release agree, the two with the
//! smallest files. The outcomes are reports by the calls that a pair needs at most (0, 1, 2, more) and by
//! whether a function may kill, and refusals by number and cause.

use compare::Case;

use super::{Gathered, Held, Wanted};

const WGSL: [u64; 24] = [
    11, 1847, 2909, 2531, 1489, 2957, 4403, 151, 2093, 1687, 45, 4641, 2741, 5245, 307,
    2099, // reports
    2171, 4291, // 9
    3665, 397, 3465, 1963, 3521, 5067, // 11
];

const DIRECT: [u64; 26] = [
    2528, 5326, 5230, 1072, 54, 3716, 2350, 4942, 1490, 5730, 3978, 2746, 5920, 3874, 1604,
    4588, // reports
    2996, 5848, // 7
    3442, 3964, // 9
    742, 2400, 2224, 4044, 1108, 1628, // 11
];

pub fn gather(list: &mut Gathered) {
    for seed in WGSL.into_iter().chain(DIRECT) {
        let case = Case::from_seed(seed).expect("the front end takes every program");
        let what = case.origin.to_string();
        let held = Held {
            module: case.module,
            settings: case.settings,
            wanted: Wanted::Equal,
        };
        list.naga(format!("seed-{seed}"), what, held);
    }
}
