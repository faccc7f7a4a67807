//! An entry for the difference of `docs/DIFFERENCES.md` that a converted module shows, D2.

use super::{Gathered, Held, Wanted};
use differences::On;

pub fn gather(list: &mut Gathered) {
    for input in differences::all() {
        if input.name != "D2" {
            continue;
        }
        // D3 is on no file that a module is converted to; entries with sub 3 are written by their records.
        let On::Converted(rule) = input.on else {
            continue;
        };
        let held = Held {
            module: input.module,
            settings: differences::SETTINGS,
            wanted: Wanted::Explained(rule),
        };
        let name = format!("difference-{}", input.name);
        let what = format!("bench/differences/{}.wgsl", input.name);
        list.naga(name, what, held);
    }
}
