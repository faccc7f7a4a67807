//! WGSL programs through naga's front end, chosen one by one. The release has to agree on every one of them.

mod arrays;
mod flow;
mod images;
mod uses;

use convert::Settings;
use naga::valid::Capabilities;

use super::{Gathered, Held, Wanted};

/// A program: its name, what is in it, and its text, to which its table's globals are added.
type Program = (&'static str, &'static str, &'static str);

pub fn gather(list: &mut Gathered) {
    images::gather(list);
    arrays::gather(list);
    flow::gather(list);
    uses::gather(list);
}

impl Gathered {
    /// Programs that share these globals, with control flow checked and no capability given.
    fn programs(&mut self, globals: &str, programs: &[Program]) {
        for (name, what, source) in programs {
            self.program(name, what, &format!("{globals}{source}"));
        }
    }

    fn program(&mut self, name: &str, what: &str, source: &str) {
        self.program_under(name, what, source, CHECKED);
    }

    fn program_under(&mut self, name: &str, what: &str, source: &str, settings: Settings) {
        let module = match naga::front::wgsl::parse_str(source) {
            Ok(module) => module,
            Err(error) => panic!("{name}: {}", error.emit_to_string(source)),
        };
        let held = Held {
            module,
            settings,
            wanted: Wanted::Equal,
        };
        self.naga(format!("wgsl-{name}"), what, held);
    }
}

/// Control flow is checked, and nothing may be indexed non-uniformly.
const CHECKED: Settings = Settings {
    capabilities: Capabilities::empty(),
    check_control_flow: true,
};
