//! What stands in the list, in its order.

mod cases;
mod differing;
mod expressions;
mod form;
mod generated;
mod limits;
mod rules;
mod seeds;
mod statements;
mod wgsl;

use compare::Rule;
use convert::{module_file, Settings};
use files::ModuleFile;
use naga::Module;

use crate::raise::raised;

/// One module file of the list.
pub struct Entry {
    pub name: String,
    /// What is in it, or how it was made.
    pub what: String,
    pub file: Vec<u8>,
    /// The naga module that is converted to the file, where there is one.
    pub held: Option<Held>,
}

/// A naga module, on which the release answers.
pub struct Held {
    pub module: Module,
    pub settings: Settings,
    pub wanted: Wanted,
}

/// What has to come out when the release is held against the list.
#[derive(Clone, Copy, Debug, PartialEq, Eq)]
pub enum Wanted {
    /// The same answer, in all that is compared.
    Equal,
    /// The same, where the release's answer can be compared: the module was found for a file that was there first.
    EqualIfComparable,
    /// A difference, by this rule.
    Explained(Rule),
}

/// The entries while they are gathered.
#[derive(Default)]
pub struct Gathered {
    entries: Vec<Entry>,
}

impl Gathered {
    /// A file said by its records; the release is asked too if a naga module can be found for it.
    fn module(&mut self, name: impl Into<String>, what: impl Into<String>, module: &ModuleFile) {
        self.entries.push(Entry {
            name: name.into(),
            what: what.into(),
            file: module.encode(),
            held: raised(module).map(|(module, settings)| Held {
                module,
                settings,
                wanted: Wanted::EqualIfComparable,
            }),
        });
    }

    fn bytes(&mut self, name: impl Into<String>, what: impl Into<String>, file: Vec<u8>) {
        self.entries.push(Entry {
            name: name.into(),
            what: what.into(),
            file,
            held: None,
        });
    }

    /// A file that is converted from a naga module.
    fn naga(&mut self, name: impl Into<String>, what: impl Into<String>, held: Held) {
        let name = name.into();
        let file = match module_file(&held.module, held.settings) {
            Ok(file) => file.encode(),
            Err(error) => panic!("{name}: {error}"),
        };
        self.entries.push(Entry {
            name,
            what: what.into(),
            file,
            held: Some(held),
        });
    }
}

/// All entries of the list.
pub fn all() -> Vec<Entry> {
    let mut gathered = chosen();
    generated::gather(&mut gathered);
    seeds::gather(&mut gathered);
    gathered.entries
}

/// The entries that were chosen one by one.
fn chosen() -> Gathered {
    let mut gathered = Gathered::default();
    cases::gather(&mut gathered);
    expressions::gather(&mut gathered);
    statements::gather(&mut gathered);
    form::gather(&mut gathered);
    rules::gather(&mut gathered);
    limits::gather(&mut gathered);
    wgsl::gather(&mut gathered);
    differing::gather(&mut gathered);
    gathered
}

#[cfg(test)]
mod tests {
    use std::collections::{BTreeMap, BTreeSet};

    use reference::{analyse, Answer, NUMBERS};

    #[test]
    fn names_are_unique() {
        let entries = super::all();
        let names: BTreeSet<&str> = entries.iter().map(|entry| entry.name.as_str()).collect();
        assert_eq!(names.len(), entries.len());
    }

    /// Every refusal that a file can meet, which is all but 1, stands at three places at least, without the
    /// generated files; 11 has all its causes.
    #[test]
    fn every_refusal_at_several_places() {
        let mut places: BTreeMap<u8, BTreeSet<(u16, u16)>> = BTreeMap::new();
        let mut causes = BTreeSet::new();
        for entry in super::chosen().entries {
            if let Answer::Refused(refusal) = analyse(&entry.file) {
                let place = (refusal.function, refusal.place);
                places.entry(refusal.number).or_default().insert(place);
                causes.insert(refusal.cause);
            }
        }
        let met: Vec<u8> = places.keys().copied().collect();
        assert_eq!(met, NUMBERS[1..]);
        assert!(
            places.values().all(|places| places.len() >= 3),
            "{places:?}"
        );
        assert_eq!(causes, BTreeSet::from([0, 1, 2, 3]));
    }
}
