//! The inputs of `docs/DIFFERENCES.md`: modules on which document 01 and the released crate differ.
//!
//! Each is a WGSL file here, or a module built by [`direct`], with the module file that the reference answers on
//! beside it: the one that the module is converted to or, in D3, that file with one sub changed by hand.

pub mod direct;

use compare::{judge, judge_answer, reference, Judgement, Rule};
use convert::{module_file, Settings};
use files::ModuleFile;
use naga::valid::Capabilities;
use naga::Module;
use std::path::{Path, PathBuf};
use std::{fs, io};

/// One input, and how the two differ on it.
pub struct Input {
    /// The name that its files have in `bench/differences`, without extension.
    pub name: &'static str,
    pub module: Module,
    pub on: On,
    /// The difference in words, as `compare` says it.
    pub difference: &'static str,
}

/// The module file that the reference answers on; the release always answers on the module.
#[derive(Clone, Copy, Debug, PartialEq, Eq)]
pub enum On {
    /// The one that the module is converted to. `compare` explains the difference by this rule.
    Converted(Rule),
    /// That file with sub 3 in each Access. On the converted file the two agree: the converter says what the
    /// release sees, a pointer and no binding array, so `compare` never meets the difference.
    Sub3,
}

/// The kind of an Access, and its sub for a binding array of buffers (01, 4.1).
const ACCESS: u8 = 5;
const BUFFERS: u8 = 3;

/// Control flow is checked and no capability is given, as `convert` does it when nothing is asked for.
pub const SETTINGS: Settings = Settings {
    capabilities: Capabilities::empty(),
    check_control_flow: true,
};

/// All inputs, in the order of `docs/DIFFERENCES.md`.
pub fn all() -> Vec<Input> {
    vec![
        Input {
            name: "D2",
            module: wgsl(include_str!("../D2.wgsl")),
            on: On::Converted(Rule::SevenElsewhere),
            difference: "ours refused with 7 in function 1 at 1, the release refused with 7 in function 1 at 2",
        },
        Input {
            name: "D2-direct",
            module: direct::d2(),
            on: On::Converted(Rule::SevenElsewhere),
            difference: "ours refused with 7 in function 1 at 0, the release refused with 7 in function 1 at 1",
        },
        Input {
            name: "D3",
            module: wgsl(include_str!("../D3.wgsl")),
            on: On::Sub3,
            difference: "ours refused with 9 in function 0 at 2, the release accepted",
        },
        Input {
            name: "D3-uniform",
            module: wgsl(include_str!("../D3-uniform.wgsl")),
            on: On::Sub3,
            difference: "ours refused with 9 in function 0 at 2, the release accepted",
        },
        Input {
            name: "D3-direct",
            module: direct::d3(),
            on: On::Sub3,
            difference: "ours refused with 9 in function 0 at 1, the release accepted",
        },
    ]
}

impl Input {
    /// The module file; every input has one.
    pub fn file(&self) -> Vec<u8> {
        self.module_file().encode()
    }

    fn module_file(&self) -> ModuleFile {
        let mut file = module_file(&self.module, SETTINGS).expect("it is within the limits");
        if self.on == On::Sub3 {
            let records = file
                .sheets
                .iter_mut()
                .flat_map(|sheet| &mut sheet.expressions);
            for access in records.filter(|record| record.kind == ACCESS) {
                access.sub = BUFFERS;
            }
        }
        file
    }

    /// Where the module file stands.
    pub fn path(&self) -> PathBuf {
        here().join(format!("{}.module", self.name))
    }

    /// Checks that the two differ as they should, that the module file is this module's, and that the paper
    /// has its line; answers that line.
    fn check(&self, paper: &str) -> Result<String, String> {
        self.differs_as_said()?;
        let written = fs::read(self.path()).map_err(|error| said(&self.path(), &error))?;
        if written != self.file() {
            return Err("the module file is another".to_string());
        }
        let row = self.row();
        if !paper.lines().any(|line| line == row) {
            return Err(format!("docs/DIFFERENCES.md has no line {row}"));
        }
        Ok(row)
    }

    /// Whether the two differ as they should, and if not, what they do.
    fn differs_as_said(&self) -> Result<(), String> {
        match (self.on, judge(&self.module, SETTINGS, &reference)) {
            (On::Converted(rule), Judgement::Explained(found, difference))
                if found == rule && difference.to_string() == self.difference =>
            {
                Ok(())
            }
            (On::Sub3, Judgement::EqualReports(_)) => self.differs_with_sub_3(),
            (_, judgement) => Err(what_they_do(judgement)),
        }
    }

    /// The same on the file with sub 3, a difference that no rule of `compare` explains.
    fn differs_with_sub_3(&self) -> Result<(), String> {
        let file = self.module_file();
        let answer = reference(&file.encode())?;
        let verdict = release::run(&self.module, SETTINGS);
        match judge_answer(&file, &answer, verdict) {
            Judgement::Unexplained(difference, _) if difference.to_string() == self.difference => {
                Ok(())
            }
            judgement => Err(what_they_do(judgement)),
        }
    }

    /// The line of the table in `docs/DIFFERENCES.md`.
    fn row(&self) -> String {
        let length = self.file().len();
        format!("| `{}` | {length} | {} |", self.name, self.difference)
    }
}

fn what_they_do(judgement: Judgement) -> String {
    match judgement {
        Judgement::Explained(rule, difference) => format!("{rule}: {difference}"),
        Judgement::Unexplained(difference, _) => format!("unexplained: {difference}"),
        Judgement::EqualReports(_) | Judgement::EqualRefusals { .. } => "they agree".to_string(),
        _ => "they can't be compared".to_string(),
    }
}

/// Checks every input; answers the lines of the paper's table, or the first thing that is wrong.
pub fn check() -> Result<Vec<String>, String> {
    let path = here().join("../../docs/DIFFERENCES.md");
    let paper = fs::read_to_string(&path).map_err(|error| said(&path, &error))?;
    all()
        .iter()
        .map(|input| {
            input
                .check(&paper)
                .map_err(|what| format!("{}: {what}", input.name))
        })
        .collect()
}

/// Writes every module file.
pub fn write() -> Result<(), String> {
    all().iter().try_for_each(|input| {
        let path = input.path();
        fs::write(&path, input.file()).map_err(|error| said(&path, &error))
    })
}

fn here() -> PathBuf {
    PathBuf::from(env!("CARGO_MANIFEST_DIR"))
}

fn said(path: &Path, error: &io::Error) -> String {
    format!("{}: {error}", path.display())
}

fn wgsl(source: &str) -> Module {
    naga::front::wgsl::parse_str(source).expect("it is WGSL")
}

#[cfg(test)]
mod tests {
    use super::*;
    use reference::{analyse, Answer};

    #[test]
    fn every_input_differs_as_the_paper_says() {
        let rows = check().expect("all is as the paper says");
        assert_eq!(rows.len(), all().len());
    }

    /// D3's file is the converted one but for the sub of its one Access. With the capability that a buffer of this
    /// space asks for, sub 3 gives the report that the converted file gives.
    #[test]
    fn d3_is_one_sub_and_its_capability() {
        let inputs: Vec<Input> = all()
            .into_iter()
            .filter(|input| input.on == On::Sub3)
            .collect();
        assert_eq!(inputs.len(), 3);
        for (input, capability) in inputs.iter().zip([8, 4, 8]) {
            let converted = module_file(&input.module, SETTINGS).expect("it is within the limits");
            let (by_hand, converted) = (input.module_file(), converted.encode());
            let places: Vec<usize> = (0..converted.len())
                .filter(|&at| converted[at] != input.file()[at])
                .collect();
            assert_eq!(places.len(), 1, "{}", input.name);
            assert_eq!(
                (converted[places[0]], input.file()[places[0]]),
                (0, BUFFERS)
            );

            let allowed = |capabilities| {
                let file = ModuleFile {
                    capabilities,
                    ..by_hand.clone()
                };
                analyse(&file.encode())
            };
            assert_eq!(allowed(capability), analyse(&converted), "{}", input.name);
            assert!(matches!(allowed(15 - capability), Answer::Refused(_)));
        }
    }

    /// An input on which the two agree, or differ in another way than is said, is found.
    #[test]
    fn what_does_not_differ_as_said_is_found() {
        let said = |module, on, difference| Input {
            name: "D2",
            module,
            on,
            difference,
        };
        let [d2, d3] = [direct::d2(), direct::d3()];
        let [place, accepted] = [1, 4].map(|input: usize| all()[input].difference);
        let elsewhere = On::Converted(Rule::SevenElsewhere);
        for on in [elsewhere, On::Sub3] {
            let agreeing = said(wgsl("fn f() { discard; }"), on, place);
            assert_eq!(agreeing.differs_as_said(), Err("they agree".to_string()));
        }
        for (module, on, difference) in [
            (d2.clone(), elsewhere, accepted),
            (d2, On::Sub3, place),
            (d3.clone(), elsewhere, accepted),
            (d3, On::Sub3, place),
        ] {
            assert!(said(module, on, difference).differs_as_said().is_err());
        }
    }
}
