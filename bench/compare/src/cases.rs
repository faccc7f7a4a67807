//! The modules that are compared, and what they are compared under.

use convert::{read_shader, Settings};
use naga::valid::Capabilities;
use naga::Module;
use shaders::{direct, loops, wgsl, Random};
use std::fmt;
use std::path::{Path, PathBuf};

/// One module, and where it came from.
pub struct Case {
    pub origin: Origin,
    pub module: Module,
    pub settings: Settings,
    /// The program's text, where it was generated as WGSL.
    pub source: Option<String>,
}

#[derive(Clone, Debug)]
pub enum Origin {
    Wgsl(u64),
    Direct(u64),
    Loops(u64),
    File(PathBuf),
}

impl Case {
    /// The case of a seed: WGSL for the odd, a module built directly for the even.
    pub fn from_seed(seed: u64) -> Result<Self, String> {
        if seed.is_multiple_of(2) {
            Ok(Case::built(
                seed,
                Origin::Direct(seed),
                direct::module(seed),
            ))
        } else {
            Case::written(seed, Origin::Wgsl(seed), wgsl::program(seed))
        }
    }

    /// The case of a seed among those that are mostly loops, made in the same two ways.
    pub fn of_loops(seed: u64) -> Result<Self, String> {
        if seed.is_multiple_of(2) {
            Ok(Case::built(seed, Origin::Loops(seed), loops::module(seed)))
        } else {
            Case::written(seed, Origin::Loops(seed), loops::program(seed))
        }
    }

    fn built(seed: u64, origin: Origin, module: Module) -> Self {
        Case {
            origin,
            module,
            settings: settings(seed),
            source: None,
        }
    }

    fn written(seed: u64, origin: Origin, source: String) -> Result<Self, String> {
        let module =
            naga::front::wgsl::parse_str(&source).map_err(|error| error.message().to_string())?;
        Ok(Case {
            source: Some(source),
            ..Case::built(seed, origin, module)
        })
    }

    /// A shader file's case, with control flow checked and no capability given.
    pub fn from_file(path: &Path) -> Result<Self, String> {
        Ok(Case {
            origin: Origin::File(path.to_path_buf()),
            module: read_shader(path).map_err(|error| error.to_string())?,
            settings: Settings {
                capabilities: Capabilities::empty(),
                check_control_flow: true,
            },
            source: None,
        })
    }
}

/// Mostly all capabilities and the check, so that 9 and 11 come but don't hide everything else.
fn settings(seed: u64) -> Settings {
    let mut random = Random::new(!seed);
    let capabilities = [
        Capabilities::TEXTURE_AND_SAMPLER_BINDING_ARRAY_NON_UNIFORM_INDEXING,
        Capabilities::STORAGE_TEXTURE_BINDING_ARRAY_NON_UNIFORM_INDEXING,
        Capabilities::BUFFER_BINDING_ARRAY_NON_UNIFORM_INDEXING,
        Capabilities::STORAGE_BUFFER_BINDING_ARRAY_NON_UNIFORM_INDEXING,
    ]
    .into_iter()
    .filter(|_| random.chance(80))
    .collect();
    Settings {
        capabilities,
        check_control_flow: random.chance(85),
    }
}

/// Every file of a folder and of those in it, in order of name, that has a shader's extension.
pub fn shader_files(folder: &Path) -> Result<Vec<PathBuf>, String> {
    const EXTENSIONS: [&str; 5] = ["wgsl", "spv", "vert", "frag", "comp"];
    let said = |error: std::io::Error| format!("{}: {error}", folder.display());
    let mut files = Vec::new();
    for entry in std::fs::read_dir(folder).map_err(said)? {
        let entry = entry.map_err(said)?;
        let path = entry.path();
        // A link is not followed, so that no folder comes twice.
        if entry.file_type().map_err(said)?.is_dir() {
            files.extend(shader_files(&path)?);
        } else if path
            .extension()
            .and_then(|extension| extension.to_str())
            .is_some_and(|extension| EXTENSIONS.contains(&extension))
        {
            files.push(path);
        }
    }
    files.sort();
    Ok(files)
}

impl fmt::Display for Origin {
    fn fmt(&self, f: &mut fmt::Formatter<'_>) -> fmt::Result {
        match self {
            Origin::Wgsl(seed) => write!(f, "WGSL of seed {seed}"),
            Origin::Direct(seed) => write!(f, "module of seed {seed}"),
            Origin::Loops(seed) => write!(f, "loops of seed {seed}"),
            Origin::File(path) => write!(f, "{}", path.display()),
        }
    }
}

#[cfg(test)]
mod tests {
    use super::*;
    use convert::module_file;
    use std::collections::BTreeSet;

    /// Loops stand in bodies and in continuing arms, and continuing arms hold all that a disruptor matters to.
    #[test]
    fn the_loops_reach_every_place() {
        const LOAD: u8 = 17;
        const EMIT: u8 = 0;
        const LOOP: u8 = 10;
        const ARM: u8 = 11;
        let mut found = BTreeSet::new();
        for seed in 0..400 {
            let case = Case::of_loops(seed).expect("the front end takes every program");
            let file = module_file(&case.module, case.settings).expect("it is within the limits");
            for sheet in file.sheets {
                // Of each statement around: its end, its kind, and how many arms it has had so far.
                let mut around: Vec<(u16, u8, usize)> = Vec::new();
                for (place, statement) in (0..).zip(&sheet.statements) {
                    around.retain(|&(end, ..)| end > place);
                    if let [.., (_, LOOP, arms), (_, ARM, _)] = around[..] {
                        let mut emitted = statement.number..statement.first;
                        let mut loads =
                            || emitted.any(|e| sheet.expressions[usize::from(e)].kind == LOAD);
                        if statement.kind != EMIT || loads() {
                            found.insert((arms, statement.kind));
                        }
                    }
                    if let (ARM, Some((_, _, arms))) = (statement.kind, around.last_mut()) {
                        *arms += 1;
                    }
                    around.push((statement.end, statement.kind, 0));
                }
            }
        }
        for arm in [1, 2] {
            // An Emit of a cooperative load, Kill, Barrier, Return, Call, and another Loop.
            for kind in [EMIT, 2, 3, 4, 6, LOOP] {
                assert!(found.contains(&(arm, kind)), "no {kind} in arm {arm}");
            }
        }
    }

    #[test]
    fn the_seeds_reach_every_kind_and_sub() {
        let mut expressions = BTreeSet::new();
        let mut statements = BTreeSet::new();
        let mut spaces = BTreeSet::new();
        for seed in 0..2000 {
            let case = Case::from_seed(seed).expect("the front end takes every program");
            let file = module_file(&case.module, case.settings).expect("it is within the limits");
            spaces.extend(file.spaces);
            for sheet in file.sheets {
                expressions.extend(sheet.expressions.iter().map(|e| (e.kind, e.sub)));
                statements.extend(sheet.statements.iter().map(|s| (s.kind, s.sub)));
            }
        }
        // A sub 3 comes only rarely, since the release panics on it; a global in space 0 it refuses.
        expressions.remove(&(5, 3));
        let subs = |kind| match kind {
            5 => 0..=2,
            13 => 0..=4,
            _ => 0..=0,
        };
        let all: BTreeSet<_> = (0..=18)
            .flat_map(|kind| subs(kind).map(move |sub| (kind, sub)))
            .collect();
        assert_eq!(expressions, all);
        let all: BTreeSet<_> = (0..=11).map(|kind| (kind, 0)).chain([(11, 1)]).collect();
        assert_eq!(statements, all);
        assert_eq!(spaces, (1..=10).collect());
    }
}
