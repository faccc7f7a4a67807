//! Modules to be timed: each as a naga module for the release, and as the module file that was made from it for ours.

use std::path::Path;

use compare::{shader_files, Case};
use convert::{module_file, Settings};
use files::{ModuleFile, ABSENT};
use naga::valid::Capabilities;
use naga::Module;
use reference::Answer;
use release::{operands, read_report, Verdict};
use shaders::direct::{self, Bounds};
use shaders::wgsl;

use crate::analyzer::Lent;

/// Modules of one kind and size.
pub struct Group {
    pub name: &'static str,
    pub samples: Vec<Sample>,
}

pub struct Sample {
    /// Where it came from: a seed, or a shader's path.
    pub origin: String,
    pub module: Module,
    pub settings: Settings,
    pub file: Vec<u8>,
    pub counts: Counts,
    /// Bytes of its report; none where it is refused.
    pub report: Option<usize>,
}

/// What is in a module file.
#[derive(Clone, Copy, Debug, Default, PartialEq, Eq)]
pub struct Counts {
    pub functions: usize,
    pub expressions: usize,
    /// Operands that count (01, 6.5).
    pub references: usize,
    pub statements: usize,
    pub bytes: usize,
}

/// The group that stands for no shader and so enters no mean.
pub const APART: &str = "pairs, Calls";

/// How many modules of each size a group takes.
#[derive(Clone, Copy)]
pub struct Wanted {
    pub small: usize,
    pub middling: usize,
    pub large: usize,
    pub refused: usize,
}

const SMALL: std::ops::RangeInclusive<usize> = 50..=80;
const MIDDLING: std::ops::RangeInclusive<usize> = 400..=600;
/// A large file has at least so many bytes of the 65,536 that it may have.
const LARGE: usize = 60_000;

/// For accepted modules: nothing that the rules could refuse for, so that both sides go to the end.
const LENIENT: Settings = Settings {
    capabilities: Capabilities::all(),
    check_control_flow: false,
};

/// Generated modules that both sides accept, kind by kind and size by size.
pub fn generated(wanted: Wanted) -> Vec<Group> {
    vec![
        group("WGSL small", wanted.small, |seed| {
            within(program(seed)?, SMALL)
        }),
        group("WGSL middling", wanted.middling, |seed| {
            within(program(seed)?, MIDDLING)
        }),
        group("WGSL large", wanted.large, |seed| {
            largest(|functions| parsed(&wgsl::program_of(seed, functions, 24)))
        }),
        group("modules small", wanted.small, |seed| {
            within(direct::module(seed), SMALL)
        }),
        group("modules middling", wanted.middling, |seed| {
            within(direct::module(seed), MIDDLING)
        }),
        group("modules large", wanted.large, |seed| {
            let bounds = Bounds {
                expressions: 160,
                statements: 60,
            };
            largest(|functions| Some(direct::module_of(seed, functions, bounds)))
        }),
    ]
}

/// The shader files of a folder that both sides accept, and how many files there are.
pub fn real(folder: &Path) -> Result<(Group, usize), String> {
    let paths = shader_files(folder)?;
    let samples = paths
        .iter()
        .filter_map(|path| Case::from_file(path).ok())
        .filter_map(|case| Sample::accepted(case.origin.to_string(), case.module))
        .collect();
    let group = Group {
        name: "real shaders",
        samples,
    };
    Ok((group, paths.len()))
}

/// The module on which the pair lists take the most work: a function with 256 pairs, and others with nothing but Calls of it, as
/// many as a file has room for. It stands for no shader.
pub fn pairs_through_calls() -> Group {
    let source = |calls: usize| {
        let mut text = String::new();
        for number in 0..16 {
            text += &format!("@group(0) @binding({number}) var i{number}: texture_2d<f32>;\n");
            text += &format!("@group(1) @binding({number}) var s{number}: sampler;\n");
        }
        text += "fn pairs() {\n";
        for pair in 0..256 {
            let (image, sampler) = (pair / 16, pair % 16);
            text += &format!("_ = textureSampleLevel(i{image}, s{sampler}, vec2(0.5), 0.0);\n");
        }
        text += "}\n";
        for (number, calls) in (0..calls)
            .step_by(1_000)
            .map(|done| (done, 1_000.min(calls - done)))
        {
            text += &format!("fn calls{number}() {{ {} }}\n", "pairs(); ".repeat(calls));
        }
        text
    };
    let most = (1..7_000).rev().step_by(100).find_map(|calls| {
        let module = parsed(&source(calls))?;
        module_file(&module, LENIENT).is_ok().then_some(module)
    });
    Group {
        name: APART,
        samples: most
            .and_then(|module| Sample::accepted(APART.to_string(), module))
            .into_iter()
            .collect(),
    }
}

/// Generated modules that both sides refuse, under the settings of their seeds.
pub fn refused(wanted: Wanted) -> Group {
    group_by("refused", wanted.refused, |seed| {
        let case = Case::from_seed(seed).ok()?;
        Sample::refused(case.origin.to_string(), case.module, case.settings)
    })
}

/// The files of the modules that are timed and accepted, group by group: so many of each size, and those of a folder of shaders.
pub fn first_files(
    count: usize,
    shaders: Option<&Path>,
) -> Result<impl Iterator<Item = (String, Vec<u8>)>, String> {
    let first = Wanted {
        small: count,
        middling: count,
        large: count,
        refused: 0,
    };
    let mut groups = generated(first);
    groups.push(pairs_through_calls());
    if let Some(folder) = shaders {
        groups.push(real(folder)?.0);
    }
    Ok(groups.into_iter().flat_map(|group| {
        let named = move |(number, sample): (usize, Sample)| {
            (format!("{} {}", group.name, number + 1), sample.file)
        };
        group.samples.into_iter().enumerate().map(named)
    }))
}

fn group(name: &'static str, count: usize, module: impl Fn(u64) -> Option<Module>) -> Group {
    group_by(name, count, |seed| {
        Sample::accepted(format!("{name}, seed {seed}"), module(seed)?)
    })
}

/// The first `count` samples that the seeds give.
fn group_by(name: &'static str, count: usize, sample: impl Fn(u64) -> Option<Sample>) -> Group {
    Group {
        name,
        samples: (1..).filter_map(sample).take(count).collect(),
    }
}

fn program(seed: u64) -> Option<Module> {
    parsed(&wgsl::program(seed))
}

fn parsed(source: &str) -> Option<Module> {
    naga::front::wgsl::parse_str(source).ok()
}

/// The module, if it has so many expressions.
fn within(module: Module, range: std::ops::RangeInclusive<usize>) -> Option<Module> {
    let expressions: usize = convert::all_functions(&module)
        .map(|(_, function)| function.expressions.len())
        .sum();
    range.contains(&expressions).then_some(module)
}

/// The module of the most functions that a file has room for, if its file is large.
fn largest(module: impl Fn(usize) -> Option<Module>) -> Option<Module> {
    let fits = |functions: &usize| {
        module(*functions).is_some_and(|module| module_file(&module, LENIENT).is_ok())
    };
    // A seed's program of fewer functions is a shorter one of the same beginning, so halving finds the most.
    let (mut fitting, mut too_many) = (1, 62);
    while too_many - fitting > 1 {
        let middle = (fitting + too_many) / 2;
        if fits(&middle) {
            fitting = middle;
        } else {
            too_many = middle;
        }
    }
    let module = module(fitting)?;
    let file = module_file(&module, LENIENT).ok()?;
    (file.encode().len() >= LARGE).then_some(module)
}

impl Sample {
    /// A module that both sides accept.
    fn accepted(origin: String, module: Module) -> Option<Self> {
        if !matches!(release::run(&module, LENIENT), Verdict::Accepted(_)) {
            return None;
        }
        let (file, answer) = answered(&module, LENIENT)?;
        let Answer::Report(report) = answer else {
            return None;
        };
        let counts = Counts::of(&file);
        assert_eq!(
            counts.references,
            counted(&report),
            "a report's counts add up to the references (01, 6.5)"
        );
        Some(Sample {
            origin,
            module,
            settings: LENIENT,
            file: file.encode(),
            counts,
            report: Some(report.len()),
        })
    }

    /// A module that both sides refuse.
    fn refused(origin: String, module: Module, settings: Settings) -> Option<Self> {
        if !matches!(release::run(&module, settings), Verdict::Refused(_)) {
            return None;
        }
        let (file, answer) = answered(&module, settings)?;
        matches!(answer, Answer::Refused(_)).then(|| Sample {
            origin,
            module,
            settings,
            file: file.encode(),
            counts: Counts::of(&file),
            report: None,
        })
    }
}

/// The module's file, if it has one, and our answer on it.
fn answered(module: &Module, settings: Settings) -> Option<(ModuleFile, Answer)> {
    let file = module_file(module, settings).ok()?;
    let answer = Lent::new()
        .answer(&file.encode())
        .expect("every byte that must be zero is zero");
    Some((file, answer))
}

/// The sum of a report's reference counts.
fn counted(report: &[u8]) -> usize {
    read_report(report)
        .expect("it is a report")
        .iter()
        .flat_map(|section| &section.expressions)
        .map(|expression| expression.count as usize)
        .sum()
}

impl Counts {
    pub fn of(file: &ModuleFile) -> Self {
        let mut counts = Counts {
            functions: file.sheets.len(),
            bytes: file.encode().len(),
            ..Counts::default()
        };
        for sheet in &file.sheets {
            counts.expressions += sheet.expressions.len();
            counts.statements += sheet.statements.len();
            let of_expressions = sheet.expressions.iter().map(|e| (e.first, e.count));
            let of_statements = sheet.statements.iter().map(|s| (s.first, s.count));
            counts.references += of_expressions
                .chain(of_statements)
                .flat_map(|(first, count)| operands(sheet, first, count))
                .filter(|&&operand| operand != ABSENT)
                .count()
                + sheet.initialisers.len();
        }
        counts
    }

    pub fn plus(self, other: Self) -> Self {
        Counts {
            functions: self.functions + other.functions,
            expressions: self.expressions + other.expressions,
            references: self.references + other.references,
            statements: self.statements + other.statements,
            bytes: self.bytes + other.bytes,
        }
    }
}
