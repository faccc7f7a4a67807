//! How far a pair came: the calls of the shortest chain that gives it (01, 10.1).
//!
//! This is for the counts alone: it shows that the generated modules pass images and samplers down more
//! than one call.

use files::{ModuleFile, Sheet};
use release::{operands, trace, End, CALL, IMAGE_SAMPLE};
use std::collections::BTreeMap;

/// The pairs of a function, mixed ones too, each with the calls of its shortest chain.
type Lengths = BTreeMap<(End, End), usize>;

/// The most calls that a pair of globals needs, in any function of an accepted module.
pub fn longest(file: &ModuleFile) -> usize {
    let mut functions: Vec<Lengths> = Vec::new();
    for sheet in &file.sheets {
        functions.push(lengths(sheet, &functions));
    }
    functions
        .iter()
        .flatten()
        .filter(|(pair, _)| matches!(pair, (End::Global(_), End::Global(_))))
        .map(|(_, &calls)| calls)
        .max()
        .unwrap_or_default()
}

fn lengths(sheet: &Sheet, callees: &[Lengths]) -> Lengths {
    let mut lengths = Lengths::new();
    for record in &sheet.expressions {
        if record.kind == IMAGE_SAMPLE {
            if let [image, sampler, ..] = *operands(sheet, record.first, record.count) {
                enter(&mut lengths, trace(sheet, image), trace(sheet, sampler), 0);
            }
        }
    }
    for call in sheet.statements.iter().filter(|record| record.kind == CALL) {
        let given = operands(sheet, call.first, call.count);
        let in_caller = |end: End| match end {
            End::Global(_) => Some(end),
            End::Argument(number) => trace(sheet, *given.get(usize::from(number))?),
        };
        let Some(callee) = callees.get(usize::from(call.number)) else {
            continue;
        };
        for (&(image, sampler), &calls) in callee {
            enter(
                &mut lengths,
                in_caller(image),
                in_caller(sampler),
                calls + 1,
            );
        }
    }
    lengths
}

/// Enters a pair whose ends could be traced, if no shorter chain gave it before.
fn enter(lengths: &mut Lengths, image: Option<End>, sampler: Option<End>, calls: usize) {
    if let (Some(image), Some(sampler)) = (image, sampler) {
        let known = lengths.entry((image, sampler)).or_insert(calls);
        *known = calls.min(*known);
    }
}

#[cfg(test)]
mod tests {
    use super::*;
    use convert::{module_file, Settings};

    fn longest_in(wgsl: &str) -> usize {
        let module = naga::front::wgsl::parse_str(wgsl).expect("it is WGSL");
        let settings = Settings {
            capabilities: naga::valid::Capabilities::empty(),
            check_control_flow: true,
        };
        longest(&module_file(&module, settings).expect("it is within the limits"))
    }

    #[test]
    fn calls_are_counted_on_the_shortest_chain() {
        const GLOBALS: &str = "@group(0) @binding(0) var t: texture_2d<f32>;
            @group(0) @binding(1) var s: sampler;
            fn a(x: texture_2d<f32>) -> vec4<f32> { return textureSample(x, s, vec2(0.5)); }
            fn b(x: texture_2d<f32>) -> vec4<f32> { return a(x); }";
        assert_eq!(longest_in(GLOBALS), 0);
        let chained = format!("{GLOBALS} fn c() -> vec4<f32> {{ return b(t); }}");
        assert_eq!(longest_in(&chained), 2);
        let shorter = format!("{GLOBALS} fn c() -> vec4<f32> {{ return b(t) + a(t); }}");
        assert_eq!(longest_in(&shorter), 1);
    }
}
