//! WGSL programs.
//!
//! What WGSL allows between functions is what demand 3 is about: images and samplers as parameters. So
//! every function takes some, passes them on to lower functions and samples with them, and there are
//! enough globals for a shared callee to be reached with different pairs.

use crate::Random;

/// A program that naga's front end accepts.
pub fn program(seed: u64) -> String {
    let mut random = Random::new(seed);
    let globals = globals(&mut random);
    // Sometimes enough functions for long chains, still within 01's limits.
    let most = if random.chance(4) { 36 } else { 9 };
    let functions = random.between(1, most);
    functions_after(globals, random, functions, STATEMENTS)
}

/// A program of so many functions, entry points besides, each of up to so many statements.
pub fn program_of(seed: u64, functions: usize, statements: usize) -> String {
    let mut random = Random::new(seed);
    let globals = globals(&mut random);
    functions_after(globals, random, functions, statements)
}

/// The most statements that a function of [`program`] is given.
const STATEMENTS: usize = 14;

fn functions_after(
    mut text: String,
    mut random: Random,
    functions: usize,
    statements: usize,
) -> String {
    let mut signatures = Vec::new();
    for number in 0..functions {
        let signature = signature(&mut random, number);
        text.push_str(&Body::write(
            &mut random,
            &signatures,
            &signature,
            statements,
        ));
        signatures.push(signature);
    }
    for number in 0..random.between(1, 3) {
        let entry = entry(&mut random, number);
        text.push_str(&Body::write(&mut random, &signatures, &entry, statements));
    }
    text
}

/// How many of each kind of image and sampler a program has, so that pairs repeat and differ.
const EACH: usize = 3;

/// What a parameter or a value can be.
#[derive(Clone, Copy, PartialEq, Eq)]
enum Kind {
    Float,
    Uint,
    Image,
    ArrayImage,
    DepthImage,
    Sampler,
    Comparison,
}

impl Kind {
    const ALL: [Kind; 7] = [
        Kind::Float,
        Kind::Uint,
        Kind::Image,
        Kind::ArrayImage,
        Kind::DepthImage,
        Kind::Sampler,
        Kind::Comparison,
    ];

    fn type_name(self) -> &'static str {
        match self {
            Kind::Float => "f32",
            Kind::Uint => "u32",
            Kind::Image => "texture_2d<f32>",
            Kind::ArrayImage => "texture_2d_array<f32>",
            Kind::DepthImage => "texture_depth_2d",
            Kind::Sampler => "sampler",
            Kind::Comparison => "sampler_comparison",
        }
    }

    /// The name of the globals of this kind, before their number; numbers have none.
    fn global_name(self) -> Option<&'static str> {
        match self {
            Kind::Float | Kind::Uint => None,
            Kind::Image => Some("image"),
            Kind::ArrayImage => Some("layers"),
            Kind::DepthImage => Some("depth"),
            Kind::Sampler => Some("plain"),
            Kind::Comparison => Some("comparing"),
        }
    }
}

/// A function or entry point to be written.
struct Signature {
    /// All that stands before the body, braces left out.
    head: String,
    name: String,
    parameters: Vec<(String, Kind)>,
    result: Gives,
}

/// What a function gives back.
#[derive(Clone, Copy)]
enum Gives {
    Nothing,
    Float,
    Vector,
}

fn globals(random: &mut Random) -> String {
    let mut text = String::from(
        "enable wgpu_binding_array;\nenable wgpu_cooperative_matrix;\n\
         struct Numbers { scale: f32, index: u32, place: vec2<f32> }\n\
         struct Buffer { first: f32, rest: array<f32> }\n\
         const SET: f32 = 2.0;\noverride tuned: f32 = 1.0;\n\
         var<private> own: f32;\nvar<workgroup> shared_floats: array<f32, 64>;\n",
    );
    let mut binding = 0;
    let mut bound = |declaration: &str| {
        text.push_str(&format!("@group(0) @binding({binding}) {declaration};\n"));
        binding += 1;
    };
    bound("var<uniform> numbers: Numbers");
    bound("var<storage, read> fixed: array<f32>");
    bound("var<storage, read_write> changing: array<f32>");
    bound("var<storage, read> buffers: binding_array<Buffer, 4>");
    bound("var images: binding_array<texture_2d<f32>, 8>");
    bound("var plains: binding_array<sampler, 8>");
    bound("var stored: binding_array<texture_storage_2d<rgba8unorm, read>, 4>");
    for kind in Kind::ALL {
        if let Some(name) = kind.global_name() {
            for number in 0..EACH {
                bound(&format!("var {name}{number}: {}", kind.type_name()));
            }
        }
    }
    if random.chance(30) {
        bound("var<uniform> never_used: vec4<f32>");
    }
    text
}

fn signature(random: &mut Random, number: usize) -> Signature {
    let parameters: Vec<_> = (0..random.between(0, 5))
        .map(|place| {
            let kind = Kind::ALL[random.below(Kind::ALL.len())];
            (format!("p{place}"), kind)
        })
        .collect();
    let list: Vec<_> = parameters
        .iter()
        .map(|(name, kind)| format!("{name}: {}", kind.type_name()))
        .collect();
    let name = format!("part{number}");
    Signature {
        head: format!("fn {name}({}) -> f32", list.join(", ")),
        name,
        parameters,
        result: Gives::Float,
    }
}

fn entry(random: &mut Random, number: usize) -> Signature {
    let (head, parameters, result) = match random.below(3) {
        0 => (
            "@compute @workgroup_size(64)\nfn NAME(@builtin(workgroup_id) group: vec3<u32>, \
             @builtin(num_workgroups) groups: vec3<u32>, @builtin(local_invocation_index) own_index: u32)",
            vec![
                ("group.x", Kind::Uint),
                ("groups.y", Kind::Uint),
                ("own_index", Kind::Uint),
            ],
            Gives::Nothing,
        ),
        1 => (
            "@fragment\nfn NAME(@location(0) across: f32, @builtin(position) position: vec4<f32>) \
             -> @location(0) vec4<f32>",
            vec![("across", Kind::Float), ("position.y", Kind::Float)],
            Gives::Vector,
        ),
        _ => (
            "@vertex\nfn NAME(@builtin(vertex_index) vertex: u32) -> @builtin(position) vec4<f32>",
            vec![("vertex", Kind::Uint)],
            Gives::Vector,
        ),
    };
    let name = format!("main{number}");
    Signature {
        head: head.replace("NAME", &name),
        name,
        parameters: parameters
            .into_iter()
            .map(|(name, kind)| (name.to_string(), kind))
            .collect(),
        result,
    }
}

/// One function's body as it is written.
struct Body<'a> {
    random: &'a mut Random,
    callees: &'a [Signature],
    own: &'a Signature,
    text: String,
    /// Names of f32 values in scope.
    floats: Vec<String>,
    /// How many names were given out.
    names: usize,
    /// Statements that may still be written; keeps a module well within 01's limits.
    budget: usize,
    loops: usize,
    /// Whether cooperative loads come at all: one of them under non-uniform flow refuses the module.
    cooperative: bool,
}

impl<'a> Body<'a> {
    fn write(
        random: &'a mut Random,
        callees: &'a [Signature],
        own: &'a Signature,
        statements: usize,
    ) -> String {
        let budget = random.between(2, statements);
        let cooperative = random.chance(8);
        let mut body = Body {
            random,
            callees,
            own,
            text: format!("{} {{\n", own.head),
            floats: Vec::new(),
            names: 0,
            budget,
            loops: 0,
            cooperative,
        };
        body.line("var kept: f32 = 1.0;");
        body.floats.push("kept".to_string());
        while body.budget > 0 {
            body.statement(0);
        }
        body.give_back();
        body.text.push_str("}\n");
        body.text
    }

    fn line(&mut self, line: &str) {
        self.text.push_str(line);
        self.text.push('\n');
    }

    fn fresh(&mut self) -> String {
        self.names += 1;
        format!("v{}", self.names)
    }

    fn give_back(&mut self) {
        let value = self.float(1);
        match self.own.result {
            Gives::Float => self.line(&format!("return {value};")),
            Gives::Vector => self.line(&format!("return vec4<f32>({value});")),
            Gives::Nothing => self.line("return;"),
        }
    }

    /// Statements between braces; names given inside are forgotten after it.
    fn braces(&mut self, depth: usize, last: impl FnOnce(&mut Self)) {
        let known = self.floats.len();
        self.line("{");
        for _ in 0..self.random.between(0, 3) {
            self.statement(depth + 1);
        }
        last(self);
        self.line("}");
        self.floats.truncate(known);
    }

    fn statement(&mut self, depth: usize) {
        if self.budget == 0 {
            return;
        }
        self.budget -= 1;
        match self.random.below(if depth < 4 { 22 } else { 14 }) {
            0..=2 => {
                let value = self.float(3);
                let name = self.fresh();
                self.line(&format!("let {name} = {value};"));
                self.floats.push(name);
            }
            3 => {
                let value = self.float(2);
                self.line(&format!("kept = {value};"));
            }
            4 => self.store(),
            5..=7 => self.call_statement(),
            8 => self.phony(),
            9 => {
                let barrier = ["workgroupBarrier", "storageBarrier"][self.random.below(2)];
                self.line(&format!("{barrier}();"));
            }
            10 if self.random.chance(50) => self.line("discard;"),
            11 if self.cooperative => self.cooperative_load(),
            12 if self.loops > 0 => {
                let word = ["break", "continue"][self.random.below(2)];
                let condition = self.condition();
                self.line(&format!("if {condition} {{ {word}; }}"));
            }
            13 => {
                let condition = self.condition();
                self.line(&format!("if {condition} {{"));
                self.give_back();
                self.line("}");
            }
            14..=16 => self.branch(depth),
            17 | 18 => self.switch(depth),
            19 | 20 => self.repeat(depth),
            21 => self.braces(depth, |_| ()),
            _ => self.phony(),
        }
    }

    fn branch(&mut self, depth: usize) {
        let condition = self.condition();
        self.line(&format!("if {condition}"));
        self.braces(depth, Self::perhaps_leave);
        if self.random.chance(50) {
            self.line("else");
            self.braces(depth, Self::perhaps_leave);
        }
    }

    /// The end of an arm: often a way out, since exits are what makes later flow non-uniform.
    fn perhaps_leave(&mut self) {
        match self.random.below(6) {
            0 => self.give_back(),
            1 => self.line("discard;"),
            _ => (),
        }
    }

    fn switch(&mut self, depth: usize) {
        let selector = self.uint();
        self.line(&format!("switch {selector} {{"));
        for case in 0..self.random.between(0, 3) {
            self.line(&format!("case {case}u, {}u: ", case + 10));
            self.braces(depth, Self::perhaps_leave);
        }
        self.line("default:");
        self.braces(depth, Self::perhaps_leave);
        self.line("}");
    }

    fn repeat(&mut self, depth: usize) {
        self.line("loop {");
        self.loops += 1;
        self.branch(depth + 1);
        self.loops -= 1;
        self.line("continuing");
        self.braces(depth, |body| {
            if body.random.chance(20) {
                body.line("discard;");
            }
            if body.random.chance(70) {
                let condition = body.condition();
                body.line(&format!("break if {condition};"));
            }
        });
        self.line("}");
    }

    fn store(&mut self) {
        let place = match self.random.below(4) {
            0 => "own".to_string(),
            1 => format!("changing[{}]", self.uint()),
            2 => format!("shared_floats[{}]", self.uint()),
            _ => "kept".to_string(),
        };
        let value = self.float(2);
        self.line(&format!("{place} = {value};"));
    }

    fn phony(&mut self) {
        let value = match self.random.below(4) {
            0 => self.resource(Kind::Image),
            1 => self.resource(Kind::Sampler),
            2 => "numbers.scale".to_string(),
            _ => self.float(2),
        };
        self.line(&format!("_ = {value};"));
    }

    fn cooperative_load(&mut self) {
        let name = self.fresh();
        let buffer = ["fixed", "changing"][self.random.below(2)];
        self.line(&format!(
            "let {name} = coopLoad<coop_mat8x8<f32, C>>(&{buffer}[0]);"
        ));
    }

    /// A call whose result is dropped, as often as one whose result is kept.
    fn call_statement(&mut self) {
        let Some(call) = self.call(2) else {
            return self.phony();
        };
        if self.random.chance(50) {
            self.line(&format!("_ = {call};"));
        } else {
            let name = self.fresh();
            self.line(&format!("let {name} = {call};"));
            self.floats.push(name);
        }
    }

    fn call(&mut self, depth: usize) -> Option<String> {
        let callees = self.callees;
        let callee = self.random.pick(callees)?;
        let arguments: Vec<_> = callee
            .parameters
            .iter()
            .map(|&(_, kind)| match kind {
                Kind::Float => self.float(depth),
                Kind::Uint => self.uint(),
                resource => self.resource(resource),
            })
            .collect();
        Some(format!("{}({})", callee.name, arguments.join(", ")))
    }

    /// An image or sampler: a parameter where there is one, a global, or an element of a binding array.
    fn resource(&mut self, kind: Kind) -> String {
        if self.random.chance(60) {
            if let Some(parameter) = self.parameter(kind) {
                return parameter;
            }
        }
        if self.random.chance(15) {
            match kind {
                Kind::Image => return format!("images[{}]", self.uint()),
                Kind::Sampler => return format!("plains[{}]", self.uint()),
                _ => (),
            }
        }
        match kind.global_name() {
            Some(name) => format!("{name}{}", self.random.below(EACH)),
            None => self.simple_float(),
        }
    }

    fn parameter(&mut self, kind: Kind) -> Option<String> {
        let own = self.own;
        let fitting: Vec<_> = own
            .parameters
            .iter()
            .filter(|parameter| parameter.1 == kind)
            .collect();
        self.random.pick(&fitting).map(|found| found.0.clone())
    }

    fn uint(&mut self) -> String {
        if self.random.chance(25) {
            if let Some(parameter) = self.parameter(Kind::Uint) {
                return parameter;
            }
        }
        match self.random.below(6) {
            0 | 1 => format!("{}u", self.random.below(4)),
            2 => "numbers.index".to_string(),
            3 => "u32(fixed[1])".to_string(),
            4 => "u32(kept)".to_string(),
            _ => "arrayLength(&changing)".to_string(),
        }
    }

    fn condition(&mut self) -> String {
        match self.random.below(5) {
            0 => "numbers.scale > 0.5".to_string(),
            1 => "fixed[0] > 2.0".to_string(),
            2 => format!("{} == 1u", self.uint()),
            _ => format!("{} > 0.25", self.float(1)),
        }
    }

    fn float(&mut self, depth: usize) -> String {
        if depth == 0 {
            return self.simple_float();
        }
        let deeper = depth - 1;
        match self.random.below(16) {
            0 => format!("({} + {})", self.float(deeper), self.float(deeper)),
            1 => format!("max({}, {})", self.float(deeper), self.float(deeper)),
            2 => format!(
                "mix({}, {}, {})",
                self.float(deeper),
                self.float(deeper),
                self.float(deeper)
            ),
            3 => format!(
                "select({}, {}, {})",
                self.float(deeper),
                self.float(deeper),
                self.condition()
            ),
            4 => format!("(-{})", self.float(deeper)),
            5 => {
                let slope = ["dpdx", "dpdyFine", "fwidthCoarse"][self.random.below(3)];
                format!("{slope}({})", self.float(deeper))
            }
            6..=9 => self.sampling(deeper),
            10 => self.load_or_query(),
            11 => match self.call(deeper) {
                Some(call) => call,
                None => self.simple_float(),
            },
            _ => self.simple_float(),
        }
    }

    fn simple_float(&mut self) -> String {
        if self.random.chance(35) {
            if let Some(known) = self.random.pick(&self.floats) {
                return known.clone();
            }
        }
        if self.random.chance(30) {
            if let Some(parameter) = self.parameter(Kind::Float) {
                return parameter;
            }
        }
        match self.random.below(8) {
            0 => "0.75f".to_string(),
            1 => ["SET", "tuned", "sqrt(tuned)"][self.random.below(3)].to_string(),
            2 => "numbers.scale".to_string(),
            3 => format!("fixed[{}]", self.random.below(4)),
            4 => format!("changing[{}]", self.random.below(4)),
            5 => "own".to_string(),
            6 => format!("shared_floats[{}]", self.random.below(4)),
            _ => format!("buffers[{}].first", self.uint()),
        }
    }

    fn place(&mut self) -> String {
        if self.random.chance(40) {
            return "numbers.place".to_string();
        }
        format!("vec2<f32>({}, 0.5)", self.simple_float())
    }

    /// Every level, with and without array index, depth and offset.
    fn sampling(&mut self, depth: usize) -> String {
        let place = self.place();
        let level = self.float(depth.min(1));
        let image = self.resource(Kind::Image);
        let plain = self.resource(Kind::Sampler);
        let layers = self.resource(Kind::ArrayImage);
        let depths = self.resource(Kind::DepthImage);
        let comparing = self.resource(Kind::Comparison);
        let layer = self.uint();
        match self.random.below(12) {
            0 => format!("textureSample({image}, {plain}, {place}).x"),
            1 => format!("textureSample({image}, {plain}, {place}, vec2<i32>(1, 1)).y"),
            2 => format!("textureSampleLevel({image}, {plain}, {place}, {level}).x"),
            3 => format!("textureSampleBias({image}, {plain}, {place}, {level}).x"),
            4 => format!(
                "textureSampleGrad({image}, {plain}, {place}, vec2<f32>({level}), numbers.place).x"
            ),
            5 => format!("textureSample({layers}, {plain}, {place}, {layer}).x"),
            6 => format!("textureSampleLevel({layers}, {plain}, {place}, {layer}, {level}).x"),
            7 => format!("textureSampleCompare({depths}, {comparing}, {place}, {level})"),
            8 => format!("textureSampleCompareLevel({depths}, {comparing}, {place}, {level})"),
            9 => format!("textureGather(1, {image}, {plain}, {place}).z"),
            10 => format!("textureGatherCompare({depths}, {comparing}, {place}, {level}).w"),
            _ => format!("textureSampleBaseClampToEdge({image}, {plain}, {place}).x"),
        }
    }

    fn load_or_query(&mut self) -> String {
        let image = self.resource(Kind::Image);
        let layers = self.resource(Kind::ArrayImage);
        let index = self.uint();
        match self.random.below(6) {
            0 => format!("textureLoad({image}, vec2<u32>({index}), 0u).x"),
            1 => format!("textureLoad({layers}, vec2<u32>(1u), {index}, 0u).x"),
            2 => format!("textureLoad(stored[{index}], vec2<u32>(1u)).x"),
            3 => format!("f32(textureDimensions({image}, {index}).x)"),
            4 => format!("f32(textureNumLayers({layers}))"),
            _ => format!("f32(textureDimensions(stored[{index}]).y)"),
        }
    }
}

#[cfg(test)]
mod tests {
    use super::*;

    #[test]
    fn the_front_end_takes_every_program() {
        for seed in 0..400 {
            let program = program(seed);
            if let Err(error) = naga::front::wgsl::parse_str(&program) {
                panic!("seed {seed}: {}\n{program}", error.emit_to_string(&program));
            }
        }
    }
}
