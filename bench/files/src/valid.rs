//! Module files that the analyzer accepts, made at random; or that break one chosen rule.
//!
//! The maker keeps, for each expression, a cautious idea of what the rules will find. It never offers an end
//! that can't be traced, a non-uniform index without its capability, or a barrier requirement in doubtful
//! control flow, unless it was asked to let that very rule slip.

use crate::random::Random;
use crate::{ModuleFile, Sheet, ABSENT};

/// A rule on which the maker doesn't take care.
#[derive(Clone, Copy, Debug, PartialEq, Eq)]
pub enum Slip {
    /// 7: an end that can't be traced.
    Tracing,
    /// 8: the base of a sub 3 Access.
    Base,
    /// 9: a capability that is missing.
    Capability,
    /// 11: what is emitted under a non-uniform condition.
    Condition,
    /// 11: what is emitted after a statement that may return or kill.
    Exit,
}

/// How large a module may become. Each is an upper bound that few modules reach.
#[derive(Clone, Copy, Debug)]
pub struct Bounds {
    pub bytes: usize,
    pub globals: usize,
    pub functions: usize,
    pub arguments: usize,
    pub expressions: usize,
    /// Operands that no record uses are added up to this many.
    pub operands: usize,
    pub statements: usize,
    /// Entries of the initialisers, and of the named expressions.
    pub listed: usize,
    /// Statements around a statement.
    pub around: usize,
}

/// Most pairs, and most mixed pairs, that a made function may have.
const MOST_PAIRS: usize = 256;

/// Most bytes of a report.
const MOST_REPORT_BYTES: usize = 65_536;

/// Most operands of a pool, and the most that one record takes: a Call of a function with 64 arguments.
const MOST_OPERANDS: usize = 8_192;
const MOST_IN_RECORD: usize = 64;

/// A module within these bounds.
pub fn module(random: &mut Random, bounds: &Bounds, slip: Option<Slip>) -> ModuleFile {
    let globals = random.few(bounds.globals).max(1);
    let mut module = ModuleFile {
        capabilities: capabilities(random, slip),
        spaces: (0..globals).map(|_| space(random)).collect(),
        sheets: Vec::new(),
    };
    let mut made: Vec<Known> = Vec::new();
    let mut bytes = module.encode().len();
    let mut report_bytes = 9;
    for _ in 0..random.between(1, bounds.functions) {
        let mut maker = Maker::new(random, bounds, slip, &module, &made);
        maker.fill();
        let (sheet, known) = maker.finish();
        bytes += sheet.encoded_len();
        report_bytes += known.report_bytes(globals, sheet.expressions.len());
        if bytes > bounds.bytes || report_bytes > MOST_REPORT_BYTES {
            break;
        }
        module.sheets.push(sheet);
        made.push(known);
    }
    module
}

fn capabilities(random: &mut Random, slip: Option<Slip>) -> u8 {
    match slip {
        Some(Slip::Capability) => random.pick(&[0, 1, 2, 4, 8, 3, 12]),
        _ => random.pick(&[0, 15, 15, 1, 2, 4, 8, 7]),
    }
}

/// Any space, the ones that binding arrays and handles lie in more often.
fn space(random: &mut Random) -> u8 {
    if random.one_in(2) {
        random.pick(&[6, 8, 9, 10])
    } else {
        random.below(11) as u8
    }
}

/// What a caller has to know of a function.
struct Known {
    /// Which arguments some sampling traces to.
    handles: Vec<bool>,
    /// No more pairs and mixed pairs than these.
    pairs: usize,
    mixed: usize,
}

impl Known {
    /// The most bytes that the function's section can take.
    fn report_bytes(&self, globals: usize, expressions: usize) -> usize {
        10 + globals + 4 * self.pairs + 6 * self.mixed + 9 * expressions
    }
}

/// One function while it is made.
struct Maker<'a> {
    random: &'a mut Random,
    bounds: &'a Bounds,
    slip: Option<Slip>,
    module: &'a ModuleFile,
    lower: &'a [Known],
    known: Known,
    sheet: Sheet,
    /// Whether each expression is certainly uniform.
    uniform: Vec<bool>,
    /// Expressions that can be traced without an argument being marked as a handle.
    ends: Vec<u16>,
    /// Expressions of kind 2.
    globals: Vec<u16>,
    /// Expressions that may have the barrier or the cooperative requirement.
    required: Vec<bool>,
    /// Whether a statement so far may have left a disruptor behind.
    exited: bool,
    statements_left: usize,
    /// Whether statements that hold others are made more often, so that nesting becomes deep.
    nests: bool,
}

impl<'a> Maker<'a> {
    fn new(
        random: &'a mut Random,
        bounds: &'a Bounds,
        slip: Option<Slip>,
        module: &'a ModuleFile,
        lower: &'a [Known],
    ) -> Self {
        let arguments: Vec<u8> = (0..random.few(bounds.arguments))
            .map(|_| random.below(4) as u8)
            .collect();
        let emits = matches!(slip, Some(Slip::Condition | Slip::Exit));
        let flag = u8::from(emits || random.one_in(2));
        let statements_left = random.between(0, bounds.statements);
        let nests = random.one_in(4);
        Maker {
            known: Known {
                handles: vec![false; arguments.len()],
                pairs: 0,
                mixed: 0,
            },
            random,
            bounds,
            slip,
            module,
            lower,
            sheet: Sheet {
                flag,
                arguments,
                ..Sheet::default()
            },
            uniform: Vec::new(),
            ends: Vec::new(),
            globals: Vec::new(),
            required: Vec::new(),
            exited: false,
            statements_left,
            nests,
        }
    }

    fn fill(&mut self) {
        let expressions = self.random.between(1, self.bounds.expressions);
        for _ in 0..expressions {
            self.expression();
        }
        self.sheet.initialisers = self.list();
        self.sheet.named = self.list();
        self.body(0, true);
        if self.random.one_in(8) {
            self.fill_pool();
        }
    }

    fn finish(self) -> (Sheet, Known) {
        (self.sheet, self.known)
    }

    fn slips(&self, slip: Slip) -> bool {
        self.slip == Some(slip)
    }

    /// Some expressions, or none.
    fn list(&mut self) -> Vec<u16> {
        let count = self.random.few(self.bounds.listed);
        (0..count).map(|_| self.any()).collect()
    }

    /// An expression that is there already; the last ones more often.
    fn any(&mut self) -> u16 {
        let count = self.sheet.expressions.len();
        let back = if self.random.one_in(2) {
            self.random.below(count.min(4))
        } else {
            self.random.below(count)
        };
        (count - 1 - back) as u16
    }

    fn any_or_absent(&mut self) -> u16 {
        if self.random.one_in(2) {
            ABSENT
        } else {
            self.any()
        }
    }

    /// Adds one expression; leaves as long as there are none to refer to.
    fn expression(&mut self) {
        let kind = if self.sheet.expressions.len() < 2 || self.pool_is_full() {
            self.random.below(5)
        } else if self.random.one_in(3) {
            self.random.pick(self.favoured())
        } else {
            self.random.below(19)
        };
        match kind {
            1 if !self.sheet.arguments.is_empty() => self.argument(),
            2 => self.global(),
            3 => self.add(3, 0, 0, &[], false),
            4 if !self.lower.is_empty() => self.call_result(),
            5 => self.access(),
            6 => self.access_index(),
            7 | 8 | 16 => self.reading(kind as u8, 1),
            9 | 17 => self.reading(kind as u8, 2),
            10 | 18 => self.reading(kind as u8, 3),
            11 => self.compose(),
            12 => self.with_optional(12, 1, 3),
            13 => self.sample(),
            14 => self.with_optional(14, 2, 3),
            15 => self.with_optional(15, 1, 1),
            _ => self.add(0, 0, 0, &[], true),
        }
    }

    /// Kinds that are made more often: those that meet in samplings and calls, or in the rule that slips.
    fn favoured(&self) -> &'static [usize] {
        match self.slip {
            None => &[2, 2, 13, 13, 5, 6],
            Some(Slip::Tracing) => &[1, 2, 13, 13],
            Some(Slip::Base) => &[2, 5, 5],
            Some(Slip::Capability) => &[2, 3, 5, 5],
            Some(Slip::Condition | Slip::Exit) => &[3, 4, 17, 18],
        }
    }

    /// Whether one more record might not find room for its operands.
    fn pool_is_full(&self) -> bool {
        self.sheet.operands.len() + MOST_IN_RECORD + 1 > MOST_OPERANDS
    }

    /// Adds a record and what is known of it. `itself` says whether it is uniform where its operands are.
    fn add(&mut self, kind: u8, sub: u8, number: u16, operands: &[u16], itself: bool) {
        let present = operands.iter().filter(|&&operand| operand != ABSENT);
        let uniform = itself && present.into_iter().all(|&x| self.uniform[usize::from(x)]);
        if self.random.one_in(16) {
            self.unused_operand();
        }
        self.sheet.expression(kind, sub, number, operands);
        self.uniform.push(uniform);
        self.required.push(matches!(kind, 4 | 17 | 18));
    }

    /// Adds operands that no record uses, often as many as there may be.
    fn fill_pool(&mut self) {
        let some = self.random.between(0, self.bounds.operands);
        let most = self.random.pick(&[some, self.bounds.operands]);
        while self.sheet.operands.len() < most {
            self.unused_operand();
        }
    }

    /// "Pool operands that no record uses are free."
    fn unused_operand(&mut self) {
        let operand = self.random.pick(&[0, 1, 2_047, 2_048, 65_534, ABSENT]);
        self.sheet.operands.push(operand);
    }

    fn argument(&mut self) {
        let number = self.random.below(self.sheet.arguments.len());
        self.ends.push(self.sheet.expressions.len() as u16);
        let uniform = self.sheet.arguments[number] != 0;
        self.add(1, 0, number as u16, &[], uniform);
    }

    fn global(&mut self) {
        let number = self.random.below(self.module.spaces.len());
        let place = self.sheet.expressions.len() as u16;
        self.ends.push(place);
        self.globals.push(place);
        let uniform = (4..=8).contains(&self.module.spaces[number]);
        self.add(2, 0, number as u16, &[], uniform);
    }

    fn call_result(&mut self) {
        let number = self.random.below(self.lower.len());
        self.add(4, 0, number as u16, &[], false);
    }

    fn reading(&mut self, kind: u8, count: usize) {
        let operands: Vec<u16> = (0..count).map(|_| self.any()).collect();
        self.add(kind, 0, 0, &operands, true);
    }

    fn with_optional(&mut self, kind: u8, needed: usize, optional: usize) {
        let mut operands: Vec<u16> = (0..needed).map(|_| self.any()).collect();
        for _ in 0..optional {
            let operand = self.any_or_absent();
            operands.push(operand);
        }
        self.add(kind, 0, 0, &operands, true);
    }

    /// Any number of operands; sometimes a part of the pool that other records use too.
    fn compose(&mut self) {
        let count = if self.random.one_in(3) {
            self.random.between(0, self.bounds.arguments)
        } else {
            self.random.few(8)
        };
        if self.random.one_in(3) && self.share_pool(count) {
            return;
        }
        let operands: Vec<u16> = (0..count).map(|_| self.any()).collect();
        self.add(11, 0, 0, &operands, true);
    }

    /// Adds a Compose over a part of the pool that is there already, if one chosen at random will do.
    fn share_pool(&mut self, count: usize) -> bool {
        let pool = self.sheet.operands.len();
        if count == 0 || count > pool {
            return false;
        }
        let first = self.random.between(0, pool - count);
        let place = self.sheet.expressions.len() as u16;
        let part = &self.sheet.operands[first..first + count];
        if part.iter().any(|&operand| operand >= place) {
            return false;
        }
        self.add(11, 0, 0, &[], false);
        if let Some(record) = self.sheet.expressions.last_mut() {
            (record.first, record.count) = (first as u16, count as u16);
        }
        true
    }

    fn access(&mut self) {
        let sub = self.random.below(4) as u8;
        let base = if sub == 3 && !self.slips(Slip::Base) {
            self.buffer()
        } else if self.random.one_in(2) {
            self.some_global()
        } else {
            Some(self.any())
        };
        let Some(base) = base else {
            return self.add(0, 0, 0, &[], true);
        };
        let index = self.any();
        let allowed = self.uniform[usize::from(index)]
            || self.slips(Slip::Capability)
            || self.module.capabilities & self.asked(sub, base) != 0;
        let sub = if sub == 0 || allowed { sub } else { 0 };
        self.traceable(base);
        self.add(5, sub, 0, &[base, index], true);
    }

    fn access_index(&mut self) {
        let base = if self.random.one_in(2) {
            self.some_global()
        } else {
            None
        };
        let base = base.unwrap_or_else(|| self.any());
        self.traceable(base);
        self.add(6, 0, 0, &[base], true);
    }

    /// The next expression can be traced if this base is a global.
    fn traceable(&mut self, base: u16) {
        if self.globals.contains(&base) {
            self.ends.push(self.sheet.expressions.len() as u16);
        }
    }

    fn some_global(&mut self) -> Option<u16> {
        if self.globals.is_empty() {
            return None;
        }
        Some(self.random.pick(&self.globals))
    }

    /// A global in Uniform or Storage, as the base of a sub 3 Access has to be.
    fn buffer(&mut self) -> Option<u16> {
        let base = self.some_global()?;
        matches!(self.space_of(base), 6 | 8 | 9).then_some(base)
    }

    /// The space of an expression of kind 2.
    fn space_of(&self, expression: u16) -> u8 {
        let global = self.sheet.expressions[usize::from(expression)].number;
        self.module.spaces[usize::from(global)]
    }

    /// The capability bit that a non-uniform index asks for; all of them where the base is no global.
    fn asked(&self, sub: u8, base: u16) -> u8 {
        match sub {
            1 => 2,
            2 => 1,
            _ if !self.globals.contains(&base) => 15,
            _ if self.space_of(base) == 6 => 4,
            _ => 8,
        }
    }

    fn sample(&mut self) {
        if self.ends.is_empty() || self.known.pairs + self.known.mixed >= MOST_PAIRS {
            return self.add(0, 0, 0, &[], true);
        }
        let mut ends = [self.random.pick(&self.ends), self.random.pick(&self.ends)];
        if self.slips(Slip::Tracing) && self.random.one_in(3) {
            ends[self.random.below(2)] = self.any();
        }
        self.mark_pair(ends);
        let sub = self.random.below(5) as u8;
        let mut operands = ends.to_vec();
        operands.push(self.any());
        operands.push(self.any_or_absent());
        operands.push(if sub >= 2 { self.any() } else { ABSENT });
        operands.push(if sub == 4 { self.any() } else { ABSENT });
        operands.push(self.any_or_absent());
        operands.push(self.any_or_absent());
        self.add(13, sub, 0, &operands, true);
    }

    /// A pair with these ends enters: arguments among them become handles.
    fn mark_pair(&mut self, ends: [u16; 2]) {
        let is_mixed = ends.map(|end| self.mark_handle(end)).contains(&true);
        if is_mixed {
            self.known.mixed += 1;
        } else {
            self.known.pairs += 1;
        }
    }

    /// Whether this end is an argument, which from now on is a handle.
    fn mark_handle(&mut self, end: u16) -> bool {
        let record = self.sheet.expressions[usize::from(end)];
        if record.kind == 1 {
            self.known.handles[usize::from(record.number)] = true;
        }
        record.kind == 1
    }

    /// Some statements, each inside `around` others. `calm` says that no condition around is non-uniform.
    fn body(&mut self, around: usize, calm: bool) {
        let most = if around == 0 {
            self.statements_left
        } else {
            self.random.between(0, 5)
        };
        for _ in 0..most {
            if self.statements_left == 0 {
                return;
            }
            self.statement(around, calm);
        }
    }

    fn statement(&mut self, around: usize, calm: bool) {
        self.statements_left -= 1;
        if self.pool_is_full() {
            return self.emit(calm);
        }
        let deeper = around + 2 <= self.bounds.around && self.statements_left >= 2;
        let choice = match self.slip {
            Some(Slip::Exit) if !calm => self.random.pick(&[4, 4, 4, 6]),
            Some(Slip::Exit) if self.exited && self.random.one_in(2) => 0,
            Some(Slip::Condition | Slip::Exit) if deeper && self.random.one_in(2) => 12,
            _ if self.nests && deeper && self.random.one_in(2) => self.random.between(11, 15),
            _ => self.random.below(16),
        };
        match choice {
            0..=2 => self.emit(calm),
            3 => self.leaf(1, &[]),
            4 => self.exit(2, calm),
            5 => self.leaf(3, &[]),
            6 | 7 => self.exit(4, calm),
            8 => self.store(),
            9 | 10 => self.call(),
            11 if deeper => self.block(around, calm),
            12 | 13 if deeper => self.branch(around, calm),
            14 if deeper => self.switch(around, calm),
            15 if deeper => self.looped(around, calm),
            _ => self.emit(calm),
        }
    }

    fn leaf(&mut self, kind: u8, operands: &[u16]) {
        self.sheet.statement(kind, 0, operands);
    }

    /// A Kill or a Return, which leave a disruptor behind where there is one already.
    fn exit(&mut self, kind: u8, calm: bool) {
        self.exited |= !calm;
        if kind == 4 && self.random.one_in(2) {
            let operand = self.any();
            self.leaf(kind, &[operand]);
        } else {
            self.leaf(kind, &[]);
        }
    }

    /// A range that has no requirement which could be refused, unless that is the slip.
    fn emit(&mut self, calm: bool) {
        let count = self.sheet.expressions.len();
        let from = self.random.between(0, count);
        let most = self.random.between(from, count);
        let free = self.sheet.flag == 0
            || (calm && (!self.exited || self.slips(Slip::Exit)))
            || self.slips(Slip::Condition);
        let refusable = self.required[from..most]
            .iter()
            .position(|&required| required);
        let to = match refusable {
            Some(distance) if !free => from + distance,
            _ => most,
        };
        self.sheet.emit(from as u16, to as u16);
    }

    fn store(&mut self) {
        let operands = [self.any(), self.any()];
        self.leaf(5, &operands);
    }

    /// A Call, if its pairs are sure to fit and every handle can be given something that is traced.
    fn call(&mut self) {
        let lower = self.lower;
        let callee = match lower.len() {
            0 => return self.leaf(1, &[]),
            count => self.random.below(count),
        };
        let known = &lower[callee];
        let added = known.pairs + known.mixed;
        let fits = self.known.pairs + self.known.mixed + added <= MOST_PAIRS;
        let has_handles = known.handles.contains(&true);
        if !fits || (has_handles && self.ends.is_empty()) {
            return self.leaf(1, &[]);
        }
        let mut operands = Vec::new();
        for &is_handle in &known.handles {
            let careless = self.slips(Slip::Tracing) && self.random.one_in(3);
            let operand = if is_handle && !careless {
                let end = self.random.pick(&self.ends);
                self.mark_handle(end);
                end
            } else {
                self.any()
            };
            operands.push(operand);
        }
        // A mixed pair of the callee may become either; both bounds have to hold.
        self.known.pairs += added;
        self.known.mixed += known.mixed;
        self.exited = true;
        self.sheet.statement(6, callee as u16, &operands);
    }

    fn block(&mut self, around: usize, calm: bool) {
        let opened = self.sheet.open(7, 0, &[]);
        self.body(around + 1, calm);
        self.sheet.close(opened);
    }

    fn branch(&mut self, around: usize, calm: bool) {
        let condition = self.any();
        let calm = calm && self.uniform[usize::from(condition)];
        let opened = self.sheet.open(8, 0, &[condition]);
        self.two_arms(around, calm);
        self.sheet.close(opened);
    }

    fn looped(&mut self, around: usize, calm: bool) {
        let operand = self.any();
        let operands = [operand];
        let given = usize::from(self.random.one_in(2));
        let opened = self.sheet.open(10, 0, &operands[..given]);
        self.two_arms(around, calm);
        self.sheet.close(opened);
    }

    /// The two arms that an If or a Loop has to have; room for them was made sure of.
    fn two_arms(&mut self, around: usize, calm: bool) {
        self.statements_left -= 2;
        self.arm(around, calm, 0);
        self.arm(around, calm, 0);
    }

    fn switch(&mut self, around: usize, calm: bool) {
        let selector = self.any();
        let calm = calm && self.uniform[usize::from(selector)];
        let opened = self.sheet.open(9, 0, &[selector]);
        for _ in 0..self.random.between(0, 4) {
            if self.statements_left == 0 {
                break;
            }
            self.statements_left -= 1;
            let falls = u8::from(self.random.one_in(2));
            self.arm(around, calm, falls);
        }
        self.sheet.close(opened);
    }

    fn arm(&mut self, around: usize, calm: bool, sub: u8) {
        let opened = self.sheet.open(11, sub, &[]);
        self.body(around + 2, calm);
        self.sheet.close(opened);
    }
}
