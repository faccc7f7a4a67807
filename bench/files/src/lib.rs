//! Module files of document 01 as plain data.
//!
//! A [`ModuleFile`] says what stands in a file, part by part; [`ModuleFile::encode`] gives its bytes.
//! Nothing here checks a rule: a file that the analyzer must refuse is made as easily as one it accepts.

pub mod damage;
mod generator;
pub mod random;
pub mod shapes;
pub mod valid;

pub use generator::{Generator, Size};

/// Operand 65535 means absent.
pub const ABSENT: u16 = 65535;

/// A whole module file (01, section 1).
#[derive(Clone, Debug, Default, PartialEq, Eq)]
pub struct ModuleFile {
    pub capabilities: u8,
    /// One space byte a global.
    pub spaces: Vec<u8>,
    pub sheets: Vec<Sheet>,
}

/// What one function's sheet holds.
#[derive(Clone, Debug, Default, PartialEq, Eq)]
pub struct Sheet {
    /// Bit 0: check control flow.
    pub flag: u8,
    pub arguments: Vec<u8>,
    pub expressions: Vec<Expression>,
    /// The operand pool.
    pub operands: Vec<u16>,
    pub statements: Vec<Statement>,
    pub initialisers: Vec<u16>,
    pub named: Vec<u16>,
}

#[derive(Clone, Copy, Debug, Default, PartialEq, Eq)]
pub struct Expression {
    pub kind: u8,
    pub sub: u8,
    pub number: u16,
    pub first: u16,
    pub count: u16,
}

#[derive(Clone, Copy, Debug, Default, PartialEq, Eq)]
pub struct Statement {
    pub kind: u8,
    pub sub: u8,
    pub number: u16,
    pub end: u16,
    pub first: u16,
    pub count: u16,
}

impl Sheet {
    /// Adds an expression whose operands go to the end of the pool; answers its number.
    pub fn expression(&mut self, kind: u8, sub: u8, number: u16, operands: &[u16]) -> u16 {
        let first = self.pooled(operands);
        self.expressions.push(Expression {
            kind,
            sub,
            number,
            first,
            count: operands.len() as u16,
        });
        (self.expressions.len() - 1) as u16
    }

    /// Adds a statement that holds no others; answers its number.
    pub fn statement(&mut self, kind: u8, number: u16, operands: &[u16]) -> u16 {
        let first = self.pooled(operands);
        let end = self.statements.len() as u16 + 1;
        self.statements.push(Statement {
            kind,
            sub: 0,
            number,
            end,
            first,
            count: operands.len() as u16,
        });
        end - 1
    }

    /// Adds an Emit of the expressions from `from` up to, without, `to`.
    pub fn emit(&mut self, from: u16, to: u16) -> u16 {
        let end = self.statements.len() as u16 + 1;
        self.statements.push(Statement {
            kind: 0,
            sub: 0,
            number: from,
            end,
            first: to,
            count: 0,
        });
        end - 1
    }

    /// Opens a statement that holds others; [`Sheet::close`] sets its end.
    pub fn open(&mut self, kind: u8, sub: u8, operands: &[u16]) -> u16 {
        let at = self.statement(kind, 0, operands);
        self.statements[at as usize].sub = sub;
        at
    }

    /// Everything since `opened` lies inside it.
    pub fn close(&mut self, opened: u16) {
        self.statements[opened as usize].end = self.statements.len() as u16;
    }

    fn pooled(&mut self, operands: &[u16]) -> u16 {
        if operands.is_empty() {
            return 0;
        }
        let first = self.operands.len() as u16;
        self.operands.extend_from_slice(operands);
        first
    }

    /// The bytes that the sheet takes in a file.
    pub fn encoded_len(&self) -> usize {
        17 + self.arguments.len()
            + 8 * self.expressions.len()
            + 2 * self.operands.len()
            + 10 * self.statements.len()
            + 2 * (self.initialisers.len() + self.named.len())
    }

    fn encode(&self, out: &mut Vec<u8>) {
        let start = out.len();
        put32(out, 0);
        out.push(self.flag);
        for count in [
            self.arguments.len(),
            self.expressions.len(),
            self.operands.len(),
            self.statements.len(),
            self.initialisers.len(),
            self.named.len(),
        ] {
            put16(out, count as u16);
        }
        out.extend_from_slice(&self.arguments);
        for e in &self.expressions {
            out.push(e.kind);
            out.push(e.sub);
            put16(out, e.number);
            put16(out, e.first);
            put16(out, e.count);
        }
        for &x in &self.operands {
            put16(out, x);
        }
        for s in &self.statements {
            out.push(s.kind);
            out.push(s.sub);
            put16(out, s.number);
            put16(out, s.end);
            put16(out, s.first);
            put16(out, s.count);
        }
        for &x in self.initialisers.iter().chain(&self.named) {
            put16(out, x);
        }
        let length = (out.len() - start - 4) as u32;
        out[start..start + 4].copy_from_slice(&length.to_be_bytes());
    }
}

impl ModuleFile {
    /// The file's bytes, every length field as its parts have it.
    pub fn encode(&self) -> Vec<u8> {
        let mut out = Vec::new();
        put32(&mut out, 0);
        out.push(1);
        out.push(self.capabilities);
        put16(&mut out, self.spaces.len() as u16);
        put16(&mut out, self.sheets.len() as u16);
        out.extend_from_slice(&self.spaces);
        for sheet in &self.sheets {
            sheet.encode(&mut out);
        }
        let length = (out.len() - 4) as u32;
        out[..4].copy_from_slice(&length.to_be_bytes());
        out
    }
}

fn put16(out: &mut Vec<u8>, x: u16) {
    out.extend_from_slice(&x.to_be_bytes());
}

fn put32(out: &mut Vec<u8>, x: u32) {
    out.extend_from_slice(&x.to_be_bytes());
}
