//! Expression records (01, 4.1) as naga's expressions, each of the simplest that its kind stands for.

use files::{Expression as Record, Sheet, ABSENT};
use naga::{
    BinaryOperator, CooperativeData, CooperativeRole, CooperativeSize, DerivativeAxis,
    DerivativeControl, Expression, Function, Handle, ImageQuery, Literal, LocalVariable,
    MathFunction, Module, SampleLevel, Span, Type, UnaryOperator,
};

/// The handles of a function's expressions, by number.
pub struct Expressions {
    handles: Vec<Handle<Expression>>,
}

impl Expressions {
    /// Adds all of a sheet's expressions to a function.
    pub fn add(
        function: &mut Function,
        module: &Module,
        sheet: &Sheet,
        local: Handle<LocalVariable>,
        float: Handle<Type>,
    ) -> Option<Self> {
        let mut handles = Vec::new();
        for record in &sheet.expressions {
            let reader = Reader {
                module,
                local,
                float,
                record,
                operands: release::operands(sheet, record.first, record.count),
                earlier: &handles,
            };
            let expression = reader.expression()?;
            handles.push(function.expressions.append(expression, Span::UNDEFINED));
        }
        Some(Expressions { handles })
    }

    pub fn get(&self, number: u16) -> Option<Handle<Expression>> {
        self.handles.get(usize::from(number)).copied()
    }

    pub fn all(&self) -> &[Handle<Expression>] {
        &self.handles
    }
}

/// One record, and what it may name.
struct Reader<'a> {
    module: &'a Module,
    local: Handle<LocalVariable>,
    float: Handle<Type>,
    record: &'a Record,
    operands: &'a [u16],
    earlier: &'a [Handle<Expression>],
}

impl Reader<'_> {
    /// Nothing where the kind or an operand isn't there; the idle fields are for `convert` to bring back.
    fn expression(&self) -> Option<Expression> {
        let number = self.record.number;
        Some(match self.record.kind {
            0 => Expression::Literal(Literal::U32(0)),
            1 => Expression::FunctionArgument(u32::from(number)),
            2 => {
                let mut globals = self.module.global_variables.iter();
                Expression::GlobalVariable(globals.nth(usize::from(number))?.0)
            }
            3 => Expression::LocalVariable(self.local),
            4 => {
                let mut functions = self.module.functions.iter();
                Expression::CallResult(functions.nth(usize::from(number))?.0)
            }
            5 => Expression::Access {
                base: self.operand(0)?,
                index: self.operand(1)?,
            },
            6 => Expression::AccessIndex {
                base: self.operand(0)?,
                index: 0,
            },
            7 => Expression::Unary {
                op: UnaryOperator::Negate,
                expr: self.operand(0)?,
            },
            8 => Expression::Derivative {
                axis: DerivativeAxis::X,
                ctrl: DerivativeControl::None,
                expr: self.operand(0)?,
            },
            9 => Expression::Binary {
                op: BinaryOperator::Add,
                left: self.operand(0)?,
                right: self.operand(1)?,
            },
            10 => Expression::Select {
                condition: self.operand(0)?,
                accept: self.operand(1)?,
                reject: self.operand(2)?,
            },
            11 => Expression::Compose {
                ty: self.float,
                components: (0..self.operands.len())
                    .map(|place| self.operand(place))
                    .collect::<Option<_>>()?,
            },
            12 => self.math()?,
            13 => self.sampling()?,
            14 => Expression::ImageLoad {
                image: self.operand(0)?,
                coordinate: self.operand(1)?,
                array_index: self.optional(2)?,
                sample: self.optional(3)?,
                level: self.optional(4)?,
            },
            15 => Expression::ImageQuery {
                image: self.operand(0)?,
                query: match self.optional(1)? {
                    Some(level) => ImageQuery::Size { level: Some(level) },
                    None => ImageQuery::NumLevels,
                },
            },
            16 => Expression::ArrayLength(self.operand(0)?),
            17 => self.cooperative_load()?,
            18 => Expression::CooperativeMultiplyAdd {
                a: self.operand(0)?,
                b: self.operand(1)?,
                c: self.operand(2)?,
            },
            _ => return None,
        })
    }

    /// The type that a Math gives depends on its first two operands alone.
    fn math(&self) -> Option<Expression> {
        let arg1 = self.optional(1)?;
        Some(Expression::Math {
            fun: match arg1 {
                Some(_) => MathFunction::Max,
                None => MathFunction::Abs,
            },
            arg: self.operand(0)?,
            arg1,
            arg2: self.optional(2)?,
            arg3: self.optional(3)?,
        })
    }

    fn sampling(&self) -> Option<Expression> {
        Some(Expression::ImageSample {
            image: self.operand(0)?,
            sampler: self.operand(1)?,
            gather: None,
            coordinate: self.operand(2)?,
            array_index: self.optional(3)?,
            offset: self.optional(7)?,
            level: match self.record.sub {
                0 => SampleLevel::Auto,
                1 => SampleLevel::Zero,
                2 => SampleLevel::Exact(self.operand(4)?),
                3 => SampleLevel::Bias(self.operand(4)?),
                _ => SampleLevel::Gradient {
                    x: self.operand(4)?,
                    y: self.operand(5)?,
                },
            },
            depth_ref: self.optional(6)?,
            clamp_to_edge: false,
        })
    }

    fn cooperative_load(&self) -> Option<Expression> {
        Some(Expression::CooperativeLoad {
            columns: CooperativeSize::Eight,
            rows: CooperativeSize::Eight,
            role: CooperativeRole::C,
            data: CooperativeData {
                pointer: self.operand(0)?,
                stride: self.operand(1)?,
                row_major: false,
            },
        })
    }

    /// A present operand that names an earlier expression.
    fn operand(&self, place: usize) -> Option<Handle<Expression>> {
        let &number = self.operands.get(place)?;
        self.earlier.get(usize::from(number)).copied()
    }

    fn optional(&self, place: usize) -> Option<Option<Handle<Expression>>> {
        match self.operands.get(place)? {
            &ABSENT => Some(None),
            _ => self.operand(place).map(Some),
        }
    }
}
