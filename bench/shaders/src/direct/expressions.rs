//! A function's expressions.

use super::palette::{Class, Palette};
use super::{Callee, Signature, Temper};
use crate::Random;
use naga::{
    BinaryOperator, CooperativeData, CooperativeRole, CooperativeSize, DerivativeAxis,
    DerivativeControl, Expression, Function, Handle, ImageQuery, Literal, LocalVariable,
    MathFunction, RelationalFunction, SampleLevel, ScalarKind, Span, SwizzleComponent, Type,
    UnaryOperator, VectorSize,
};

/// A function as it is built: its expressions first, then statements that use any of them.
pub struct Builder<'a> {
    pub(super) random: &'a mut Random,
    pub(super) temper: &'a Temper,
    pub(super) palette: &'a Palette,
    pub(super) callees: &'a [Callee],
    pub(super) function: Function,
    /// Every expression with its class.
    known: Vec<(Handle<Expression>, Class)>,
    /// Expressions that an entry point may store to.
    pub(super) writable: Vec<Handle<Expression>>,
    /// Expressions that want uniform control flow, or whose callee may.
    pub(super) requiring: Vec<Handle<Expression>>,
}

impl<'a> Builder<'a> {
    pub fn new(
        random: &'a mut Random,
        temper: &'a Temper,
        palette: &'a Palette,
        callees: &'a [Callee],
        own: &Signature,
        function: Function,
    ) -> Self {
        let mut builder = Builder {
            random,
            temper,
            palette,
            callees,
            function,
            known: Vec::new(),
            writable: Vec::new(),
            requiring: Vec::new(),
        };
        builder.leaves(own);
        builder
    }

    pub fn build(mut self) -> Function {
        for _ in 0..self.random.between(3, self.temper.bounds.expressions) {
            // A draw for which there are no operands yet adds nothing.
            let _ = self.step();
        }
        self.function.body = self.body();
        self.name_some();
        self.function
    }

    pub(super) fn add(&mut self, expression: Expression, class: Class) -> Handle<Expression> {
        let handle = self
            .function
            .expressions
            .append(expression, Span::UNDEFINED);
        self.known.push((handle, class));
        handle
    }

    /// Any expression; there is always one.
    pub(super) fn any(&mut self) -> Handle<Expression> {
        self.known[self.random.below(self.known.len())].0
    }

    pub(super) fn find(&mut self, class: Class) -> Option<Handle<Expression>> {
        self.find_among(&[class]).map(|found| found.0)
    }

    /// An operand for a callee's argument of this class: where the module is given to it, sometimes one that
    /// can't be traced.
    pub(super) fn argument(&mut self, class: Class) -> Option<Handle<Expression>> {
        let chosen = match class {
            Class::Image => Class::ChosenImage,
            Class::Sampler => Class::ChosenSampler,
            _ => class,
        };
        if self.temper.chosen_in_calls && self.random.chance(30) {
            if let Some(found) = self.find(chosen) {
                return Some(found);
            }
        }
        self.find(class)
    }

    fn find_among(&mut self, classes: &[Class]) -> Option<(Handle<Expression>, Class)> {
        let fitting: Vec<_> = self
            .known
            .iter()
            .filter(|known| classes.contains(&known.1))
            .collect();
        self.random.pick(&fitting).map(|&&found| found)
    }

    fn perhaps(&mut self, percent: usize, class: Class) -> Option<Handle<Expression>> {
        if self.random.chance(percent) {
            self.find(class)
        } else {
            None
        }
    }

    /// What needs no operands. A literal of each class that others build on comes first.
    fn leaves(&mut self, own: &Signature) {
        let palette = self.palette;
        self.add(Expression::Literal(Literal::F32(0.5)), Class::Float);
        self.add(Expression::Literal(Literal::U32(1)), Class::Uint);
        self.add(Expression::Literal(Literal::Bool(true)), Class::Bool);
        self.add(Expression::ZeroValue(palette.vec2), Class::Vec2);
        for (number, &class) in own.arguments.iter().enumerate() {
            self.add(Expression::FunctionArgument(number as u32), class);
        }
        for global in &palette.globals {
            if self.random.chance(75) {
                let handle = self.add(Expression::GlobalVariable(global.handle), global.class);
                if global.writable {
                    self.writable.push(handle);
                }
            }
        }
        for _ in 0..self.random.below(3) {
            self.local(palette.array);
        }
    }

    fn local(&mut self, ty: Handle<Type>) {
        let init = self
            .random
            .chance(50)
            .then(|| self.add(Expression::ZeroValue(ty), Class::Other));
        let variable = LocalVariable {
            name: None,
            ty,
            init,
        };
        let variable = self
            .function
            .local_variables
            .append(variable, Span::UNDEFINED);
        let handle = self.add(Expression::LocalVariable(variable), Class::ArrayPointer);
        self.writable.push(handle);
    }

    /// Adds one expression with operands, if the draw finds them.
    fn step(&mut self) -> Option<()> {
        let chosen = self.temper.chosen_in_calls || self.temper.chosen_in_samplings;
        if chosen && self.random.chance(20) {
            return self.choose();
        }
        match self.random.below(26) {
            0..=4 => self.access(),
            5 | 6 => self.load(),
            7 => self.unary(),
            8 | 9 => self.binary(),
            10 => self.select_between(Class::Float, Class::Float),
            11 => self.compose(),
            12 | 13 => self.math(),
            14..=17 => self.sample(),
            18 => self.image_load(),
            19 => self.query(),
            20 => self.leaf_result(),
            21 | 22 => self.call_result(),
            23 => self.derivative(),
            _ => self.cooperative(),
        }
    }

    fn access(&mut self) -> Option<()> {
        const INDEXABLE: [Class; 9] = [
            Class::Vec2,
            Class::Vec4,
            Class::Uint3,
            Class::ArrayPointer,
            Class::Images,
            Class::Samplers,
            Class::StorageImages,
            Class::Structures,
            Class::Buffers,
        ];
        if self.random.chance(20) {
            let base = self.find(Class::StructPointer)?;
            self.add(
                Expression::AccessIndex { base, index: 0 },
                Class::ArrayPointer,
            );
            return Some(());
        }
        let (base, class) = self.find_among(&INDEXABLE)?;
        let element = class.element()?;
        let expression = if self.random.chance(30) {
            Expression::AccessIndex { base, index: 1 }
        } else {
            let index = self.find(Class::Uint)?;
            Expression::Access { base, index }
        };
        self.add(expression, element);
        Some(())
    }

    fn load(&mut self) -> Option<()> {
        let pointer = self.find(Class::Pointer)?;
        self.add(Expression::Load { pointer }, Class::Float);
        Some(())
    }

    fn unary(&mut self) -> Option<()> {
        let float = self.find(Class::Float)?;
        let (expression, class) = match self.random.below(5) {
            0 => (
                Expression::Unary {
                    op: UnaryOperator::Negate,
                    expr: float,
                },
                Class::Float,
            ),
            1 => (
                Expression::As {
                    expr: float,
                    kind: ScalarKind::Uint,
                    convert: Some(4),
                },
                Class::Uint,
            ),
            2 => (
                Expression::Relational {
                    fun: RelationalFunction::IsNan,
                    argument: float,
                },
                Class::Bool,
            ),
            3 => (
                Expression::Splat {
                    size: VectorSize::Quad,
                    value: float,
                },
                Class::Vec4,
            ),
            _ => (
                Expression::Swizzle {
                    size: VectorSize::Bi,
                    vector: self.find(Class::Vec4)?,
                    pattern: [SwizzleComponent::Y; 4],
                },
                Class::Vec2,
            ),
        };
        self.add(expression, class);
        Some(())
    }

    fn binary(&mut self) -> Option<()> {
        let (op, operands, class) = match self.random.below(3) {
            0 => (BinaryOperator::Add, Class::Float, Class::Float),
            1 => (BinaryOperator::Less, Class::Float, Class::Bool),
            _ => (BinaryOperator::ExclusiveOr, Class::Uint, Class::Uint),
        };
        let left = self.find(operands)?;
        let right = self.find(operands)?;
        self.add(Expression::Binary { op, left, right }, class);
        Some(())
    }

    /// A choice between images or samplers, or an element of a chosen binding array: nothing that can be
    /// traced.
    fn choose(&mut self) -> Option<()> {
        match self.random.below(5) {
            0 | 1 => self.select_between(Class::Image, Class::ChosenImage),
            2 | 3 => self.select_between(Class::Sampler, Class::ChosenSampler),
            _ => {
                self.select_between(Class::Images, Class::Other)?;
                let base = self.known.last()?.0;
                let index = self.find(Class::Uint)?;
                self.add(Expression::Access { base, index }, Class::ChosenImage);
                Some(())
            }
        }
    }

    fn select_between(&mut self, class: Class, result: Class) -> Option<()> {
        let expression = Expression::Select {
            condition: self.find(Class::Bool)?,
            accept: self.find(class)?,
            reject: self.find(class)?,
        };
        self.add(expression, result);
        Some(())
    }

    fn compose(&mut self) -> Option<()> {
        let components = (0..4)
            .map(|_| self.find(Class::Float))
            .collect::<Option<_>>()?;
        let expression = Expression::Compose {
            ty: self.palette.vec4,
            components,
        };
        self.add(expression, Class::Vec4);
        Some(())
    }

    fn math(&mut self) -> Option<()> {
        let (fun, count, class) = match self.random.below(4) {
            0 => (MathFunction::Abs, 1, Class::Float),
            1 => (MathFunction::Max, 2, Class::Float),
            2 => (MathFunction::Fma, 3, Class::Float),
            _ => (MathFunction::InsertBits, 4, Class::Uint),
        };
        let mut draw = |place: usize| match place < count {
            true => self.find(class),
            false => None,
        };
        let expression = Expression::Math {
            fun,
            arg: draw(0)?,
            arg1: draw(1),
            arg2: draw(2),
            arg3: draw(3),
        };
        self.add(expression, class);
        Some(())
    }

    fn sample(&mut self) -> Option<()> {
        let (images, samplers): (&[Class], &[Class]) = if self.temper.chosen_in_samplings {
            (
                &[Class::Image, Class::DepthImage, Class::ChosenImage],
                &[Class::Sampler, Class::ChosenSampler],
            )
        } else {
            (&[Class::Image, Class::DepthImage], &[Class::Sampler])
        };
        let (image, class) = self.find_among(images)?;
        let (sampler, _) = self.find_among(samplers)?;
        let expression = Expression::ImageSample {
            image,
            sampler,
            gather: None,
            coordinate: self.find(Class::Vec2)?,
            array_index: self.perhaps(30, Class::Uint),
            offset: self.perhaps(30, Class::Vec2),
            level: self.level()?,
            depth_ref: self.perhaps(30, Class::Float),
            clamp_to_edge: false,
        };
        let sampled = match class {
            Class::DepthImage => Class::Float,
            _ => Class::Vec4,
        };
        self.add(expression, sampled);
        Some(())
    }

    fn level(&mut self) -> Option<SampleLevel> {
        Some(match self.random.below(5) {
            0 => SampleLevel::Auto,
            1 => SampleLevel::Zero,
            2 => SampleLevel::Exact(self.find(Class::Float)?),
            3 => SampleLevel::Bias(self.find(Class::Float)?),
            _ => SampleLevel::Gradient {
                x: self.find(Class::Vec2)?,
                y: self.find(Class::Vec2)?,
            },
        })
    }

    fn image_load(&mut self) -> Option<()> {
        let (image, _) = self.find_among(&[Class::Image, Class::StorageImage])?;
        let expression = Expression::ImageLoad {
            image,
            coordinate: self.find(Class::Vec2)?,
            array_index: self.perhaps(30, Class::Uint),
            sample: self.perhaps(30, Class::Uint),
            level: self.perhaps(30, Class::Uint),
        };
        self.add(expression, Class::Vec4);
        Some(())
    }

    fn query(&mut self) -> Option<()> {
        const LENGTHS: [Class; 2] = [Class::ArrayPointer, Class::Pointer];
        const IMAGES: [Class; 3] = [Class::Image, Class::DepthImage, Class::StorageImage];
        if self.random.chance(50) {
            let (array, _) = self.find_among(&LENGTHS)?;
            self.add(Expression::ArrayLength(array), Class::Uint);
            return Some(());
        }
        let (image, _) = self.find_among(&IMAGES)?;
        let (query, class) = match self.random.below(3) {
            0 => {
                let level = self.perhaps(60, Class::Uint);
                (ImageQuery::Size { level }, Class::Other)
            }
            1 => (ImageQuery::NumLevels, Class::Uint),
            _ => (ImageQuery::NumLayers, Class::Uint),
        };
        self.add(Expression::ImageQuery { image, query }, class);
        Some(())
    }

    /// What statements leave behind that 01 has no kind for; all but one of them are leaves.
    fn leaf_result(&mut self) -> Option<()> {
        let ty = self.palette.float;
        let (expression, class) = match self.random.below(6) {
            0 => (
                Expression::AtomicResult {
                    ty,
                    comparison: false,
                },
                Class::Float,
            ),
            1 => (Expression::WorkGroupUniformLoadResult { ty }, Class::Float),
            2 => (Expression::RayQueryProceedResult, Class::Bool),
            3 => (Expression::SubgroupBallotResult, Class::Other),
            4 => {
                let query = self.any();
                let committed = true;
                (
                    Expression::RayQueryGetIntersection { query, committed },
                    Class::Other,
                )
            }
            _ => (Expression::SubgroupOperationResult { ty }, Class::Float),
        };
        self.add(expression, class);
        Some(())
    }

    /// A result without its Call: it has the callee's origin and requirements all the same.
    fn call_result(&mut self) -> Option<()> {
        let callees = self.callees;
        let giving: Vec<_> = callees
            .iter()
            .filter(|callee| callee.signature.result)
            .collect();
        let callee = self.random.pick(&giving)?.handle;
        let handle = self.add(Expression::CallResult(callee), Class::Float);
        if self.temper.requiring {
            self.requiring.push(handle);
        }
        Some(())
    }

    fn derivative(&mut self) -> Option<()> {
        let expression = Expression::Derivative {
            axis: DerivativeAxis::Width,
            ctrl: DerivativeControl::Fine,
            expr: self.find(Class::Float)?,
        };
        self.add(expression, Class::Float);
        Some(())
    }

    fn cooperative(&mut self) -> Option<()> {
        if !self.temper.requiring {
            return None;
        }
        let expression = if self.random.chance(60) {
            Expression::CooperativeLoad {
                columns: CooperativeSize::Eight,
                rows: CooperativeSize::Eight,
                role: CooperativeRole::C,
                data: CooperativeData {
                    pointer: self.find(Class::Pointer)?,
                    stride: self.find(Class::Uint)?,
                    row_major: false,
                },
            }
        } else {
            Expression::CooperativeMultiplyAdd {
                a: self.find(Class::Matrix)?,
                b: self.find(Class::Matrix)?,
                c: self.find(Class::Matrix)?,
            }
        };
        let handle = self.add(expression, Class::Matrix);
        self.requiring.push(handle);
        Some(())
    }

    /// Names for some expressions, in no particular order.
    fn name_some(&mut self) {
        for number in 0..self.random.below(4) {
            let handle = self.any();
            self.function
                .named_expressions
                .insert(handle, format!("named{number}"));
        }
    }
}
