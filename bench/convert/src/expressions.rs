//! Expression records (01, 4.1).

use crate::{codes, number};
use files::{Sheet, ABSENT};
use naga::{Expression as E, Handle, ImageQuery, SampleLevel};

/// Adds the record of one expression; `access_sub` says what an Access reaches into, given its base.
pub fn add(sheet: &mut Sheet, expression: &E, access_sub: impl FnOnce(Handle<E>) -> u8) {
    let mut put = |kind: u8, operands: &[u16]| sheet.expression(kind, 0, 0, operands);
    match *expression {
        E::Literal(_)
        | E::Constant(_)
        | E::Override(_)
        | E::ZeroValue(_)
        | E::WorkGroupUniformLoadResult { .. } => put(0, &[]),
        E::FunctionArgument(argument) => sheet.expression(1, 0, argument as u16, &[]),
        E::GlobalVariable(global) => sheet.expression(2, 0, number(global), &[]),
        E::LocalVariable(_)
        | E::AtomicResult { .. }
        | E::RayQueryProceedResult
        | E::SubgroupBallotResult
        | E::SubgroupOperationResult { .. } => put(3, &[]),
        E::CallResult(function) => sheet.expression(4, 0, number(function), &[]),
        E::Access { base, index } => {
            sheet.expression(5, access_sub(base), 0, &[number(base), number(index)])
        }
        E::AccessIndex { base, .. } => put(6, &[number(base)]),
        E::Splat { value: operand, .. }
        | E::Swizzle {
            vector: operand, ..
        }
        | E::Unary { expr: operand, .. }
        | E::Relational {
            argument: operand, ..
        }
        | E::As { expr: operand, .. }
        | E::Load { pointer: operand }
        | E::RayQueryGetIntersection { query: operand, .. }
        | E::RayQueryVertexPositions { query: operand, .. } => put(7, &[number(operand)]),
        E::Derivative { expr, .. } => put(8, &[number(expr)]),
        E::Binary { left, right, .. } => put(9, &[number(left), number(right)]),
        E::Select {
            condition,
            accept,
            reject,
        } => put(10, &[number(condition), number(accept), number(reject)]),
        E::Compose { ref components, .. } => {
            let operands: Vec<u16> = components.iter().copied().map(number).collect();
            put(11, &operands)
        }
        E::Math {
            arg,
            arg1,
            arg2,
            arg3,
            ..
        } => put(
            12,
            &[number(arg), optional(arg1), optional(arg2), optional(arg3)],
        ),
        E::ImageSample {
            image,
            sampler,
            coordinate,
            array_index,
            level,
            depth_ref,
            offset,
            ..
        } => {
            let (level_1, level_2) = levels(level);
            sheet.expression(
                13,
                codes::level(level),
                0,
                &[
                    number(image),
                    number(sampler),
                    number(coordinate),
                    optional(array_index),
                    level_1,
                    level_2,
                    optional(depth_ref),
                    optional(offset),
                ],
            )
        }
        E::ImageLoad {
            image,
            coordinate,
            array_index,
            sample,
            level,
        } => put(
            14,
            &[
                number(image),
                number(coordinate),
                optional(array_index),
                optional(sample),
                optional(level),
            ],
        ),
        E::ImageQuery { image, query } => put(15, &[number(image), query_level(query)]),
        E::ArrayLength(array) => put(16, &[number(array)]),
        E::CooperativeLoad { ref data, .. } => {
            put(17, &[number(data.pointer), number(data.stride)])
        }
        E::CooperativeMultiplyAdd { a, b, c } => put(18, &[number(a), number(b), number(c)]),
    };
}

fn optional(operand: Option<Handle<E>>) -> u16 {
    operand.map_or(ABSENT, number)
}

/// Level 1 and level 2 of a sampling (01, 4.2).
fn levels(level: SampleLevel) -> (u16, u16) {
    match level {
        SampleLevel::Auto | SampleLevel::Zero => (ABSENT, ABSENT),
        SampleLevel::Exact(only) | SampleLevel::Bias(only) => (number(only), ABSENT),
        SampleLevel::Gradient { x, y } => (number(x), number(y)),
    }
}

fn query_level(query: ImageQuery) -> u16 {
    match query {
        ImageQuery::Size { level } => optional(level),
        ImageQuery::NumLevels | ImageQuery::NumLayers | ImageQuery::NumSamples => ABSENT,
    }
}
