//! Programs from a seed, made to reach every comparable rule of document 01 often.
//!
//! [`wgsl::program`] writes WGSL: images and samplers that go down call chains, binding arrays, every kind
//! of sampling, barriers, discards and nested control flow. [`direct::module`] builds naga modules for
//! what WGSL can't say: ends that can't be traced, arms that fall through, results that are emitted
//! again, every address space. [`loops`] makes both of functions that are mostly loops. The same seed gives the same
//! program on every machine.

pub mod direct;
pub mod loops;
mod random;
pub mod wgsl;

pub use random::Random;
