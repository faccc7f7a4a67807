//! The reference held against document 01, case by case and sentence by sentence.

mod cases;
mod common;
mod differences;
mod numbers;
mod properties;
mod refusals;
mod statements;
