//! Tests of the feature serde.

mod bytes;
mod helpers;
mod json;
#[path = "../../../tests/suite/maker.rs"]
mod maker;
mod types;
