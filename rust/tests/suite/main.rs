//! The tests of the crate; examples in its comments are others.

mod examples;
mod made;
mod maker;
mod memory;
mod plain;
mod printed;
mod rows;
mod texts;
mod uuids;
