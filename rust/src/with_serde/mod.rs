//! serde: values of any type that has `Serialize` or `Deserialize`, to and from BSON, and these traits for the types of this crate.
//!
//! In BSON each type of this crate has its own kind. In a format that people read, such as JSON, those that JSON lacks are written as
//! Extended JSON has them, and read from there.

mod deserializer;
#[cfg(feature = "serde_json")]
mod json;
mod lane;
mod serializer;
mod types;
mod value;
mod wrapper;

pub(crate) use deserializer::Deserializer;
pub(crate) use serializer::Serializer;

/// Names that the crate bson has for its documents, arrays, values and UUIDs, so that BSON goes from the one to the other as it is.
const RAW_DOCUMENT: &str = "$__private__bson_RawDocument";
const RAW_ARRAY: &str = "$__private__bson_RawArray";
const RAW_BSON: &str = "$__private__bson_RawBson";
const UUID: &str = "$__bson_private_uuid";

/// The key under which a value is handed to what asked by the name of one.
const LANE: &str = "$__private__bsonraw_value";
