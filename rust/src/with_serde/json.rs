//! Values of the crate serde_json, with the feature `serde_json`.

use serde_json::{Map, Number, Value};

use crate::de::{Error, Result};
use crate::{Bson, Document};

/// An object of these members.
fn object<const N: usize>(members: [(&str, Value); N]) -> Value {
    Value::Object(members.into_iter().map(|(key, value)| (key.to_owned(), value)).collect())
}

fn one(key: &str, value: impl Into<Value>) -> Value {
    object([(key, value.into())])
}

/// A double as Extended JSON writes it in a string.
fn double_text(number: f64) -> String {
    if number.is_finite() {
        format!("{number:?}")
    } else {
        number.to_string().replace("inf", "Infinity")
    }
}

fn map(document: Document, is_canonical: bool) -> Map<String, Value> {
    document.into_iter().map(|(key, value)| (key, extended(value, is_canonical))).collect()
}

/// A value as Extended JSON has it, canonical or relaxed. What has one form alone is written by its `Serialize`.
fn extended(value: Bson, is_canonical: bool) -> Value {
    match value {
        Bson::Array(values) => values.into_iter().map(|value| extended(value, is_canonical)).collect(),
        Bson::Document(document) => Value::Object(map(document, is_canonical)),
        Bson::JavaScriptCodeWithScope(code) => {
            object([("$code", code.code.into()), ("$scope", Value::Object(map(code.scope, is_canonical)))])
        }
        Bson::Double(number) => match Number::from_f64(number) {
            Some(number) if !is_canonical => Value::Number(number),
            _ => one("$numberDouble", double_text(number)),
        },
        Bson::Int32(number) if is_canonical => one("$numberInt", number.to_string()),
        Bson::Int64(number) if is_canonical => one("$numberLong", number.to_string()),
        Bson::DateTime(time) if !is_canonical && time.timestamp_millis() >= 0 => match time.try_to_rfc3339_string() {
            Ok(text) => one("$date", text),
            Err(_) => one("$date", one("$numberLong", time.timestamp_millis().to_string())),
        },
        leaf => serde_json::to_value(leaf).unwrap_or_default(),
    }
}

impl Bson {
    /// The value as relaxed Extended JSON.
    ///
    /// ```
    /// let value = bsonraw::bson!({ "a": 1, "at": bsonraw::DateTime::from_millis(5) });
    /// let wanted = serde_json::json!({ "a": 1, "at": { "$date": "1970-01-01T00:00:00.005Z" } });
    /// assert_eq!(value.into_relaxed_extjson(), wanted);
    /// ```
    pub fn into_relaxed_extjson(self) -> Value {
        extended(self, false)
    }

    /// The value as canonical Extended JSON.
    ///
    /// ```
    /// let value = bsonraw::bson!({ "a": 1 });
    /// assert_eq!(value.into_canonical_extjson(), serde_json::json!({ "a": { "$numberInt": "1" } }));
    /// ```
    pub fn into_canonical_extjson(self) -> Value {
        extended(self, true)
    }
}

/// Relaxed Extended JSON.
impl From<Bson> for Value {
    fn from(value: Bson) -> Value {
        value.into_relaxed_extjson()
    }
}

/// The value that Extended JSON says, canonical or relaxed.
impl TryFrom<Value> for Bson {
    type Error = Error;

    fn try_from(value: Value) -> Result<Bson> {
        serde_json::from_value(value).map_err(|error| Error::custom(error.to_string()))
    }
}

/// The document that Extended JSON says, canonical or relaxed.
impl TryFrom<Map<String, Value>> for Document {
    type Error = Error;

    fn try_from(members: Map<String, Value>) -> Result<Document> {
        serde_json::from_value(Value::Object(members)).map_err(|error| Error::custom(error.to_string()))
    }
}
