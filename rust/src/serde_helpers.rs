//! Functions and modules for the attributes `serialize_with`, `deserialize_with` and `with` of serde, with the names of the crate `bson`.
//!
//! ```
//! use bsonraw::{oid::ObjectId, rawdoc, serde_helpers, DateTime};
//! use serde::{Deserialize, Serialize};
//!
//! #[derive(Deserialize, Serialize)]
//! struct Note {
//!     #[serde(with = "serde_helpers::hex_string_as_object_id")]
//!     id: String,
//!     #[serde(with = "serde_helpers::rfc3339_string_as_bson_datetime")]
//!     at: String,
//!     #[serde(serialize_with = "serde_helpers::serialize_u32_as_i32")]
//!     stars: u32,
//! }
//!
//! let note = Note { id: "507f1f77bcf86cd799439011".into(), at: "2012-12-24T12:15:30Z".into(), stars: 5 };
//! let raw = bsonraw::to_raw_document_buf(&note)?;
//! let id = ObjectId::parse_str("507f1f77bcf86cd799439011")?;
//! assert_eq!(raw, rawdoc! { "id": id, "at": DateTime::from_millis(1_356_351_330_000), "stars": 5 });
//! assert_eq!(bsonraw::from_slice::<Note>(raw.as_bytes())?.at, "2012-12-24T12:15:30Z");
//! # Ok::<(), Box<dyn std::error::Error>>(())
//! ```

use serde::ser::{self, Serialize, Serializer};

use crate::oid::ObjectId;

pub use bson_datetime_as_rfc3339_string::{
    deserialize as deserialize_bson_datetime_from_rfc3339_string,
    serialize as serialize_bson_datetime_as_rfc3339_string,
};
pub use hex_string_as_object_id::{
    deserialize as deserialize_hex_string_from_object_id, serialize as serialize_hex_string_as_object_id,
};
pub use i64_as_bson_datetime::{
    deserialize as deserialize_i64_from_bson_datetime, serialize as serialize_i64_as_bson_datetime,
};
pub use rfc3339_string_as_bson_datetime::{
    deserialize as deserialize_rfc3339_string_from_bson_datetime,
    serialize as serialize_rfc3339_string_as_bson_datetime,
};
pub use timestamp_as_u32::{deserialize as deserialize_timestamp_from_u32, serialize as serialize_timestamp_as_u32};
pub use u32_as_f64::{deserialize as deserialize_u32_from_f64, serialize as serialize_u32_as_f64};
pub use u32_as_timestamp::{deserialize as deserialize_u32_from_timestamp, serialize as serialize_u32_as_timestamp};
pub use u64_as_f64::{deserialize as deserialize_u64_from_f64, serialize as serialize_u64_as_f64};

/// Writes a number with a sign, if it fits.
fn fitting<N, T, S: Serializer>(number: N, serializer: S) -> Result<S::Ok, S::Error>
where
    N: Copy + std::fmt::Display + TryInto<T>,
    T: Serialize,
{
    match number.try_into() {
        Ok(fitting) => fitting.serialize(serializer),
        Err(_) => Err(ser::Error::custom(format!("{number} is too large for {}", std::any::type_name::<T>()))),
    }
}

/// Writes a number as one of 32 bits. It fails if it is too large.
pub fn serialize_u32_as_i32<S: Serializer>(number: &u32, serializer: S) -> Result<S::Ok, S::Error> {
    fitting::<u32, i32, S>(*number, serializer)
}

/// Writes a number as one of 64 bits.
pub fn serialize_u32_as_i64<S: Serializer>(number: &u32, serializer: S) -> Result<S::Ok, S::Error> {
    serializer.serialize_i64((*number).into())
}

/// Writes a number as one of 32 bits. It fails if it is too large.
pub fn serialize_u64_as_i32<S: Serializer>(number: &u64, serializer: S) -> Result<S::Ok, S::Error> {
    fitting::<u64, i32, S>(*number, serializer)
}

/// Writes a number as one of 64 bits. It fails if it is too large.
pub fn serialize_u64_as_i64<S: Serializer>(number: &u64, serializer: S) -> Result<S::Ok, S::Error> {
    fitting::<u64, i64, S>(*number, serializer)
}

/// Writes an id as its 24 digits.
pub fn serialize_object_id_as_hex_string<S: Serializer>(id: &ObjectId, serializer: S) -> Result<S::Ok, S::Error> {
    serializer.serialize_str(&id.to_hex())
}

/// Declares a module whose functions write and read a number as a double, if that is the same.
macro_rules! as_double {
    ($name:ident, $of:ty, $what:literal) => {
        #[doc = $what]
        pub mod $name {
            use serde::de::{self, Deserialize, Deserializer};
            use serde::ser::{self, Serializer};

            /// Writes a number as a double. It fails if no double is that number.
            pub fn serialize<S: Serializer>(number: &$of, serializer: S) -> Result<S::Ok, S::Error> {
                let double = *number as f64;
                if double as u128 == u128::from(*number) {
                    serializer.serialize_f64(double)
                } else {
                    Err(ser::Error::custom(format!("no double is {number}")))
                }
            }

            /// Reads a number from a double. It fails if the double isn't such a number.
            pub fn deserialize<'de, D: Deserializer<'de>>(deserializer: D) -> Result<$of, D::Error> {
                let double = f64::deserialize(deserializer)?;
                let number = double as $of;
                if number as f64 == double && double as u128 == u128::from(number) {
                    Ok(number)
                } else {
                    Err(de::Error::custom(format!("{double} is no number of type {}", stringify!($of))))
                }
            }
        }
    };
}

as_double! { u32_as_f64, u32, "Numbers as doubles." }
as_double! { u64_as_f64, u64, "Numbers as doubles." }

/// Declares a module whose functions write and read a value as one of another type.
macro_rules! as_other {
    ($name:ident, $what:literal, $of:ty as $given:ty => $other:ty, $value:ident $write:expr, $found:ident $read:expr) => {
        #[doc = $what]
        pub mod $name {
            #[allow(unused_imports)]
            use crate::{oid::ObjectId, DateTime, Timestamp};
            use serde::de::{self, Deserialize, Deserializer};
            use serde::ser::{self, Serialize, Serializer};

            /// Writes a value as the other type. It fails if there is no such value.
            pub fn serialize<S: Serializer>($value: &$given, serializer: S) -> Result<S::Ok, S::Error> {
                let made: Result<$other, String> = $write;
                made.map_err(ser::Error::custom)?.serialize(serializer)
            }

            /// Reads a value from one of the other type. It fails if there is no such value.
            pub fn deserialize<'de, D: Deserializer<'de>>(deserializer: D) -> Result<$of, D::Error> {
                let $found = <$other>::deserialize(deserializer)?;
                let made: Result<$of, String> = $read;
                made.map_err(de::Error::custom)
            }
        }
    };
}

as_other! {
    rfc3339_string_as_bson_datetime, "Texts of RFC 3339 as times.", String as str => DateTime,
    text DateTime::parse_rfc3339_str(text).map_err(|error| error.to_string()),
    time time.try_to_rfc3339_string().map_err(|error| error.to_string())
}

as_other! {
    bson_datetime_as_rfc3339_string, "Times as texts of RFC 3339.", DateTime as DateTime => String,
    time time.try_to_rfc3339_string().map_err(|error| error.to_string()),
    text DateTime::parse_rfc3339_str(text).map_err(|error| error.to_string())
}

as_other! {
    i64_as_bson_datetime, "Milliseconds from 1970 on as times.", i64 as i64 => DateTime,
    millis Ok(DateTime::from_millis(*millis)), time Ok(time.timestamp_millis())
}

as_other! {
    hex_string_as_object_id, "Texts of 24 digits as ids.", String as str => ObjectId,
    hex ObjectId::parse_str(hex).map_err(|error| error.to_string()), id Ok(id.to_hex())
}

as_other! {
    u32_as_timestamp, "Seconds as timestamps, the first ones of their times.", u32 as u32 => Timestamp,
    time Ok(Timestamp { time: *time, increment: 0 }), stamp Ok(stamp.time)
}

as_other! {
    timestamp_as_u32, "Timestamps as their seconds, of which only the first ones of their times are written.", Timestamp as Timestamp => u32,
    stamp if stamp.increment == 0 { Ok(stamp.time) } else { Err(format!("{stamp} isn't the first one of its time")) },
    time Ok(Timestamp { time, increment: 0 })
}
