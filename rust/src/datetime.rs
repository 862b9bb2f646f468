//! Times.

use std::fmt;
use std::str::FromStr;
use std::time::{Duration, SystemTime};

use crate::ffi;

/// Why a time has no text, or a text says no time.
#[derive(Clone, Debug, Eq, PartialEq)]
#[non_exhaustive]
pub enum Error {
    /// The text isn't as RFC 3339 has it, or the time is in no year from 0 to 9999.
    #[non_exhaustive]
    InvalidTimestamp {
        /// Why, in words.
        message: String,
    },
    /// The time has no text, as it is in no year from 0 to 9999.
    #[non_exhaustive]
    CannotFormat {
        /// Why, in words.
        message: String,
    },
}

impl fmt::Display for Error {
    fn fmt(&self, f: &mut fmt::Formatter<'_>) -> fmt::Result {
        match self {
            Error::InvalidTimestamp { message } | Error::CannotFormat { message } => f.write_str(message),
        }
    }
}

impl std::error::Error for Error {}

/// What reading and writing a text returns.
pub type Result<T> = std::result::Result<T, Error>;

/// A time: milliseconds from the beginning of 1970 on.
///
/// ```
/// use bsonraw::DateTime;
///
/// let time: DateTime = "2012-12-24T12:15:30.501Z".parse()?;
/// assert_eq!(time.timestamp_millis(), 1_356_351_330_501);
/// assert_eq!(time.try_to_rfc3339_string()?, "2012-12-24T12:15:30.501Z");
/// assert_eq!(time.to_string(), "2012-12-24 12:15:30.501 +00:00:00");
/// assert!(time < DateTime::now());
/// # Ok::<(), bsonraw::datetime::Error>(())
/// ```
#[derive(Clone, Copy, Eq, Hash, Ord, PartialEq, PartialOrd)]
pub struct DateTime(i64);

impl DateTime {
    /// The last time that there is.
    pub const MAX: DateTime = DateTime(i64::MAX);
    /// The first time that there is.
    pub const MIN: DateTime = DateTime(i64::MIN);

    /// The time that it is now, to the millisecond.
    pub fn now() -> DateTime {
        DateTime::from_system_time(SystemTime::now())
    }

    /// The time of this many milliseconds.
    #[inline]
    pub const fn from_millis(millis: i64) -> DateTime {
        DateTime(millis)
    }

    /// What makes a time of its parts.
    ///
    /// ```
    /// use bsonraw::DateTime;
    ///
    /// let time = DateTime::builder().year(2012).month(12).day(24).hour(12).minute(15).build()?;
    /// assert_eq!(time.try_to_rfc3339_string()?, "2012-12-24T12:15:00Z");
    /// assert!(DateTime::builder().year(2023).month(2).day(29).build().is_err());
    /// # Ok::<(), bsonraw::datetime::Error>(())
    /// ```
    pub fn builder() -> DateTimeBuilder {
        DateTimeBuilder::default()
    }

    /// How many milliseconds it is.
    #[inline]
    pub const fn timestamp_millis(self) -> i64 {
        self.0
    }

    /// The time of the system's clock, or the first or the last that there is.
    pub fn from_system_time(time: SystemTime) -> DateTime {
        let millis = |duration: Duration| i64::try_from(duration.as_millis());
        match time.duration_since(SystemTime::UNIX_EPOCH) {
            Ok(after) => millis(after).map_or(DateTime::MAX, DateTime),
            Err(before) => millis(before.duration()).map_or(DateTime::MIN, |millis| DateTime(-millis)),
        }
    }

    /// The time of the system's clock.
    ///
    /// # Panics
    ///
    /// Where the system's clock has no such time.
    pub fn to_system_time(self) -> SystemTime {
        let distance = Duration::from_millis(self.0.unsigned_abs());
        if self.0 < 0 {
            SystemTime::UNIX_EPOCH - distance
        } else {
            SystemTime::UNIX_EPOCH + distance
        }
    }

    /// How long after an earlier time it is; nothing, if the other isn't earlier.
    pub fn saturating_duration_since(self, earlier: DateTime) -> Duration {
        self.checked_duration_since(earlier).unwrap_or_default()
    }

    /// How long after an earlier time it is; none, if the other is later.
    pub fn checked_duration_since(self, earlier: DateTime) -> Option<Duration> {
        (self >= earlier).then(|| Duration::from_millis(self.0.abs_diff(earlier.0)))
    }

    /// The time as RFC 3339 has it, in UTC, with as many digits after the seconds as are needed. It fails before the year 0 and from
    /// 10000 on.
    pub fn try_to_rfc3339_string(self) -> Result<String> {
        let text = ffi::date_time_to_text(self.0)
            .ok_or_else(|| Error::CannotFormat { message: format!("{} ms is in no year from 0 to 9999", self.0) })?;
        let (before, fraction) = halves(&text);
        Ok(if fraction.is_empty() { format!("{before}Z") } else { format!("{before}.{fraction}Z") })
    }

    /// The time that a text says, as RFC 3339 has it, in UTC or with a zone. What is finer than a millisecond is cut off.
    pub fn parse_rfc3339_str(text: impl AsRef<str>) -> Result<DateTime> {
        let text = text.as_ref();
        ffi::date_time_from_text(as_read(text).as_bytes())
            .map(DateTime)
            .ok_or_else(|| Error::InvalidTimestamp { message: format!("not a time of RFC 3339: {text:?}") })
    }
}

/// A text as the library reads it: with capital letters, and three digits after the seconds at most.
fn as_read(text: &str) -> String {
    let mut text = text.to_ascii_uppercase();
    if let Some(point) = text.find('.') {
        let digits = text[point + 1..].bytes().take_while(u8::is_ascii_digit).count();
        text.replace_range(point + 1 + digits.min(3)..point + 1 + digits, "");
    }
    text
}

/// What the library's text of a time has before the fraction of a second, and the digits of that without zeros at the end.
fn halves(text: &str) -> (&str, &str) {
    let text = text.trim_end_matches('Z');
    let (before, fraction) = text.split_once('.').unwrap_or((text, ""));
    (before, fraction.trim_end_matches('0'))
}

/// Makes a time in UTC of its parts. The year, the month and the day have to be given; the others are 0 if they aren't.
///
/// ```compile_fail,E0599
/// bsonraw::DateTime::builder().year(2012).month(12).build();
/// ```
#[derive(Clone, Copy, Debug, Default)]
pub struct DateTimeBuilder<Y = (), M = (), D = ()> {
    year: Y,
    month: M,
    day: D,
    hour: u8,
    minute: u8,
    second: u8,
    millisecond: u16,
}

impl<Y, M, D> DateTimeBuilder<Y, M, D> {
    /// The year, from 0 to 9999.
    pub fn year(self, year: i32) -> DateTimeBuilder<i32, M, D> {
        let DateTimeBuilder { month, day, hour, minute, second, millisecond, .. } = self;
        DateTimeBuilder { year, month, day, hour, minute, second, millisecond }
    }

    /// The month, from 1 to 12.
    pub fn month(self, month: u8) -> DateTimeBuilder<Y, u8, D> {
        let DateTimeBuilder { year, day, hour, minute, second, millisecond, .. } = self;
        DateTimeBuilder { year, month, day, hour, minute, second, millisecond }
    }

    /// The day of the month, from 1 on.
    pub fn day(self, day: u8) -> DateTimeBuilder<Y, M, u8> {
        let DateTimeBuilder { year, month, hour, minute, second, millisecond, .. } = self;
        DateTimeBuilder { year, month, day, hour, minute, second, millisecond }
    }

    /// The hour, from 0 to 23.
    pub fn hour(self, hour: u8) -> DateTimeBuilder<Y, M, D> {
        DateTimeBuilder { hour, ..self }
    }

    /// The minute, from 0 to 59.
    pub fn minute(self, minute: u8) -> DateTimeBuilder<Y, M, D> {
        DateTimeBuilder { minute, ..self }
    }

    /// The second, from 0 to 59.
    pub fn second(self, second: u8) -> DateTimeBuilder<Y, M, D> {
        DateTimeBuilder { second, ..self }
    }

    /// The millisecond, from 0 to 999.
    pub fn millisecond(self, millisecond: u16) -> DateTimeBuilder<Y, M, D> {
        DateTimeBuilder { millisecond, ..self }
    }
}

impl DateTimeBuilder<i32, u8, u8> {
    /// The time of these parts. It fails if a part isn't as said, or the month has no such day.
    pub fn build(self) -> Result<DateTime> {
        let DateTimeBuilder { year, month, day, hour, minute, second, millisecond } = self;
        let text = format!("{year:04}-{month:02}-{day:02}T{hour:02}:{minute:02}:{second:02}.{millisecond:03}Z");
        if hour > 23 || minute > 59 || second > 59 || millisecond > 999 {
            return Err(Error::InvalidTimestamp { message: format!("there is no such time: {text}") });
        }
        DateTime::parse_rfc3339_str(text)
    }
}

impl FromStr for DateTime {
    type Err = Error;

    fn from_str(text: &str) -> Result<DateTime> {
        DateTime::parse_rfc3339_str(text)
    }
}

impl From<SystemTime> for DateTime {
    fn from(time: SystemTime) -> DateTime {
        DateTime::from_system_time(time)
    }
}

impl From<DateTime> for SystemTime {
    fn from(time: DateTime) -> SystemTime {
        time.to_system_time()
    }
}

/// As the crate `bson` prints it: `2012-12-24 12:15:30.501 +00:00:00`; before the year 0 and from 10000 on the milliseconds.
impl fmt::Display for DateTime {
    fn fmt(&self, f: &mut fmt::Formatter<'_>) -> fmt::Result {
        let Some(text) = ffi::date_time_to_text(self.0) else {
            return self.0.fmt(f);
        };
        let (before, fraction) = halves(&text);
        let (day, time) = before.split_once('T').ok_or(fmt::Error)?;
        let time = time.strip_prefix('0').unwrap_or(time);
        write!(f, "{day} {time}.{} +00:00:00", if fraction.is_empty() { "0" } else { fraction })
    }
}

/// As the crate `bson` prints it: `DateTime(2012-12-24 12:15:30.501 +00:00:00)`.
impl fmt::Debug for DateTime {
    fn fmt(&self, f: &mut fmt::Formatter<'_>) -> fmt::Result {
        f.debug_tuple("DateTime").field(&format_args!("{self}")).finish()
    }
}
