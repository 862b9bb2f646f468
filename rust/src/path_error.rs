//! Errors that say the keys to where they are.

/// Declares the error of a module: what is wrong, and the keys to where it is.
macro_rules! path_error {
    ($what:literal, $trait:path) => {
        #[doc = $what]
        #[derive(Clone, Debug)]
        #[non_exhaustive]
        pub struct Error {
            /// What is wrong.
            pub kind: ErrorKind,

            path: Vec<String>,
        }

        /// What is wrong.
        #[derive(Clone, Debug)]
        #[non_exhaustive]
        pub enum ErrorKind {
            /// Bytes can't be read or written.
            Io(std::sync::Arc<std::io::Error>),
            /// Bytes, or what is to be appended, aren't as the format asks.
            Raw(crate::raw::ErrorKind),
            /// Another reason, in words.
            Custom(String),
        }

        /// What the calls return.
        pub type Result<T> = std::result::Result<T, Error>;

        impl Error {
            #[allow(dead_code)]
            pub(crate) fn custom(message: impl Into<String>) -> Error {
                Error { kind: ErrorKind::Custom(message.into()), path: Vec::new() }
            }

            /// The keys to the value that has the error, from the outermost on; those of an array are its numbers.
            pub fn path(&self) -> &[String] {
                &self.path
            }

            /// The error, met in the value with this number, if it doesn't say where it is.
            #[cfg(feature = "serde")]
            #[allow(dead_code)]
            pub(crate) fn at(self, number: usize) -> Error {
                if self.path.is_empty() {
                    self.under(number.to_string())
                } else {
                    self
                }
            }

            /// The error, met in the value of this key.
            #[allow(dead_code)]
            #[cold]
            pub(crate) fn under(mut self, key: impl Into<String>) -> Error {
                self.path.insert(0, key.into());
                self
            }
        }

        #[cfg(feature = "serde")]
        impl $trait for Error {
            fn custom<T: std::fmt::Display>(message: T) -> Error {
                Error::custom(message.to_string())
            }
        }

        impl std::fmt::Display for Error {
            fn fmt(&self, f: &mut std::fmt::Formatter<'_>) -> std::fmt::Result {
                if !self.path.is_empty() {
                    write!(f, "error at key \"{}\": ", self.path.join("."))?;
                }
                match &self.kind {
                    ErrorKind::Io(error) => error.fmt(f),
                    ErrorKind::Raw(kind) => kind.fmt(f),
                    ErrorKind::Custom(message) => f.write_str(message),
                }
            }
        }

        impl std::error::Error for Error {
            fn source(&self) -> Option<&(dyn std::error::Error + 'static)> {
                match &self.kind {
                    ErrorKind::Io(error) => Some(error),
                    _ => None,
                }
            }
        }

        impl From<std::io::Error> for Error {
            fn from(error: std::io::Error) -> Error {
                Error { kind: ErrorKind::Io(error.into()), path: Vec::new() }
            }
        }

        impl From<crate::raw::Error> for Error {
            fn from(error: crate::raw::Error) -> Error {
                Error { kind: ErrorKind::Raw(error.kind), path: error.key.into_iter().collect() }
            }
        }
    };
}

pub(crate) use path_error;
