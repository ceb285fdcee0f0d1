//! Stand-in for the original's error type, with the cases that its files name.

#[derive(Debug, Clone, PartialEq)]
pub enum Error {
    InvalidGpb(&'static str),
    InvalidWkb(String),
    InvalidWkt(String),
    Unsupported { func: &'static str, reason: String },
    Geozero(geozero::error::GeozeroError),
}

pub type Result<T> = std::result::Result<T, Error>;
