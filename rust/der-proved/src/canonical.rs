//! The canonical encoding by the name of a type.

use crate::Error;
use core::fmt;
use der_proved_sys as sys;

/// Why no encoding is written.
#[derive(Clone, Copy, Debug, PartialEq, Eq)]
pub enum CanonicalError {
    /// No type has the name.
    UnknownName,
    /// The buffer is too short; it should have so many octets.
    ShortBuffer(usize),
    /// The octets are refused.
    Refused(Error),
}

impl fmt::Display for CanonicalError {
    fn fmt(&self, f: &mut fmt::Formatter<'_>) -> fmt::Result {
        match self {
            CanonicalError::UnknownName => f.write_str("no type has the name"),
            CanonicalError::ShortBuffer(count) => write!(f, "the buffer is shorter than {count} octets"),
            CanonicalError::Refused(error) => error.fmt(f),
        }
    }
}

impl core::error::Error for CanonicalError {}

/// Reads octets as a value of the type with a name, all of them, and writes the value's one encoding to
/// the front of a buffer. The names are those of `certview lines` and of `derview`: `docs/FORMAT.md` has
/// them.
///
/// The encoding is the octets that were read, but of the types of sets that are read in another order
/// than DER's, and written in order; so a buffer of as many octets is long enough.
///
/// # Errors
/// Where no type has the name, the octets are refused, or the buffer is too short; then it is as it was.
pub fn canonical<'r>(name: &str, octets: &[u8], buffer: &'r mut [u8]) -> Result<&'r [u8], CanonicalError> {
    let mut needed = 0;
    match sys::safe::canonical(name, octets, buffer, &mut needed) {
        Ok(written) => Ok(&buffer[..written]),
        Err(fault) if fault.number == 102 => Err(CanonicalError::UnknownName),
        Err(fault) if fault.number == 103 => Err(CanonicalError::ShortBuffer(needed)),
        Err(fault) => Err(CanonicalError::Refused(Error::of(fault))),
    }
}
