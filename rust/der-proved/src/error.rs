//! Why octets are refused.

use core::fmt;
use der_proved_sys as sys;

/// Why octets are refused: the number of the first fault, and where it was met.
#[derive(Clone, Copy, Debug, PartialEq, Eq)]
pub struct Error {
    number: u32,
    position: Option<u32>,
}

impl Error {
    pub(crate) fn of(fault: sys::Fault) -> Error {
        let position = if fault.is_placed == 1 { Some(fault.position) } else { None };
        Error { number: fault.number, position }
    }

    /// A refusal with this number, which has no position.
    #[cfg(feature = "alloc")]
    pub(crate) fn numbered(number: u32) -> Error {
        Error { number, position: None }
    }

    /// The number of the kind, 1 to 17, which never changes its meaning.
    pub fn number(&self) -> u32 {
        self.number
    }

    /// How many octets had been read, if that is known. Of an extension or an entry they count from
    /// its first octet.
    pub fn position(&self) -> Option<u32> {
        self.position
    }
}

impl fmt::Display for Error {
    fn fmt(&self, f: &mut fmt::Formatter<'_>) -> fmt::Result {
        let (words, number) = (sys::safe::number_text(self.number), self.number);
        match self.position {
            Some(position) => write!(f, "{words} ({number}), after {position} octets"),
            None => write!(f, "{words} ({number})"),
        }
    }
}

impl core::error::Error for Error {}

/// Why nothing is written.
#[derive(Clone, Copy, Debug, PartialEq, Eq)]
pub enum WriteError {
    /// The buffer is too short; one of so many octets is long enough.
    ShortBuffer(usize),
    /// A part is refused.
    Refused(Error),
}

impl fmt::Display for WriteError {
    fn fmt(&self, f: &mut fmt::Formatter<'_>) -> fmt::Result {
        match self {
            WriteError::ShortBuffer(count) => write!(f, "the buffer is too short; {count} octets are enough"),
            WriteError::Refused(error) => error.fmt(f),
        }
    }
}

impl core::error::Error for WriteError {}
