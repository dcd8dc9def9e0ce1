//! The room in which a message is written: the parts at its front, and what is written behind them.

use crate::{Error, WriteError};
use der_proved_sys as sys;
use sys::{Fault, Place};

/// The octets that a message has besides its fields: its own header, those of what the library writes of numbers, and
/// those around items.
const HEADERS: usize = 128;
/// `DER_OVERFLOW` and `DER_SHORT_BUFFER` of `der.h`.
const OVERFLOW: u32 = 9;
const SHORT_BUFFER: u32 = 103;

/// A buffer whose front has parts of a message.
pub(crate) struct Room<'b> {
    buffer: &'b mut [u8],
    used: usize,
    /// The length of a buffer that is enough.
    needed: usize,
    /// Why the parts cannot be put here.
    fault: Option<Fault>,
}

/// The result of a call in C that writes to a buffer.
pub(crate) fn answer(result: Result<usize, Fault>, needed: usize) -> Result<usize, WriteError> {
    result.map_err(|fault| match fault.number {
        SHORT_BUFFER => WriteError::ShortBuffer(needed),
        _ => WriteError::Refused(Error::of(fault)),
    })
}

impl<'b> Room<'b> {
    pub(crate) fn new(buffer: &'b mut [u8]) -> Room<'b> {
        Room { buffer, used: 0, needed: HEADERS, fault: None }
    }

    pub(crate) fn needed(&self) -> usize {
        self.needed
    }

    fn refuse(&mut self, number: u32) -> Place {
        self.fault.get_or_insert(Fault { number, ..Fault::default() });
        Place::default()
    }

    /// The place of the next octets of the room, which are used now.
    fn place(&mut self, length: usize) -> Place {
        let (start, end) = (self.used, self.used.saturating_add(length));
        match (u32::try_from(start), u32::try_from(length)) {
            (Ok(offset), Ok(length)) if u32::try_from(end).is_ok() => {
                self.used = end;
                Place { offset, length }
            }
            _ => self.refuse(OVERFLOW),
        }
    }

    fn put(&mut self, octets: &[u8]) -> Place {
        match self.buffer.get_mut(self.used..).and_then(|rest| rest.get_mut(..octets.len())) {
            Some(to) => to.copy_from_slice(octets),
            None => return self.refuse(SHORT_BUFFER),
        }
        self.place(octets.len())
    }

    /// Puts a field here.
    pub(crate) fn field(&mut self, octets: &[u8]) -> Place {
        self.needed = self.needed.saturating_add(octets.len().saturating_mul(2));
        self.put(octets)
    }

    /// Puts a field here, if it is there.
    pub(crate) fn optional_field(&mut self, field: Option<&[u8]>) -> Place {
        field.map_or(Place::default(), |octets| self.field(octets))
    }

    /// Puts an encoding of what stands at a place here.
    fn wrap(&mut self, identifier: u8, within: Place) -> Place {
        let (octets, rest) = self.buffer.split_at_mut(self.used);
        let mut count = 0;
        match sys::safe::write_encoding(u32::from(identifier), crate::place::at(octets, within), rest, &mut count) {
            Ok(length) => self.place(length),
            Err(fault) => self.refuse(fault.number),
        }
    }

    /// Puts items here, one after another, within encodings with these identifier octets.
    fn listed<'i>(&mut self, items: impl Iterator<Item = &'i [u8]>, identifiers: &[u8]) -> Place {
        let start = self.used;
        for item in items {
            self.needed = self.needed.saturating_add(item.len().saturating_mul(2 + identifiers.len()));
            self.put(item);
        }
        if self.fault.is_some() {
            return Place::default();
        }
        let (offset, length) = (start as u32, (self.used - start) as u32);
        identifiers.iter().fold(Place { offset, length }, |within, identifier| match self.fault {
            None => self.wrap(*identifier, within),
            Some(_) => within,
        })
    }

    pub(crate) fn items(&mut self, items: &[&[u8]], identifiers: &[u8]) -> Place {
        self.listed(items.iter().copied(), identifiers)
    }

    /// Puts items here, if there are any.
    pub(crate) fn optional_items(&mut self, items: &[&[u8]], identifiers: &[u8]) -> Place {
        if items.is_empty() { Place::default() } else { self.items(items, identifiers) }
    }

    /// Puts items here in the order of DER (X.690 11.6).
    pub(crate) fn set(&mut self, items: &[&[u8]], identifiers: &[u8]) -> Place {
        self.listed(Ordered { items, last: None }, identifiers)
    }

    /// Writes a message behind the parts, and moves it to the front of the buffer.
    pub(crate) fn written<T>(
        self,
        at: &T,
        call: impl FnOnce(&[u8], &T, &mut [u8], &mut usize) -> Result<usize, Fault>,
    ) -> Result<&'b [u8], WriteError> {
        if let Some(fault) = self.fault {
            return answer(Err(fault), self.needed).map(|_| &[][..]);
        }
        let (octets, rest) = self.buffer.split_at_mut(self.used);
        let length = answer(call(octets, at, rest, &mut 0), self.needed)?;
        self.buffer.copy_within(self.used..self.used + length, 0);
        Ok(&self.buffer[..length])
    }
}

/// Items in their order, found one after another, with no memory.
struct Ordered<'s, 'i> {
    items: &'s [&'i [u8]],
    last: Option<(&'i [u8], usize)>,
}

impl<'i> Iterator for Ordered<'_, 'i> {
    type Item = &'i [u8];

    fn next(&mut self) -> Option<&'i [u8]> {
        let numbered = self.items.iter().copied().enumerate().map(|(index, item)| (item, index));
        let next = numbered.filter(|it| self.last.map_or(true, |last| *it > last)).min()?;
        self.last = Some(next);
        Some(next.0)
    }
}

/// A date that may be absent, as the number of a struct, in which 0 stands for an absent one: 0 itself is refused as no
/// date.
pub(crate) fn optional_moment(seconds: Option<u64>) -> u64 {
    match seconds {
        None => 0,
        Some(0) => u64::MAX,
        Some(seconds) => seconds,
    }
}

/// Methods that write the message of its fields.
macro_rules! writes {
    ($fields:ident, $call:ident, |$it:ident, $room:ident| $at:expr) => {
        impl $fields<'_> {
            /// Writes the encoding to the front of a buffer, in which the fields stand meanwhile.
            ///
            /// # Errors
            /// Where the buffer is too short, or a field is refused: then the buffer has no encoding. The position of
            /// the error counts from the field.
            pub fn write<'b>(&self, buffer: &'b mut [u8]) -> Result<&'b [u8], crate::WriteError> {
                let ($it, mut within) = (self, crate::room::Room::new(buffer));
                let $room = &mut within;
                let at = $at;
                within.written(&at, sys::safe::$call)
            }

            /// A length of the buffer that is enough.
            pub fn room(&self) -> usize {
                let ($it, mut within) = (self, crate::room::Room::new(&mut []));
                let $room = &mut within;
                let _ = $at;
                within.needed()
            }

            /// The encoding.
            ///
            /// # Errors
            /// Where a field is refused: the number of the first one, and the position, which counts from the field.
            #[cfg(feature = "alloc")]
            pub fn to_der(&self) -> Result<alloc::vec::Vec<u8>, crate::Error> {
                crate::encode::in_room(self.room(), |buffer| self.write(buffer).map(<[u8]>::len))
            }
        }
    };
}

pub(crate) use writes;
