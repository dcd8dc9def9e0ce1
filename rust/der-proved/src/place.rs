//! Octets at places, and the calls in C.

use crate::Error;
use der_proved_sys as sys;

/// The octets at a place.
pub(crate) fn at(octets: &[u8], place: sys::Place) -> &[u8] {
    let start = place.offset as usize;
    &octets[start..start + place.length as usize]
}

/// Those of a field, if it is there.
pub(crate) fn if_there(octets: &[u8], place: sys::Place) -> Option<&[u8]> {
    (place.length > 0).then(|| at(octets, place))
}

/// The result of a call for these octets.
pub(crate) fn read<T>(call: fn(&[u8]) -> Result<T, sys::Fault>, octets: &[u8]) -> Result<T, Error> {
    call(octets).map_err(Error::of)
}

/// The contents octets of an encoding that was read, as a field of a certificate: 05 of 02 01 05. If
/// the octets have no such encoding, some of them are returned.
pub fn contents(encoding: &[u8]) -> &[u8] {
    let length = u32::try_from(encoding.len()).unwrap_or(u32::MAX);
    at(encoding, sys::safe::contents(encoding, sys::Place { offset: 0, length }))
}

/// The octets that the signature of a certificate covers, of a list of revoked ones, of a request or of
/// an answer about the status of certificates: the first field. Of other octets the answer is some of
/// them.
pub fn signed_octets(message: &[u8]) -> &[u8] {
    at(message, sys::safe::signed_octets(message))
}

/// Methods that give fields as their octets.
macro_rules! fields {
    ($($(#[$doc:meta])* $name:ident)*) => {
        $($(#[$doc])* pub fn $name(&self) -> &'a [u8] { crate::place::at(self.octets, self.at.$name) })*
    };
}

/// Methods that give fields as their octets, if they are there.
macro_rules! optional_fields {
    ($($(#[$doc:meta])* $name:ident)*) => {
        $($(#[$doc])* pub fn $name(&self) -> Option<&'a [u8]> { crate::place::if_there(self.octets, self.at.$name) })*
    };
}

/// A type that is read from all octets of a message.
macro_rules! message {
    ($(#[$doc:meta])* $name:ident, $call:ident, $at:ident) => {
        $(#[$doc])*
        #[derive(Clone, Copy)]
        pub struct $name<'a> {
            octets: &'a [u8],
            at: der_proved_sys::$at,
        }

        impl<'a> $name<'a> {
            #[doc = concat!("Reads all octets as a `", stringify!($name), "`.")]
            ///
            /// # Errors
            /// The first fault of the octets.
            pub fn from_der(octets: &'a [u8]) -> Result<$name<'a>, crate::Error> {
                let at = crate::place::read(der_proved_sys::safe::$call, octets)?;
                Ok($name { octets, at })
            }
        }
    };
}

/// A type of the items of a list, and an iterator over them, each read by a call in C.
macro_rules! items {
    ($(#[$doc:meta])* $items:ident, $(#[$of:meta])* $item:ident, $call:ident, $at:ident) => {
        $(#[$of])*
        #[derive(Clone, Copy, Debug)]
        pub struct $item<'a> {
            octets: &'a [u8],
            at: der_proved_sys::$at,
        }

        impl<'a> $item<'a> {
            /// All octets of the item.
            pub fn as_bytes(&self) -> &'a [u8] {
                crate::place::at(self.octets, self.at.whole)
            }
        }

        $(#[$doc])*
        #[derive(Clone, Debug)]
        pub struct $items<'a> {
            left: &'a [u8],
        }

        impl<'a> $items<'a> {
            /// Those of a list, if it is there.
            pub(crate) fn listed(list: Option<&'a [u8]>) -> $items<'a> {
                $items { left: list.map_or(&[], crate::contents) }
            }
        }

        impl<'a> Iterator for $items<'a> {
            type Item = Result<$item<'a>, crate::Error>;

            /// The next one. Of a message that was read none is an error.
            fn next(&mut self) -> Option<Result<$item<'a>, crate::Error>> {
                if self.left.is_empty() {
                    return None;
                }
                let answer = crate::place::read(der_proved_sys::safe::$call, self.left);
                let Ok(place) = answer else {
                    self.left = &[];
                    return answer.err().map(Err);
                };
                let (octets, left) = self.left.split_at(place.whole.length as usize);
                self.left = left;
                Some(Ok($item { octets, at: place }))
            }
        }

        impl core::iter::FusedIterator for $items<'_> {}
    };
}

pub(crate) use {fields, items, message, optional_fields};
