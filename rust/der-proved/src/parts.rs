//! Octets of the caller, one after another.

use crate::Error;
use alloc::vec::Vec;
use der_proved_sys::Place;

/// `DER_OVERFLOW` of `der.h`.
const OVERFLOW: u32 = 9;

/// Octets of the caller, one after another, each with the index of its first.
#[derive(Default)]
pub(crate) struct Parts<'a> {
    pub octets: Vec<u8>,
    whole: Vec<(usize, &'a [u8])>,
}

impl<'a> Parts<'a> {
    pub fn add(&mut self, octets: &'a [u8]) -> Result<Place, Error> {
        let offset = self.octets.len();
        self.octets.extend_from_slice(octets);
        self.whole.push((offset, octets));
        match (u32::try_from(offset), u32::try_from(octets.len())) {
            (Ok(offset), Ok(length)) => Ok(Place { offset, length }),
            _ => Err(Error::numbered(OVERFLOW)),
        }
    }

    /// The caller's octets at a place; none of an absent field.
    pub fn at(&self, place: Place) -> &'a [u8] {
        let (start, length) = (place.offset as usize, place.length as usize);
        let holds = |(first, octets): &&(usize, &[u8])| *first <= start && start - *first < octets.len();
        let found = self.whole.iter().find(holds).map(|(first, octets)| octets.get(start - first..start - first + length));
        found.flatten().unwrap_or(&[])
    }
}
