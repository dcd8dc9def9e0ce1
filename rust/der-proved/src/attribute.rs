//! Attributes: those of names, and those with sets of values.

use crate::place::{at, fields, items, read};
use crate::{contents, Error};
use der_proved_sys as sys;

/// An attribute of a name, an AttributeTypeAndValue (RFC 5280 4.1.2.4).
#[derive(Clone, Copy, Debug)]
pub struct AttributeTypeAndValue<'a> {
    octets: &'a [u8],
    at: sys::AttributeTypeAndValueAt,
}

impl<'a> AttributeTypeAndValue<'a> {
    // written by tools/bindings: fields of AttributeTypeAndValue
    fields! {
        /// `type`, an OBJECT IDENTIFIER.
        type_
        /// `value`, of any type.
        value
    }
    // end of fields of AttributeTypeAndValue

    /// The whole attribute.
    pub fn as_bytes(&self) -> &'a [u8] {
        at(self.octets, self.at.whole)
    }

    /// The contents octets of `type`: 55 04 03 of commonName.
    pub fn identifier(&self) -> &'a [u8] {
        contents(self.type_())
    }
}

/// Goes over the attributes of a name, of one part after another.
#[derive(Clone, Debug)]
pub struct Name<'a> {
    parts: &'a [u8],
    attributes: &'a [u8],
}

impl<'a> Name<'a> {
    /// The attributes of a name that was read, as the issuer of a certificate, in their order.
    pub fn of(name: &'a [u8]) -> Name<'a> {
        Name { parts: contents(name), attributes: &[] }
    }

    /// Enters the next part, if there is one.
    fn enter(&mut self) {
        let part = sys::safe::next_encoding(self.parts, sys::Place::default());
        let (part, others) = self.parts.split_at(part.length as usize);
        self.attributes = contents(part);
        self.parts = others;
    }
}

impl<'a> Iterator for Name<'a> {
    type Item = Result<AttributeTypeAndValue<'a>, Error>;

    /// The next one. After an error, which what is a name does not have, none follows.
    fn next(&mut self) -> Option<Result<AttributeTypeAndValue<'a>, Error>> {
        if self.attributes.is_empty() {
            if self.parts.is_empty() {
                return None;
            }
            self.enter();
        }
        let answer = read(sys::safe::attribute_type_and_value, self.attributes);
        let Ok(place) = answer else {
            (self.parts, self.attributes) = (&[], &[]);
            return answer.err().map(Err);
        };
        let (octets, left) = self.attributes.split_at(place.whole.length as usize);
        self.attributes = left;
        Some(Ok(AttributeTypeAndValue { octets, at: place }))
    }
}

items! {
    /// Goes over attributes with sets of values.
    Attributes,
    /// An attribute with a set of values (RFC 5652 5.3, RFC 2986 4.1).
    Attribute, attribute, AttributeAt
}

impl<'a> Attribute<'a> {
    // written by tools/bindings: fields of Attribute
    fields! {
        /// `type`, an OBJECT IDENTIFIER.
        type_
        /// `values`, a SET OF.
        values
    }
    // end of fields of Attribute

    /// The contents octets of `type`: 2A 86 48 86 F7 0D 01 09 04 of messageDigest.
    pub fn identifier(&self) -> &'a [u8] {
        contents(self.type_())
    }
}

impl<'a> Attributes<'a> {
    /// Those of a field that was read, if it is there, as `attributes` of a private key, in their order.
    pub fn of(field: Option<&'a [u8]>) -> Attributes<'a> {
        Attributes::listed(field)
    }
}
