"""The lists of one to eight fields: src/fields.rt of der_fields and src/fields/*.rt, which differ in nothing but how many fields
they have.

A list passes each call to the `Field` list that is its one member, and its laws are folds of what one field has. These files
have no mark in their second line.
"""

from __future__ import annotations

from collections.abc import Callable

SIZES = ["one", "two", "three", "four", "five", "six", "seven", "eight"]
PLACES = ["first", "second", "third", "fourth", "fifth", "sixth", "seventh", "eighth"]
TYPES = "ABCDEFGH"
NEW_LINE = "\n        "

ROOT_DOC = """\
//! Lists of one to eight fields (X.680 25).
//!
//! `Fields3<A, B, C>` is the list of three fields, and can be used in place of any list: a SEQUENCE of
//! them is `FieldSequence<Fields3<A, B, C>>`. Its octets are those of `Field<A, Field<B, Field<C,
//! End>>>`. It has the bounds of all its fields in one step, and that list a step a field, so a long
//! list is checked faster. A ninth field comes after the eighth: `Fields8<.., Fields2<I, J>>`.
//!
//! `tools/asn1` writes the files of the lists.
"""

HEAD = """\
//! %(title)s of a SEQUENCE, and those after them.

ghost use Rattle.std.specs.Prelude.{◌≡◌, ◌||◌};
ghost use Rattle.der_fields.specs.ListMakers.{part_of, field_list};
ghost use Rattle.der_fields.specs.FieldLaws.{either_memory};
ghost use Rattle.der_fields.specs.FieldSteps.{each, both, list_tags, tags_after, rest_starts, rest_equality, rest_copies, rest_equal_copies, rest_distinct, starts_step, equality_step, copies_step, equal_copies_step, distinct_step};
ghost use Rattle.der_fields.specs.Listing.{field, end};

use crate::coded::{DecodeFields, EncodeFields};
use crate::copied::{DuplicateFields, DuplicateFieldsAreEqual};
use crate::distinct::DistinctTags;
use crate::end::End;
use crate::equal::FieldsEq;
use crate::field::Field;
use crate::field_list::FieldList;
use crate::ordered::{FieldsFirstTag, FieldsOrd};
use der_elem::{DecodeField, DerOrd, Duplicate, DuplicateIsEqual, Encode, EncodingEq, FirstTag, Form, KnownTags};
use der_tlv::{BackWriter, Error, Length, Source, Tag, Writer};
use std::alloc::Global;
use std::cmp::Ordering;
"""

STRUCT = """
/// %(title)s, and those after them.
#[derive(Clone, Copy, Debug, PartialEq, Eq, Drop)]
pub struct %(name)s<%(params)s, Rest = End> {
    /// The list.
    pub list: %(list)s,
}

impl<%(params)s> %(name)s<%(params)s> {
    /// A list of %(these)s.
    pub fn new(%(arguments)s) -> %(name)s<%(params)s>
        ensures { result.list ≡ %(ended)s }
    {
        %(name)s::with_rest(%(places)s, End)
    }

    /// The %(counted)s.
    pub fn into_parts(self) -> (%(params)s,)
        ensures { self.list ≡ %(parts)s }
    {
        let list = self.list;
        (%(taken)s,)
    }
}

impl<%(params)s, Rest> %(name)s<%(params)s, Rest> {
    /// A list of %(these)s, and of those after them.
    pub fn with_rest(%(arguments)s, rest: Rest) -> %(self)s
        ensures { result.list ≡ %(whole)s }
    {
        %(built)s
        %(name)s { list }
    }
%(accessors)s
    /// The fields after.
    pub fn rest(&self) -> &Rest
        ensures { result.now ≡ self.now.%(behind)s }
    {
        &self.%(behind)s
    }
}
"""

ACCESSOR = """
    /// The %(place)s field.
    pub fn %(place)s(&self) -> &%(type)s
        ensures { result.now ≡ self.now.%(at)s }
    {
        &self.%(at)s
    }
"""

MEANING = """
impl<%(form)s, Rest: FieldList> FieldList for %(self)s {
    ghost list = { part_of (λ v. v.list) %(list_form)s };
}
"""

CODE = """
impl<'a, R: Source<'a>, %(decode_field)s, Rest: DecodeFields<'a, R>> DecodeFields<'a, R> for %(self)s {
    ghost TAKES_MEMORY = { %(needs)s };

    const TAKES_MEMORY: bool = %(needs_code)s;

    fn decode_fields(alloc: Global, reader: &mut R) -> Result<%(self)s, Error> {
        let list = %(list_path)s::decode_fields(alloc, reader)?;
        Ok(%(name)s { list })
    }

    ghost takes_memory_is = { %(memory)s };
}

impl<%(encode)s, Rest: EncodeFields> EncodeFields for %(self)s {
    fn fields_len(&self) -> Result<Length, Error> {
        self.list.fields_len()
    }

    fn encode_fields<W: Writer>(&self, writer: &mut W) -> Result<(), Error> {
        self.list.encode_fields(writer)
    }

    fn encode_fields_back<W: BackWriter>(&self, writer: &mut W) -> Result<(), Error> {
        self.list.encode_fields_back(writer)
    }
}

impl<%(first_tag)s, Rest: FieldsFirstTag> FieldsFirstTag for %(self)s {
    fn fields_first_tag(&self) -> Option<Tag> {
        self.list.fields_first_tag()
    }

    ghost starts_fields = { λ v. %(starts)s.starts v.list };
}

impl<%(ordered)s, Rest: FieldsOrd + FieldsFirstTag> FieldsOrd for %(self)s {
    fn cmp_fields(&self, other: &%(self)s) -> Result<Ordering, Error> {
        self.list.cmp_fields(&other.list)
    }
}
"""

LAWS = """
impl<%(equal)s, Rest: FieldsEq + FieldsFirstTag> FieldsEq for %(self)s {
    ghost fields_eq = { λ v w.
        %(equality)s.equal v.list w.list };
}

impl<%(copied)s, Rest: DuplicateFields + FieldsFirstTag> DuplicateFields for %(self)s {
    ghost are_copies = { λ v w. %(are_copies)s v.list w.list };

    ghost take_memory_to_copy = { %(copy_memory)s };

    fn duplicate_fields(&self) -> Result<%(self)s, Error> {
        let list = self.list.duplicate_fields()?;
        Ok(%(name)s { list })
    }

    ghost copy_joined = { λ v w.
        %(copies)s.joined v.list w.list };

    ghost copy_all_comparable = { λ v w x.
        %(copies)s.comparable v.list w.list x.list };

    ghost copy_re_read = { λ v w.
        %(copies)s.re_read v.list w.list };
}

impl<%(equally_copied)s, Rest: DuplicateFieldsAreEqual + FieldsFirstTag> DuplicateFieldsAreEqual for %(self)s {
    ghost copies_are_equal = { λ v w.
        %(equal_copies)s.equal v.list w.list };
}

impl<%(known)s, Rest: DistinctTags> DistinctTags for %(self)s {
    ghost first_tags = { %(tags)s.first };

    ghost TAGS_ARE_DISTINCT = { %(tags)s.are_distinct };

    ghost each_readable = { λ v. %(readable)s v.list };

    ghost each_comparable = { λ v w. %(comparable)s v.list w.list };

    ghost first_is_known = { λ v.
        %(distinct)s.known v.list };

    ghost readable_if_distinct = { λ e v.
        %(distinct)s.readable e v.list };

    ghost comparable_if_distinct = { λ e v w.
        %(distinct)s.comparable e v.list w.list };
}
"""


def write_field_lists() -> dict[str, str]:
    """The files of all lists, by their paths in the crate."""
    return {"src/fields.rt": root()} | {f"src/fields/{word}.rt": FieldList(size + 1).text() for size, word in enumerate(SIZES)}


def root() -> str:
    """The file that names the others."""
    modules = "".join(f"mod {size};\n" for size in sorted(SIZES))
    names = "".join(f"pub use {size}::Fields{SIZES.index(size) + 1};\n" for size in sorted(SIZES))
    return f"{ROOT_DOC}\n{modules}\n{names}"


def at(place: int) -> str:
    """The path of the field at this place, from the list's struct."""
    return "list" + ".rest" * place + ".first"


def rest(words: str) -> str:
    """A word of the list's laws, with what it takes of the fields behind."""
    step, *members = words.split()
    return f"({step} " + " ".join(f"Rest.{member}" for member in members) + ")"


class FieldList:
    """The list of this many fields."""

    def __init__(self, size: int) -> None:
        self.size = size
        self.types = TYPES[:size]
        self.places = PLACES[:size]

    def text(self) -> str:
        words = self.names() | self.struct() | self.code() | self.copies() | self.tags()
        return (HEAD + STRUCT + MEANING + CODE + LAWS) % words

    def bounds(self, trait: str) -> str:
        return ", ".join(f"{type_}: {trait}" for type_ in self.types)

    def nested(self, step: Callable[[int, str, str], str], end: str) -> str:
        """What a step makes of each field and of what it made of those behind, from the last field on."""
        for place in reversed(range(self.size)):
            end = step(place, self.types[place], end)
        return end

    def chain(self, step: Callable[[int, str], str], end: str) -> str:
        """The words of a step for each field, before those of the next, in parentheses from the second on."""

        def joined(place: int, type_: str, behind: str) -> str:
            words = f"{step(place, type_)} {behind}"
            return words if place == 0 else f"({words})"

        return self.nested(joined, end)

    def fold(self, words: str, end: str, between: str = " ") -> str:
        """A word of the list's laws, with what it takes of each field."""
        step, *members = words.split()
        return self.nested(lambda _, t, behind: f"({step} " + " ".join(f"{t}.{m}" for m in members) + f"{between}{behind})", end)

    def listed(self, end: str, places: list[str]) -> str:
        return self.chain(lambda place, _: f"field {places[place]}", end)

    def names(self) -> dict[str, str]:
        """How the list and its fields are called."""
        name, params = f"Fields{self.size}", ", ".join(self.types)
        list_type = self.nested(lambda _, t, behind: f"Field<{t}, {behind}>", "Rest")
        return {
            "title": f"{SIZES[self.size - 1].capitalize()} field" + "s" * (self.size > 1),
            "these": "this field" if self.size == 1 else "these fields",
            "counted": "field" if self.size == 1 else "fields, in their order",
            "name": name,
            "params": params,
            "self": f"{name}<{params}, Rest>",
            "list": list_type,
            "list_path": list_type.replace("<", "::<", 1),
            "places": ", ".join(self.places),
            "arguments": ", ".join(f"{place}: {type_}" for place, type_ in zip(self.places, self.types)),
        }

    def struct(self) -> dict[str, str]:
        """The calls that make a list and take it apart."""
        built = [f"let rest = Field {{ first: {place}, rest }};" for place in reversed(self.places[1:])]
        accessors = [ACCESSOR % {"place": p, "type": t, "at": at(place)} for place, (p, t) in enumerate(zip(self.places, self.types))]
        return {
            "ended": self.listed("end", self.places),
            "whole": self.listed("rest", self.places),
            "parts": self.listed("end", [f"result.{place}" for place in range(self.size)]),
            "taken": ", ".join(at(place) for place in range(self.size)),
            "built": NEW_LINE.join([*built, "let list = Field { first, rest };"]),
            "accessors": "".join(accessors),
            "behind": "list" + ".rest" * self.size,
        }

    def code(self) -> dict[str, str]:
        """Reading, writing and the order."""
        decoded = "<Rest as DecodeFields<'a, R>>::TAKES_MEMORY"
        return {
            "form": self.bounds("Form"),
            "list_form": self.fold("field_list Form", "Rest.list"),
            "decode_field": self.bounds("DecodeField<'a, R>"),
            "needs": self.chain(lambda _, t: f"{t}.DecodeField.TAKES_MEMORY ||", "Rest.DecodeFields.TAKES_MEMORY"),
            "needs_code": self.chain(lambda _, t: f"<{t} as DecodeField<'a, R>>::TAKES_MEMORY ||", decoded),
            "memory": self.chain(lambda _, t: f"either_memory {t}.DecodeField.takes_memory_is", "Rest.DecodeFields.takes_memory_is"),
            "encode": self.bounds("Encode"),
            "first_tag": self.bounds("FirstTag"),
            "starts": self.fold("starts_step Form starts", rest("rest_starts list starts_fields")),
            "ordered": self.bounds("DerOrd + FirstTag"),
        }

    def copies(self) -> dict[str, str]:
        """Equality and copies."""
        equality = rest("rest_equality list starts_fields eq fields_eq")
        copies = rest("rest_copies list starts_fields are_copies copy_joined copy_all_comparable copy_re_read")
        equal_copies = rest("rest_equal_copies are_copies eq copies_are_equal")
        of_copy = "copies_step Form is_copy starts copy_encoding copy_comparable copy_re_reads"
        return {
            "equal": self.bounds("EncodingEq + FirstTag"),
            "equality": self.fold("equality_step Form eq encoding_eq starts own_first_tag same_beginning", equality, NEW_LINE),
            "copied": self.bounds("Duplicate + FirstTag"),
            "are_copies": self.fold("both is_copy", "Rest.are_copies"),
            "copy_memory": self.chain(lambda _, t: f"{t}.takes_memory_to_copy ||", "Rest.take_memory_to_copy"),
            "copies": self.fold(of_copy, copies, NEW_LINE),
            "equally_copied": self.bounds("DuplicateIsEqual + FirstTag"),
            "equal_copies": self.fold("equal_copies_step is_copy eq copy_is_equal", equal_copies, NEW_LINE),
        }

    def tags(self) -> dict[str, str]:
        """Which lists have distinct tags."""
        members = "list first_tags TAGS_ARE_DISTINCT each_readable each_comparable"
        distinct = rest(f"rest_distinct {members} first_is_known readable_if_distinct comparable_if_distinct")
        step = "distinct_step Form known_tags MAY_BE_ABSENT own_first_tag are_known is_there"
        return {
            "known": self.bounds("KnownTags + FirstTag"),
            "tags": self.fold("tags_after MAY_BE_ABSENT known_tags", rest("list_tags first_tags TAGS_ARE_DISTINCT")),
            "readable": self.fold("each readable", "Rest.each_readable"),
            "comparable": self.fold("both comparable", "Rest.each_comparable"),
            "distinct": self.fold(step, distinct, NEW_LINE),
        }
