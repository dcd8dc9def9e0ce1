"""The traits of a type with one tag, which hand on to the one member that it holds."""

from __future__ import annotations

from ..model import Definition
from ..properties import properties_of_definition
from .names import RUST
from .source import Source


def derives(definition: Definition, is_shown: bool = True) -> str:
    """What the compiler derives: small values are copied, and a value is shown but where that is written out."""
    debug = "Debug, " if is_shown else ""
    if properties_of_definition(definition).is_copy:
        return f"#[derive(Clone, Copy, {debug}PartialEq, Eq)]"
    return f"#[derive({debug}PartialEq, Eq, Drop)]"


def one_tag(source: Source, definition: Definition, whole: str, lifetime: str, marker: str) -> None:
    """The tag, and that it is that of a SEQUENCE where it is."""
    source.add(f"impl{lifetime} {source.use('OneTag')} for {whole} {{\n    type Marker = {marker};\n}}")
    if marker == RUST["SequenceTag"][1]:
        source.add(
            f"impl<'a> {source.use('Sequence')}<'a> for {whole} {{\n"
            f"    ghost {source.member('is_sequence')} = {{ {source.word('refl')} }};\n}}"
        )


def code_traits(
    source: Source, definition: Definition, lifetime: str, member: str, held: str, is_list_of_fields: bool
) -> None:
    """Reading and writing of contents octets, by the member."""
    decode_value(source, definition, lifetime, member, held, is_list_of_fields)
    trait = "EncodeFields" if is_list_of_fields else "EncodeValue"
    source.use(trait)
    length = "fields_len" if is_list_of_fields else "value_len"
    encode = "encode_fields" if is_list_of_fields else "encode_value"
    error, len_type = source.use("Error"), source.use("Length")
    source.add(
        f"impl{lifetime} {source.use('EncodeValue')} for {definition.rust}{lifetime} {{\n"
        f"    fn value_len(&self) -> Result<{len_type}, {error}> {{\n        self.{member}.{length}()\n    }}\n\n"
        f"    fn encode_value<W: {source.use('Writer')}>(&self, writer: &mut W) -> Result<(), {error}> {{\n"
        f"        self.{member}.{encode}(writer)\n    }}\n\n"
        f"    fn encode_value_back<W: {source.use('BackWriter')}>(&self, writer: &mut W) -> Result<(), {error}> {{\n"
        f"        self.{member}.{encode}_back(writer)\n    }}\n}}"
    )


def decode_value(
    source: Source, definition: Definition, lifetime: str, member: str, held: str, is_list_of_fields: bool
) -> None:
    takes = "true" if properties_of_definition(definition).takes_memory else "false"
    need, law = source.member("TAKES_MEMORY"), source.member("takes_memory_is")
    source.word(takes)
    source.word("refl")
    if is_list_of_fields:
        source.use("DecodeFields")
    call = "decode_fields(alloc, reader)" if is_list_of_fields else "decode_value(alloc, reader, header)"
    header = "_header" if is_list_of_fields else "header"
    whole = f"{definition.rust}{lifetime}"
    body = (
        f"        match {held}::{call} {{\n            Ok({member}) => Ok({definition.rust} {{ {member} }}),\n"
        f"            Err(e) => Err(e),\n        }}\n"
    )
    if not is_list_of_fields:
        # (the borrow checker has no rule for `?` on a list of fields that borrow)
        body = f"        let {member} = {held}::{call}?;\n        Ok({definition.rust} {{ {member} }})\n"
    source.add(
        f"impl<'a, R: {source.use('Source')}<'a>> {source.use('DecodeValue')}<'a, R> for {whole} {{\n"
        f"    ghost {need} = {{ {takes} }};\n\n    const {need}: bool = {takes};\n\n"
        f"    fn decode_value(alloc: {source.use('Global')}, reader: &mut R, {header}: {source.use('Header')}) "
        f"-> Result<{whole}, {source.use('Error')}> {{\n"
        f"{body}    }}\n\n    ghost {law} = {{ refl }};\n}}"
    )


def value_order(source: Source, whole: str, lifetime: str, body: str, trait: str) -> None:
    """The order of contents octets."""
    source.use(trait)
    source.add(
        f"impl{lifetime} {source.use('ValueOrd')} for {whole} {{\n"
        f"    fn value_cmp(&self, other: &{whole}) -> Result<{source.use('Ordering')}, {source.use('Error')}> {{\n"
        f"        {body}\n    }}\n}}"
    )


def copy_is_duplicate(source: Source, whole: str, lifetime: str) -> None:
    """A small value's copies are the value."""
    source.add(f"impl{lifetime} {source.use('CopyIsDuplicate')} for {whole} {{}}")


COPIES = ("octets_are", "comparable_are", "re_reads_are", "equal_are")


def copy_laws(source: Source, whole: str, lifetime: str, term: str) -> None:
    """The laws of a type's copies, as one member."""
    source.add(
        f"impl{lifetime} {source.use('CopyLaws')} for {whole} {{\n"
        f"    ghost {source.member('copies')} = {{ {source.word('copies_of')} ({term}) }};\n}}"
    )


def law_of_copies(source: Source, whole: str, key: str) -> str:
    """One of them."""
    return f"⟦<{whole} as CopyLaws>⟧.{source.member('copies')}.laws.{key}"


def duplicate_value(source: Source, definition: Definition, lifetime: str) -> None:
    """Copies of a value, by those of its fields."""
    quote = f"⟦<Fields{lifetime} as {source.use('DuplicateFields')}>⟧"
    copied, takes = source.member("are_copies"), source.member("take_memory_to_copy")
    whole = definition.rust + lifetime
    names = ("copy_contents", "copy_comparable_value", "copy_re_reads_value")
    laws = [law_of_copies(source, whole, key) for key in COPIES]
    terms = "\n\n".join(f"    ghost {source.member(name)} = {{ {term} }};" for name, term in zip(names, laws))
    source.add(
        f"impl{lifetime} {source.use('DuplicateValue')} for {whole} {{\n"
        f"    ghost {source.member('is_copy_value')} = {{ λ v w. {quote}.{copied} v.fields w.fields }};\n\n"
        f"    ghost {source.member('takes_memory_to_copy_value')} = {{ {quote}.{takes} }};\n\n"
        f"    fn duplicate_value(&self) -> Result<{whole}, {source.use('Error')}> {{\n"
        f"        match self.fields.duplicate_fields() {{\n            Ok(fields) => Ok({definition.rust} {{ fields }}),\n"
        f"            Err(e) => Err(e),\n        }}\n    }}\n\n{terms}\n}}"
    )
    source.add(
        f"impl{lifetime} {source.use('DuplicateValueIsEqual')} for {whole} {{\n"
        f"    ghost {source.member('copy_value_is_equal')} = {{ {law_of_copies(source, whole, 'equal_are')} }};\n}}"
    )
