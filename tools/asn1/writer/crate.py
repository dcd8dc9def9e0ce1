"""All files of the modules of a crate."""

from __future__ import annotations

from ..errors import AsnError
from ..model import Alias, Choice, Definition, Enumeration, List, ResolvedModule, Struct, is_within
from ..reserved import FILES, TAKEN
from ..spelling import snake
from .aliases import constant_name, write_aliases, write_constants
from .choices import write_choice, write_choice_page, write_order_proof
from .enumerations import write_enumeration, write_enumeration_page
from .defaults import markers_of, write_defaults
from .grammar import GrammarPage
from .lists import write_list
from .module_laws import write_laws
from .octets_proofs import write_octets_proof
from .pages import write_list_page, write_struct_page
from .plan import DEFAULT_LAWS, DEFAULTS, Plan, is_apart
from .structs import write_struct

MARK = "Made by tools/asn1"


def files_of_crate(plan: Plan, modules: list[ResolvedModule]) -> dict[str, str]:
    """All files of a crate, by their paths in its folder."""
    targets = [plan.targets[module.name] for module in modules]
    for module in modules:
        check_names(module)
    files: dict[str, str] = {}
    for module in modules:
        for path, text in write_module(plan, module).items():
            files[path] = marked(path, text, module.file)
    standards = ", ".join(module.name for module in modules)
    sources = "\n".join(f"pub mod {name};" for name in sorted(target.module for target in targets))
    pages = "".join(f"pub mod {target.page}\n" for target in targets)
    files["src/lib.rt"] = f"//! The types of {standards}.\n//!\n//! {MARK}.\n#![tactic(auto)]\n\n{sources}\n"
    files["specs/Lib.antt"] = f"-- {MARK}.\n{pages}"
    return files


def marked(path: str, text: str, file: str) -> str:
    """A file says in its second line who made it, and from what."""
    first, rest = text.split("\n", 1)
    name = file.split("/")[-1]
    if path.endswith(".antt"):
        return f"{first}\n-- {MARK} from {name}.\n{rest}"
    return f"{first}\n//!\n//! {MARK} from {name}.\n{rest}"


def check_names(module: ResolvedModule) -> None:
    """Names of a module differ, and in more than their capitals: of its types, and of the files that each module has."""
    seen: dict[str, str] = {name: f"'{name}', a file that each module has" for name in FILES}
    if markers_of(module):
        seen[DEFAULTS] = f"'{DEFAULTS}', a file of this module"
        seen[DEFAULT_LAWS.lower()] = f"'{DEFAULT_LAWS}', a page of this module"
    seen |= {marker.rust.lower(): f"the type '{marker.rust}' of a default" for marker in markers_of(module)}
    for definition in sorted(module.definitions, key=is_within, reverse=True):
        check_name(definition)
        name = definition.rust
        if name.lower() in seen:
            raise AsnError(
                definition.place,
                f"the name '{name}' is taken by {seen[name.lower()]}",
                f"write '-- @name(..)' after the assignment, as '@name({name}Value)'",
            )
        seen[name.lower()] = f"'{name}' of '{definition.name}'"


def write_module(plan: Plan, module: ResolvedModule) -> dict[str, str]:
    """The files of one module of ASN.1."""
    target = plan.targets[module.name]
    files: dict[str, str] = {}
    for definition in module.definitions:
        if is_apart(definition):
            continue
        files[f"src/{target.module}/{snake(definition.rust)}.rt"] = write_definition(plan, definition)
        page = write_page(plan, definition)
        if page:
            files[f"specs/{target.page}/{definition.rust}.antt"] = page
        if isinstance(definition, Choice):
            files.update(write_order_proof(plan, definition))
        if isinstance(definition, Struct):
            files.update(write_octets_proof(plan, definition))
    aliases = [found for found in module.definitions if is_apart(found)]
    if aliases:
        files[f"src/{target.module}/aliases.rt"] = write_aliases(plan, target, aliases, module.name)
    if module.constants:
        files[f"src/{target.module}/constants.rt"] = write_constants(plan, target, module.constants, module.name)
    files.update(write_defaults(plan, module))
    files[f"src/{target.module}/laws.rt"] = write_laws(plan, module)
    files[f"specs/{target.page}/Grammar.antt"] = GrammarPage(plan, module).text()
    files[f"src/{target.module}.rt"] = root(plan, module)
    pages = sorted(path.split("/")[-1][: -len(".antt")] for path in files if path.startswith("specs/"))
    files[f"specs/{target.page}.antt"] = f"-- The types of {module.name}.\n" + "".join(f"pub mod {name}\n" for name in pages)
    return files


def check_name(definition: Definition) -> None:
    """A type may not have the name of one that its file uses."""
    if definition.rust in TAKEN:
        raise AsnError(
            definition.place,
            f"'{definition.rust}' is the name of something that the written file uses",
            f"write '-- @name(..)' after the assignment, as '@name({definition.rust}Value)'",
        )


def write_definition(plan: Plan, definition: Definition) -> str:
    if isinstance(definition, Struct):
        return write_struct(plan, definition)
    if isinstance(definition, Choice):
        return write_choice(plan, definition)
    if isinstance(definition, List):
        return write_list(plan, definition)
    assert isinstance(definition, Enumeration)
    return write_enumeration(plan, definition)


def write_page(plan: Plan, definition: Definition) -> str | None:
    if isinstance(definition, Struct):
        has_page = not definition.is_holder and (definition.fields or definition.has_additions)
        return write_struct_page(plan, definition) if has_page else None
    if isinstance(definition, Choice):
        return write_choice_page(plan, definition)
    if isinstance(definition, List):
        return write_list_page(plan, definition)
    if isinstance(definition, Enumeration):
        return write_enumeration_page(plan, definition)
    return None


def root(plan: Plan, module: ResolvedModule) -> str:
    """The module's own file: what it has, and where that stands."""
    by_file: dict[str, list[str]] = {}
    for definition in module.definitions:
        names = by_file.setdefault(plan.file(definition), [])
        if isinstance(definition, Struct) and definition.is_holder:
            continue
        names.append(definition.rust)
        if isinstance(definition, Alias):
            names += [constant_name(definition, one) for one in (*definition.numbers, *definition.bits)]
    if markers_of(module):
        by_file[DEFAULTS] = [marker.rust for marker in markers_of(module)]
    lines = [f"//! {module.name}.", ""]
    lines += [f"mod {name};" for name in sorted(by_file)]
    lines += ["pub mod constants;"] if module.constants else []
    lines += ["pub mod laws;", ""]
    for name, names in sorted(by_file.items()):
        if not names:
            continue
        listed = names[0] if len(names) == 1 else "{" + ", ".join(sorted(names)) + "}"
        lines.append(f"pub use {name}::{listed};")
    return "\n".join(lines) + "\n"
