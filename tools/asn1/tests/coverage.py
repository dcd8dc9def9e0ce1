#!/usr/bin/env python3
"""How much of the modules in some folders the compiler takes, by parser and resolver, and why it refuses the rest.

    python3 tools/asn1/tests/coverage.py FOLDER.. > table.md

Each type is resolved by itself, so that one refusal does not hide another; a type is refused, too, where one that it names is. A
module is sought in the folder of the file that imports from it, then in its source, then in the other sources. The last columns
count what X.680 allows: they leave out the modules and types that are refused for a reason of `NOT_ALLOWED` (`reasons.py`).
"""

from __future__ import annotations

import sys
from collections import Counter
from dataclasses import dataclass, field
from pathlib import Path

sys.path.insert(0, str(Path(__file__).resolve().parents[2]))

from asn1.command import MOST_CALLS  # noqa: E402
from asn1.errors import AsnError  # noqa: E402
from asn1.reading import text_of_file  # noqa: E402
from asn1.resolver.context import State  # noqa: E402
from asn1.resolver.modules import define_type, is_written, resolved  # noqa: E402
from asn1.scope import Library, Scope, imported_by, scope_of  # noqa: E402
from asn1.syntax import TypeAssignment  # noqa: E402
from asn1.tests.reasons import NOT_ALLOWED, kind_of, name_in  # noqa: E402
from asn1.tests.tolerant import Reading, Span, readings_of  # noqa: E402

SUFFIXES = (".asn1", ".asn")


@dataclass
class Source:
    """A folder, and the modules in it by the folders of their files."""

    name: str
    folders: dict[Path, list[Reading]] = field(default_factory=dict)

    @property
    def readings(self) -> list[Reading]:
        return [reading for readings in self.folders.values() for reading in readings]


@dataclass
class Result:
    """What became of a module."""

    types: int = 0
    taken: int = 0
    unwritten: int = 0  # types that a remark says are not written, since the layer lacks them: no part of those that are taken
    has_imports: bool = True  # all modules that it imports from are there
    reasons: list[tuple[str, bool]] = field(default_factory=list)  # a refused type's, and whether it stands at the type itself
    errors: list[str] = field(default_factory=list)  # of what is no type

    @property
    def is_whole(self) -> bool:
        return not self.reasons and not self.errors

    @property
    def is_allowed(self) -> bool:
        """Whether X.680 allows the module, with those that it imports from."""
        kinds = {kind for kind, _ in self.reasons} | set(self.errors)
        return self.has_imports and not kinds & NOT_ALLOWED

    @property
    def allowed(self) -> int:
        """How many of the types X.680 allows."""
        return self.types - sum(kind in NOT_ALLOWED for kind, _ in self.reasons)


# ---- reading


def source_of(folder: Path) -> Source:
    """All modules in a folder."""
    source = Source("/".join(folder.resolve().parts[-2:]))
    for path in sorted(path for path in folder.rglob("*") if path.suffix in SUFFIXES and path.is_file()):
        source.folders.setdefault(path.parent, []).extend(readings_of_file(path))
    return source


def readings_of_file(path: Path) -> list[Reading]:
    """The modules of a file, which may be none."""
    return readings_of(str(path), text_of_file(path))


def library_of(sources: list[Source], source: Source, folder: Path) -> Library:
    """The modules as they are seen from a folder: its own before the others."""
    library = Library([])
    others = [reading for other in sources for reading in other.readings]
    for reading in (*source.folders[folder], *source.readings, *others):
        library.scopes.setdefault(reading.module.name, tolerant_scope(reading))
    return library


SCOPES: dict[int, Scope] = {}


def tolerant_scope(reading: Reading) -> Scope:
    """The names of a module; the first of each where a name stands twice."""
    if id(reading) not in SCOPES:
        SCOPES[id(reading)] = scope_with_errors(reading)
    return SCOPES[id(reading)]


def scope_with_errors(reading: Reading) -> Scope:
    try:
        return scope_of(reading.module)
    except Exception as error:
        reading.errors.append(error)
    assigned = {one.name: one for one in reversed(reading.module.assignments)}
    return Scope(reading.module, assigned, imported_by(reading.module))


# ---- resolving


class Measure:
    """Resolves the types of the modules of a folder."""

    def __init__(self, library: Library, broken: dict[str, dict[str, Exception]]) -> None:
        self.library = library
        self.state = State(library)
        self.broken = broken

    def result_of(self, reading: Reading) -> Result:
        """What becomes of a module; of one whose name another in the folder has, by itself."""
        scope = tolerant_scope(reading)
        if self.library.scopes.get(reading.module.name) is not scope:
            self.state = State(self.library)
        self.library.scopes[reading.module.name] = scope
        result = Result(has_imports=all(one.module in self.library.scopes for one in reading.module.imports))
        assignments = {one.place: one for one in reading.module.assignments if isinstance(one, TypeAssignment)}
        for span in reading.spans:
            if not span.is_type:
                result.errors += [self.kind(span.error)] if span.error else []
            elif span.error:
                result.types += 1
                result.reasons.append((self.kind(span.error), True))
            else:
                self.add_type(result, span, scope, assignments[span.first])
        result.errors += [self.kind(error) for error in reading.errors + self.module_errors(reading, scope)]
        return result

    def add_type(self, result: Result, span: Span, scope: Scope, assignment: TypeAssignment) -> None:
        """Resolves one type, in a state that is kept where it is taken."""
        attempt = self.state.scratch()
        try:
            if not is_written(attempt, scope, assignment):
                is_lacking = bool(attempt.remarks)
                result.types, result.unwritten = result.types + is_lacking, result.unwritten + is_lacking
                return
            define_type(attempt, scope, assignment)
        except Exception as error:
            is_here = isinstance(error, AsnError) and span.has(error.place) and self.cause(error) is None
            result.reasons.append((self.kind(error), is_here))
        else:
            self.state = attempt
            result.taken += 1
        result.types += 1

    def module_errors(self, reading: Reading, scope: Scope) -> list[Exception]:
        """What is wrong with imports, exports and values."""
        found: list[Exception] = []
        for check in (
            lambda: self.library.check_imports(scope),
            lambda: self.library.check_exports(scope),
            lambda: resolved(self.state.scratch(), reading.module),
        ):
            try:
                check()
            except Exception as error:
                found.append(error)
        return found

    def kind(self, error: Exception | None) -> str:
        """The reason; of a name whose assignment is refused, that of the assignment."""
        assert error is not None
        return kind_of(self.cause(error) or error)

    def cause(self, error: Exception) -> Exception | None:
        """What the parser says of the assignment of a name that an error misses."""
        name = name_in(error)
        return next((names[name] for names in self.broken.values() if name in names), None) if name else None


def results_of(sources: list[Source]) -> dict[str, list[Result]]:
    """What becomes of all modules, by their sources."""
    found: dict[str, list[Result]] = {}
    for source in sources:
        results = found.setdefault(source.name, [])
        for folder, readings in source.folders.items():
            broken = {one.module.name: {s.name: s.error for s in one.spans if s.error} for one in readings}
            measure = Measure(library_of(sources, source, folder), broken)
            results += [measure.result_of(reading) for reading in readings]
    return found


# ---- the table


def share(part: int, whole: int) -> str:
    return f"{100 * part / whole:.1f} %" if whole else "-"


def row(name: str, results: list[Result]) -> str:
    """A line of the table."""
    typed = [one for one in results if one.types]
    there = [one for one in typed if one.has_imports]
    cells = [name, str(len(results)), str(len(typed))]
    for some in (typed, there):
        whole = sum(one.is_whole for one in some)
        types, taken = sum(one.types for one in some), sum(one.taken for one in some)
        cells += [str(len(some))] if some is there else []
        cells += [f"{whole} ({share(whole, len(some))})", str(types), share(taken, types)]
    allowed = [one for one in typed if one.is_allowed]
    whole, types = sum(one.is_whole for one in allowed), sum(one.allowed for one in typed)
    cells += [str(len(allowed)), f"{whole} ({share(whole, len(allowed))})", str(types), share(sum(one.taken for one in typed), types)]
    return f"| {' | '.join(cells)} |"


def table(found: dict[str, list[Result]]) -> list[str]:
    """A line a source, and the sum."""
    lines = [
        "| Source | modules | with types | whole | types | taken | imports there | of these whole | types | taken "
        "| allowed by X.680 | of these whole | types | taken |",
        "|---|---|---|---|---|---|---|---|---|---|---|---|---|---|",
    ]
    lines += [row(name, results) for name, results in found.items()]
    return lines + [row("**all**", [one for results in found.values() for one in results])]


def reasons(found: dict[str, list[Result]]) -> list[str]:
    """All reasons, with how many types each refuses, and how many at the type itself."""
    results = [one for some in found.values() for one in some]
    every = Counter(kind for one in results for kind, _ in one.reasons)
    here = Counter(kind for one in results for kind, is_here in one.reasons if is_here)
    only = Counter(kinds.pop() for one in results if len(kinds := {kind for kind, _ in one.reasons} | set(one.errors)) == 1)
    errors = Counter(kind for one in results if one.types for kind in set(one.errors))
    head = "| Reason | types | at the type itself | modules with it elsewhere | modules that it alone refuses |"
    lines = [head, "|---|---|---|---|---|"]
    for kind, _ in sorted({**errors, **every}.items(), key=lambda item: (-every[item[0]], -errors[item[0]])):
        lines.append(f"| {kind} | {every[kind]} | {here[kind]} | {errors[kind]} | {only[kind]} |")
    unwritten = sum(one.unwritten for one in results)
    return [*lines, f"| not written, and said so: the layer lacks it | {unwritten} | {unwritten} | 0 | 0 |"]


def main(arguments: list[str]) -> int:
    sys.setrecursionlimit(max(sys.getrecursionlimit(), MOST_CALLS))
    if not arguments:
        print("write the folders whose modules are measured", file=sys.stderr)
        return 2
    found = results_of([source_of(Path(argument)) for argument in arguments])
    print("\n".join([*table(found), "", *reasons(found)]))
    return 0


if __name__ == "__main__":
    sys.exit(main(sys.argv[1:]))
