"""The lists of steps in C, Rust, Go and Python: the lines within an enum, a class or a declaration that is by hand."""

from __future__ import annotations

from ..names import capitals, step_in_c, step_in_go
from ..tables.steps import Step
from ..wrapping import aligned


def described(step: Step) -> str:
    return f"{step.section}: {step.phrase}"


def in_c(steps: list[Step]) -> list[str]:
    """The constants of an enum; old C takes no comma after the last one."""
    commas = [","] * (len(steps) - 1) + [""]
    pairs = [(f"    {step_in_c(step)} = {step.number}{comma}", f"/* {described(step)} */") for step, comma in zip(steps, commas)]
    return aligned(pairs)


def texts_in_c(steps: list[Step]) -> list[str]:
    """The items of a table of sections."""
    return [f'        [{step_in_c(step)}] = "{step.section}",' for step in steps]


def in_rust(steps: list[Step]) -> list[str]:
    lines = []
    for step in steps:
        lines += [f"        /// {described(step)}.", f"        {step.name} = {step.number},"]
    return lines


def in_go(steps: list[Step]) -> list[str]:
    lines = [""]
    for step in steps:
        name, type_ = step_in_go(step)
        lines += [f"\t// {name} is {described(step)}.", f"\t{name} {type_} = {step.number}"]
    return [*lines, ""]


def in_python(steps: list[Step]) -> list[str]:
    lines = []
    for step in steps:
        lines += [f"    {capitals(step.name)} = {step.number}", f'    """{described(step)}."""']
    return lines
