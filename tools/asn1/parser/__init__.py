"""The parser: from the lexical items of modules to their trees."""

from .modules import parse_modules

__all__ = ["parse_modules"]
