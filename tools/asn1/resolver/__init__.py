"""The resolver: from the trees of modules to what the writer needs."""

from .modules import resolve

__all__ = ["resolve"]
