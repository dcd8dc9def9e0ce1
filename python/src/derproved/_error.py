"""Why octets are refused."""

from __future__ import annotations


class Error(ValueError):
    """The first fault of octets that are refused, or a refusal of a call."""

    args: tuple[int, str, int | None]

    @property
    def number(self) -> int:
        """The number of the fault, which never changes its meaning: 1 to 17 of octets, 100 and more of a call."""
        return self.args[0]

    @property
    def words(self) -> str:
        """The meaning of the number."""
        return self.args[1]

    @property
    def position(self) -> int | None:
        """How many octets had been read, if that is known. For an item of a list they count from its first octet."""
        return self.args[2]

    def __str__(self) -> str:
        place = "" if self.position is None else f", after {self.position} octets"
        return f"{self.words} ({self.number}){place}"
