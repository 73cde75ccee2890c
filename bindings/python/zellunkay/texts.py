"""Texts: bytes in, bytes out. Nothing is kept between calls, and any thread may make them at any time."""

from ctypes import byref, c_size_t, create_string_buffer
from typing import Any, Callable, NamedTuple, Optional, Union

from . import core

Text = Union[bytes, bytearray, memoryview]


class Refused(RuntimeError):
    """A call was refused, and has changed nothing. `number` is its status: docs/TROUBLE.md has a page for each."""

    def __init__(self, number: int) -> None:
        super().__init__(number)
        self.number = number

    def __str__(self) -> str:
        return f"refused {self.number} {core.NAMES.get(self.number, '')}: {core.status_text(self.number).decode()}"


class Told(NamedTuple):
    """What came of a text: what `poolrun` writes of it, and the status, 0 where all is well."""

    output: bytes
    status: int


def fits(name: str, number: int, most: int, least: int = 0) -> int:
    """The number, where it has room. ctypes would cut it off in silence."""
    if not isinstance(number, int):
        raise TypeError(f"{name} is to be a whole number, and is {number!r}")
    if not least <= number <= most:
        raise OverflowError(f"{name} is to be from {least} to {most}, and is {number}")
    return number


def with_room(call: Callable[[Any, int, Any], int]) -> Told:
    """What a call answers that writes into a room: the room grows until the answer fits."""
    size = 4096
    while True:
        room, needed = create_string_buffer(size), c_size_t()
        status = call(room, size, byref(needed))
        if status != core.TOO_SMALL:
            return Told(room.raw[: needed.value], status)
        size = needed.value


def _bytes(text: Text) -> bytes:
    return bytes(memoryview(text))


def audit(text: Text) -> Told:
    """Judges the text of a record, as `poolrun audit` does."""
    given = _bytes(text)
    return with_room(lambda room, size, needed: core.audit(given, len(given), room, size, needed))


def steps(text: Text) -> Told:
    """Plays a scenario, as `poolrun steps` does."""
    given = _bytes(text)
    return with_room(lambda room, size, needed: core.steps(given, len(given), room, size, needed))


def explore(text: Text, most: int = 1_000_000) -> Told:
    """To what all interleavings of the callers lead that a text says. The status is 37 where more than `most` states are reached."""
    given, states = _bytes(text), fits("most", most, core.MOST_64)
    return with_room(lambda room, size, needed: core.explore(given, len(given), states, room, size, needed))


def now(text: Text, entry: Optional[int] = None) -> Told:
    """What the pool was like after the entry of this number of its record, 0 for the new pool, or after the last."""
    given, number = _bytes(text), core.THE_END if entry is None else fits("entry", entry, core.MOST_64)
    return with_room(lambda room, size, needed: core.now(given, len(given), number, room, size, needed))
