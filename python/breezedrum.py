"""Breezedrum from Python: the shared object that `tools/shared-object` links, one method for each operation.

    import breezedrum
    checker = breezedrum.Checker()
    table = checker.read_sheet(open("samples/pairs.sheet", "rb").read()).words
    reply = checker.verdict(table, out=(), allowance=1_000_000)
    print(reply)                           # <Reply 0, answered: answer=0, first={2,3}, second={0,1}, visits=6>
    print(reply.yes)                       # False
    print(breezedrum.ids(reply.first))     # {2, 3}

Every operation answers a `Reply`: the number (SPECIFICATION 7) and its fields, 0 where the number does not name a field. What an
answer wrote stands in `words` (a table's words, or sets as masks) or in `text`.

A set of nodes is given as node ids (`{0, 2}`, `[0, 2]`, `()`) or as a mask (`5`), as you like; answers hold masks, and `ids` and `shown`
make them readable. A number that is negative or does not fit 64 bits raises OverflowError before the library is asked.

Buffers are made here, small at first, and a list or a text that does not fit is asked for again with the room it needs. Whoever gives a
`room` is asked once only, and gets the 10 with its count.
"""
from __future__ import annotations

import ctypes
import dataclasses
import enum
import operator
import os
from typing import Any, Iterable, Optional, Set, Tuple, Union

Nodes = Union[int, Iterable[int]]
"""A set of nodes: their ids, or one mask in which node i has the value 2^i."""

Table = Iterable[int]
"""A packed table: 64-bit words, two a record. Two words 0 without inner sets are an unknown archive, which no set satisfies."""

Bytes = Union[bytes, bytearray, memoryview]
TEXT = (str, bytes, bytearray, memoryview)

U8, U64 = ctypes.c_uint8, ctypes.c_uint64

# The room that is lent where the caller gives none. 512 words hold every table; up to 1,024 sets the library walks a list only once.
WORDS, SETS, SHEET, REPORT = 512, 1024, 4096, 65536


class Number(enum.IntEnum):
    """The numbers given back: what each means, and which fields come with it (with 0, the fields of the question)."""

    meaning: str
    fields: Tuple[str, ...]

    def __new__(cls, value: int, meaning: str, fields: str) -> Number:
        self = int.__new__(cls, value)
        self._value_, self.meaning, self.fields = value, meaning, tuple(fields.split())
        return self

    ANSWERED = 0, "answered", ""
    COUNT = 1, "odd word count, no record, or over 256", "place"
    CONTROL = 2, "control word 1,024 or more", "place"
    LEVEL = 3, "first record not level 0, or a level jump", "place"
    NODES = 4, "a 65th level 0 record", "place"
    THRESHOLD = 5, "threshold 0 of a record that is no unknown archive", "place"
    MEMBER = 6, "a member that is no node", "place"
    ENTRIES = 7, "threshold above the entries", "place"
    OUTSIDE = 8, "an argument set or node number outside the nodes", ""
    SPENT = 9, "the allowance ends first", "visits"
    SHORT = 10, "buffer too short", "count"
    DIVIDED = 11, "intact asked of a system with two disjoint quorums", "first second visits"
    MALFORMED = 12, "malformed line", "place"
    UNSPLIT = 13, "a search has no node to split on", ""


def number(value: int, what: str = "a number") -> int:
    """`value`, a whole number of 64 bits; otherwise an OverflowError, or a TypeError for what is no whole number."""
    value = operator.index(value)
    if value < 0:
        raise OverflowError(f"{what} is negative")
    if value >> 64:
        raise OverflowError(f"{what} does not fit 64 bits")
    return value


def mask(nodes: Nodes) -> int:
    """A set of nodes as a mask: `mask({0, 2})` is 5. A mask stays as it is."""
    if isinstance(nodes, TEXT) or not isinstance(nodes, Iterable):
        return number(nodes, "a set")  # type: ignore[arg-type]
    found = 0
    for node in nodes:
        node = number(node, "a node id")
        if node > 63:
            raise OverflowError("a node id is above 63")
        found |= 1 << node
    return found


def ids(nodes: Nodes) -> Set[int]:
    """A mask as a set of node ids: `ids(5)` is {0, 2}."""
    found = mask(nodes)
    return {node for node in range(64) if found >> node & 1}


def shown(nodes: Nodes) -> str:
    """A set as a sheet writes it: `shown(5)` is "0,2", and the empty set is "-"."""
    return ",".join(map(str, sorted(ids(nodes)))) or "-"


PAIR = ("first", "second")


class _Reply(ctypes.Structure):
    _fields_ = [(name, U64) for name in ("number", "place", "nodes", "records", "answer", "set", "rounds", "first", "second", "count", "visits")]


@dataclasses.dataclass(repr=False)
class Reply:
    """What an operation answers. `named` are the fields that the number names; every other field is 0."""

    number: Number
    place: int
    nodes: int
    records: int
    answer: int
    set: int
    rounds: int
    first: int
    second: int
    count: int
    visits: int
    named: Tuple[str, ...] = ()
    words: list = dataclasses.field(default_factory=list)
    text: bytes = b""

    @property
    def yes(self) -> bool:
        """True for a yes and False for a no; a ValueError where the reply is neither."""
        if "answer" not in self.named:
            raise ValueError(f"neither yes nor no: {self!r}")
        return self.answer == 1

    def __bool__(self) -> bool:
        raise TypeError("a reply is neither true nor false: look at its number, and then at yes")

    def __repr__(self) -> str:
        fields = ", ".join(f"{name}={self._shown(name)}" for name in self.named)
        return f"<Reply {int(self.number)}, {self.number.meaning}{': ' * bool(fields)}{fields}>"

    def _shown(self, name: str) -> str:
        value = getattr(self, name)
        return "{%s}" % shown(value).strip("-") if name in ("set", *PAIR) else str(value)


def _words(table: Table) -> ctypes.Array:
    if isinstance(table, TEXT):
        raise TypeError("a table is a list of words; read_sheet makes one from the bytes of a sheet")
    words = [number(word, "a word of the table") for word in table]
    return (U64 * len(words))(*words)


def _bytes(text: Bytes) -> ctypes.Array:
    if not isinstance(text, (bytes, bytearray, memoryview)):
        raise TypeError("a sheet is given as bytes: open its file with 'rb'")
    text = bytes(text)
    return (U8 * len(text)).from_buffer_copy(text)


class Checker:
    """The library. `path` is its shared object, by default the one that tools/shared-object writes."""

    def __init__(self, path: Optional[str] = None) -> None:
        here = os.path.dirname(os.path.dirname(os.path.abspath(__file__)))
        self._library = ctypes.CDLL(path or os.path.join(here, "target", "libbreezedrum.so"))

    # Sheets and tables

    def check(self, table: Table) -> Reply:
        """Is this a table? `nodes` and `records`."""
        return self._ask("check", "nodes records", _words(table))

    def read_sheet(self, sheet: Bytes, room: Optional[int] = None) -> Reply:
        """A sheet as a table, in `words`. The threshold of an unknown archive is written `?`; a written 0 is refused with 5."""
        return self._fill("read_sheet", "count", U64, room, WORDS, _bytes(sheet))

    def write_sheet(self, table: Table, room: Optional[int] = None) -> Reply:
        """A table as a sheet, in `text`."""
        return self._fill("write_sheet", "count", U8, room, SHEET, _words(table))

    def report(self, sheet: Bytes, room: Optional[int] = None) -> Reply:
        """The report on a sheet, in `text`: what the report program prints, a bad sheet's one line included."""
        return self._fill("report", "count", U8, room, REPORT, _bytes(sheet))

    # Questions about one set

    def is_quorum(self, table: Table, out: Nodes, chosen: Nodes) -> Reply:
        """Is `chosen` a quorum, with `out` counted out?"""
        return self._ask("quorum", "answer", _words(table), mask(out), mask(chosen))

    def greatest(self, table: Table, out: Nodes, within: Nodes) -> Reply:
        """The greatest quorum within a set, with `out` counted out: `set` and `rounds`."""
        return self._ask("greatest", "set rounds", _words(table), mask(out), mask(within))

    def blocks(self, table: Table, chosen: Nodes, node: int) -> Reply:
        """Does `chosen` block `node`: is `node` in `chosen`, or do the nodes outside `chosen` not satisfy it?"""
        return self._ask("blocks", "answer", _words(table), mask(chosen), number(node, "the node"))

    # Searches

    def verdict(self, table: Table, out: Nodes, allowance: int) -> Reply:
        """Do all quorums intersect, with `out` counted out? With a no, `first` and `second` are two that do not."""
        return self._ask("verdict", "answer first second visits", _words(table), mask(out), number(allowance, "the allowance"))

    def minimal(self, table: Table, allowance: int, room: Optional[int] = None) -> Reply:
        """The minimal quorums in the listing order, as masks in `words`."""
        return self._fill("minimal", "count visits", U64, room, SETS, _words(table), number(allowance, "the allowance"))

    def blocking(self, table: Table, allowance: int, room: Optional[int] = None) -> Reply:
        """The minimal blocking sets in the listing order, as masks in `words`. With no quorum at all it is the empty set, 0, alone."""
        return self._fill("blocking", "count visits", U64, room, SETS, _words(table), number(allowance, "the allowance"))

    def intact(self, table: Table, ill: Nodes, allowance: int) -> Reply:
        """Who stays intact if the nodes of `ill` fall ill: `set`."""
        return self._ask("intact", "set visits", _words(table), mask(ill), number(allowance, "the allowance"))

    # How the library is asked. Every C function takes its arguments in one order: inputs, sets and numbers, the allowance, the lent buffer.

    def has(self, name: str) -> bool:
        """Does the shared object have the C function breezedrum_NAME?"""
        return hasattr(self._library, "breezedrum_" + name)

    def lend(self, kind: Any, room: int) -> ctypes.Array:
        """The buffer for `room` words (U64) or bytes (U8) that the library is lent; a subclass may lend another."""
        return (kind * room)()

    def _call(self, name: str, *given: Any) -> _Reply:
        if not self.has(name):
            raise NotImplementedError(f"the shared object has no breezedrum_{name}: link it anew with tools/shared-object")
        passed = []
        for one in given:
            passed += [one, ctypes.c_size_t(len(one))] if isinstance(one, ctypes.Array) else [U64(one)]
        function = getattr(self._library, "breezedrum_" + name)
        function.restype = _Reply
        return function(*passed)

    def _reply(self, raw: _Reply, named: str, **wrote: Any) -> Reply:
        values = {name: getattr(raw, name) for name, _ in _Reply._fields_}
        values["number"] = what = Number(raw.number)
        names = what.fields if what else named.split()
        # A yes has no pair; a quorum is never empty, so a 0 there is a field that is not named.
        return Reply(**values, named=tuple(name for name in names if values[name] or name not in PAIR), **wrote)

    def _ask(self, name: str, named: str, *given: Any) -> Reply:
        """A question whose answer is its fields, which `named` names."""
        return self._reply(self._call(name, *given), named)

    def _fill(self, name: str, named: str, kind: Any, room: Optional[int], usual: int, *given: Any) -> Reply:
        """A question whose answer is written into a lent buffer: asked with the usual room, and where that is too short once more."""
        lent = self.lend(kind, usual if room is None else number(room, "the room"))
        raw = self._call(name, *given, lent)
        if raw.number == Number.SHORT and room is None:
            lent = self.lend(kind, raw.count)
            raw = self._call(name, *given, lent)
        if raw.number:
            return self._reply(raw, named)
        wrote = lent[: raw.count]
        return self._reply(raw, named, text=bytes(wrote)) if kind is U8 else self._reply(raw, named, words=wrote)
