"""Program tables in the writing, and the programs that take most stack."""

from __future__ import annotations

from typing import List, NamedTuple, Tuple

MAX_NODES = 96
MAX_TEXT = 4096


class Draft:
    """A table to which nodes are added one by one, lowest first.

    It writes what it is told and tests nothing, so that wrong tables can be
    written too. Each method gives the number of the node that it added.
    """

    def __init__(self) -> None:
        self.kinds = b""
        self.operands = b""
        self.pool = b""

    def table(self) -> bytes:
        """The table as it stands; the last node is the whole program."""
        sizes = bytes([len(self.kinds), *divmod(len(self.pool), 256)])
        return sizes + self.kinds + self.operands + self.pool

    @property
    def last(self) -> int:
        return len(self.kinds) - 1

    @property
    def left(self) -> int:
        """How many nodes can still be added."""
        return MAX_NODES - len(self.kinds)

    def add(self, kind: int, a: int = 0, b: int = 0, c: int = 0) -> int:
        self.kinds += bytes([kind])
        self.operands += bytes([a, b, c])
        return self.last

    def word(self, text: bytes) -> int:
        start = len(self.pool)
        self.pool += text
        return self.add(0, *divmod(start, 256), len(text))

    def range(self, first: bytes, last: bytes) -> int:
        return self.add(1, first[0], last[0])

    def join(self, a: int, b: int) -> int:
        return self.add(2, a, b)

    def union(self, a: int, b: int) -> int:
        return self.add(3, a, b)

    def repeat(self, a: int) -> int:
        return self.add(4, a)

    def set(self, *pairs: bytes) -> int:
        """Each pair is a first and a last byte."""
        start = len(self.pool)
        self.pool += b"".join(pairs)
        return self.add(5, *divmod(start, 256), len(pairs))

    def some(self, a: int) -> int:
        """One text of a pattern or more: two nodes."""
        return self.join(a, self.repeat(a))

    def any_of(self, *words: bytes) -> int:
        """A word of several, as unions from the left."""
        first, *others = [self.word(word) for word in words]
        for word in others:
            first = self.union(first, word)
        return first

    def row(self, *patterns: int) -> int:
        """Patterns one behind the other, as joins from the left."""
        first, *others = patterns
        for pattern in others:
            first = self.join(first, pattern)
        return first

    def copy(self, pattern: int) -> int:
        return self.add(16, pattern)

    def const(self, pattern: int, sheet: int, default: int) -> int:
        return self.add(17, pattern, sheet, default)

    def key(self, pattern: int) -> int:
        return self.add(18, pattern)

    def lens_join(self, a: int, b: int) -> int:
        return self.add(19, a, b)

    def lens_union(self, a: int, b: int) -> int:
        return self.add(20, a, b)

    def lens_repeat(self, a: int) -> int:
        return self.add(21, a)

    def match(self, a: int) -> int:
        return self.add(22, a)

    def copy_word(self, text: bytes) -> int:
        return self.copy(self.word(text))


def k(label: int = 18) -> bytes:
    """Program K of document 01, node by node. With label 16 its names are copied, and no keys."""
    draft = Draft()
    draft.pool = b"0;"
    nodes: List[Tuple[int, ...]] = [
        (1, 65, 90), (4, 0), (2, 0, 1), (1, 48, 57), (4, 3), (0, 0, 0, 0), (0, 0, 0, 1), (0, 0, 1, 1),
        (label, 2), (17, 4, 5, 6), (16, 7), (19, 9, 10), (19, 8, 11), (22, 12), (21, 13),
    ]
    for node in nodes:
        draft.add(*node)
    return draft.table()


class Large(NamedTuple):
    """A program that takes much stack, with a put and its result."""

    name: str
    table: bytes
    sheet: bytes
    source: bytes
    result: bytes


def large_programs() -> List[Large]:
    """The programs of bindings/rust/tests/common/stack.rs that take most: up to 1,861,744 bytes for a put."""
    return [joins(), joins_inside_a_long_sheet(), joins_over_a_long_sheet(), nest_over_long_keys()]


def full_and_ambiguous() -> bytes:
    """The refused program whose clash takes most stack: 127 letters or more, repeated, and joins of that and of nothing."""
    draft = Draft()
    nothing = draft.copy_word(b"")
    letters = draft.copy(draft.some(draft.word(b"a")))
    for _ in range(2):
        letters = draft.lens_join(draft.copy_word(b"a" * 63), letters)
    while draft.left > 1:
        draft.lens_join(nothing, letters)
    draft.lens_repeat(letters)
    return draft.table()


def join_on(draft: Draft, lens: int, keep: int = 0) -> int:
    """Fills the program up but for so many nodes: each new node joins that lens and the last node."""
    joined = draft.left - keep
    for _ in range(joined):
        draft.lens_join(lens, draft.last)
    return joined


def joins() -> Large:
    """The deepest get: all nodes but two are joins."""
    draft = Draft()
    joined = join_on(draft, draft.copy_word(b"a"))
    text = b"a" * (joined + 1)
    return Large("joins", draft.table(), text, text, text)


def joins_inside_a_long_sheet() -> Large:
    """An old entry of 4,096 bytes with a sheet of 62 times as many, at the foot of many joins.

    The sheet's entry has another key, so it is created.
    """
    draft = Draft()
    nothing = draft.copy_word(b"")
    short = draft.key(draft.word(b"y"))
    source = draft.word(b"n")
    wide = draft.const(source, draft.word(b"x" * 62), source)
    draft.lens_repeat(draft.lens_union(short, wide))
    join_on(draft, nothing, keep=1)
    draft.match(draft.last)
    return Large("joins inside a long sheet", draft.table(), b"y", b"n" * MAX_TEXT, b"y")


def joins_over_a_long_sheet() -> Large:
    """256 old entries, one with a sheet of over 4,096 bytes, below many joins.

    The first entry of the sheet is that of `nn;`, and the second is new.
    """
    wide = b"x" * 40
    draft = Draft()
    key = draft.key(draft.some(draft.word(b"x")))
    source = draft.word(b"n")
    wides = draft.lens_repeat(draft.const(source, draft.word(wide), source))
    either = draft.lens_union(key, wides)
    end = draft.copy_word(b";")
    draft.lens_repeat(draft.match(draft.lens_join(either, end)))
    ends = b";" * join_on(draft, end)
    sheet = ends + wide * 2 + b";x;"
    old = ends + b"nn;" * 255 + b"n" * 128 + b";"
    return Large("joins over a long sheet", draft.table(), sheet, old, ends + b"nn;x;")


def nest_over_long_keys() -> Large:
    """256 old entries with keys of 64 bytes, inside repeats of repeats.

    The first entry of the sheet is that of `n`, and the second is new.
    """
    draft = Draft()
    opened, closed = draft.copy_word(b"("), draft.copy_word(b")")
    shown = b"x" * 63 + b";"
    line = draft.join(draft.repeat(draft.word(b"x")), draft.word(b";"))
    source = draft.word(b"n")
    wide = draft.const(source, draft.word(shown), source)
    draft.lens_repeat(draft.match(draft.lens_union(draft.key(line), wide)))
    levels = draft.left // 3
    for _ in range(levels):
        draft.lens_repeat(draft.lens_join(opened, draft.lens_join(draft.last, closed)))
    sheet, old, result = [b"(" * levels + text + b")" * levels for text in (shown + b"x;", b"n" * 256, b"nx;")]
    return Large("nest over long keys", draft.table(), sheet, old, result)
