"""Kerning sources as plain sheets, and edited sheets back as sources.

A lens program, given as a table of bytes, says how a source and its sheet
belong together. Every text is bytes, and every call checks the program itself:

    check(table)                gives the number of nodes
    get(table, source)          gives the sheet of a source
    put(table, sheet, source)   gives the new source for an edited sheet
    create(table, sheet)        gives a source for a sheet alone
    clash(table)                shows why a program is refused with 7 to 11

Two calls need no program; they are for the kerning of Adobe's metrics (AFM):

    afm_import(section)         gives the sheet of a section
    afm_export(sheet)           gives the section of a sheet

The new source of a put has with it a tally of the entries kept, made and
dropped. A clash is a text that the program could read in two ways. What the
engine turns down is raised as a Refusal. This module only hands the bytes over;
the engine is a shared library, which bindings/python/build makes.
"""

from __future__ import annotations

import ctypes
import functools
import os
import threading
from concurrent.futures import Future
from typing import Any, Callable, Dict, NamedTuple, Optional, Tuple, Type, Union

__all__ = [
    "AFM_SENTENCES", "MAX_AFM", "MAX_CLASH", "MAX_TEXT", "SENTENCES", "Clash", "NewSource", "Refusal", "Tally",
    "afm_export", "afm_import", "check", "clash", "create", "get", "put",
]

#: The longest source, sheet and result, in bytes.
MAX_TEXT = 4096

#: The longest text that a clash can have, in bytes.
MAX_CLASH = 16512

#: The longest section of Adobe's metrics, and the longest sheet beside it, in bytes.
MAX_AFM = 65535

#: What each refusal means and what to do, in the words of the command line.
SENTENCES: Dict[int, str] = {
    1: "The sizes of the table are wrong, so it is no whole program:"
       " make it again with noontrough assemble, and copy it as binary.",
    2: "This node is of a kind that the engine does not know:"
       " the table was damaged or made for another engine, so make it again.",
    3: "An operand of this node breaks a rule, or the last node is no lens:"
       " see what each kind takes, and put the whole program last.",
    4: "This node is a match that holds another match:"
       " decide which of the two is the entry, and take the other match away.",
    5: "This node passes size 512 or 128 positions a side:"
       " use ranges and repeats for long words, and say once what arms share.",
    6: "The default of this const is no text of its pattern:"
       " give a default that fits, or let the pattern take this one.",
    7: "A source of this join can be cut in two ways:"
       " put a mark between the halves, or make one lens of both.",
    8: "A sheet of this join can be cut in two ways:"
       " show a mark between the halves, or make one lens of both.",
    9: "A text is a source of both arms of this union:"
       " write arms that share no source, or make one lens of both.",
    10: "A source of this repeat can be cut into parts in two ways, or a part can be empty:"
        " give each part an end of its own.",
    11: "A sheet of this repeat can be cut into parts in two ways, or a part can be empty:"
        " end each part with a mark that the sheet shows.",
    12: "The source or the sheet is longer than 4,096 bytes:"
        " divide it at the ends of entries.",
    13: "The source is none of this program:"
        " correct what the program does not foresee, often a newline at the end of the file.",
    14: "The sheet is none of this program:"
        " correct what the program does not foresee, often a newline at the end of the file.",
    15: "The old source has more than 256 entries:"
        " divide it, or let match mark larger pieces.",
    16: "The result would be longer than 4,096 bytes:"
        " divide the sheet or the source.",
    17: "The text that shows the clash is longer than the buffer:"
        " lend 16,512 bytes, which are always enough.",
    18: "The line of this number is not of its form:"
        " see what lines a section and a sheet have, and end each with a newline.",
    19: "The count behind StartKernPairs is not the number of KPX lines:"
        " correct it, or look for lines that are missing.",
}

#: The same for the calls without a program, whose texts may be longer.
AFM_SENTENCES: Dict[int, str] = {
    12: "The section or the sheet is longer than 65,535 bytes:"
        " divide it between two lines, and give each section its own count.",
    16: "The result would be longer than 65,535 bytes:"
        " divide the sheet between two lines, and export each part.",
    18: SENTENCES[18],
    19: SENTENCES[19],
}

BytesLike = Union[bytes, bytearray, memoryview]


class Refusal(Exception):
    """The engine's answer where it gives no result.

    `number` is from 1 to 16, 18 or 19; 17 is for a buffer that is too short for a
    clash, and this module lends none. `node` is the node concerned for 2 to 11,
    counted from 0, for 18 the number of the line, counted from 1, and else 0.
    `sentence` says what the number means and what to do; docs/GUIDE.md has an
    example of each.
    """

    def __init__(self, number: int, node: int, sentences: Dict[int, str] = SENTENCES) -> None:
        # Both go to Exception as they came, so that a refusal can be pickled. A copy gets the sentence as it is here.
        super().__init__(number, node)
        self.number = number
        self.node = node
        self.sentence = sentences.get(number, "The engine gave a number that this module does not know.")

    def __str__(self) -> str:
        return f"refused {self.number} {self.node}: {self.sentence}"


class Tally(NamedTuple):
    """What became of the entries in a put. An entry is a text that a match reads, also an empty one.

    Kept and dropped together are the entries of the old source, kept and made
    together those of the new one. As a str it is a line: kept 1 made 1 dropped 1.
    """

    #: The sheet's entries that took an old entry.
    kept: int
    #: The sheet's entries that took none.
    made: int
    #: The old entries left unused.
    dropped: int

    def __str__(self) -> str:
        return f"kept {self.kept} made {self.made} dropped {self.dropped}"


class NewSource(bytes):
    """The new source that put gives: bytes like every other result, and `tally`, a Tally."""

    tally: Tally

    def __new__(cls, source: bytes, tally: Tally) -> NewSource:
        new = super().__new__(cls, source)
        new.tally = tally
        return new

    def __reduce__(self) -> Tuple[Type[NewSource], Tuple[bytes, Tally]]:
        # How a copy is made, here or in another process: with its tally.
        return type(self), (bytes(self), self.tally)


class Clash(NamedTuple):
    """Why a program is refused with 7 to 11: a text that it could read in two ways.

    Of all such texts it is a shortest one, and among these the lowest in byte order.
    """

    #: The rule, 7 to 11, and the node that breaks it, as check raises them.
    number: int
    node: int
    #: One of the source for 7, 9 and 10, and one of the sheet for 8 and 11.
    text: bytes
    #: The two smallest ends that the first half of a join, or the first part of a repeat, can have in a cut of the
    #: text. Both are 0 where a part can be empty; the text is empty then. None for a union.
    ends: Optional[Tuple[int, int]]
    #: The numbers of a union's two children, both of which have the text. None for a join or a repeat.
    arms: Optional[Tuple[int, int]]

    @property
    def is_in_source(self) -> bool:
        """Whether the text is one of the source, and not one of the sheet."""
        return self.number not in (8, 11)

    @property
    def sentence(self) -> str:
        """What the number means and what to do."""
        return SENTENCES[self.number]


def check(table: BytesLike) -> int:
    """Tests a program, and gives its number of nodes."""
    return _answer("noontrough_check", _READ_STACK, _copied("table", table)).length


def get(table: BytesLike, source: BytesLike) -> bytes:
    """Gives the sheet of a source."""
    return _text("noontrough_get", _READ_STACK, _copied("table", table), _copied("source", source))[0]


def put(table: BytesLike, sheet: BytesLike, source: BytesLike) -> NewSource:
    """Gives the new source for an edited sheet and the old source, with a tally of the entries.

    Entries are found by their keys, and what the sheet does not show comes from
    the old source. Spaces at the end of a key do not count there, so a name may be
    padded; they are written as the sheet has them.
    """
    slices = _copied("table", table), _copied("sheet", sheet), _copied("source", source)
    text, answer = _text("noontrough_put", _WRITE_STACK, *slices)
    return NewSource(text, Tally(answer.kept, answer.made, answer.dropped))


def create(table: BytesLike, sheet: BytesLike) -> bytes:
    """Gives a source for a sheet alone, with the program's defaults for the rest."""
    return _text("noontrough_create", _WRITE_STACK, _copied("table", table), _copied("sheet", sheet))[0]


def clash(table: BytesLike) -> Optional[Clash]:
    """Shows why a program is refused with 7 to 11. None if it is accepted; other refusals are raised."""
    out = ctypes.create_string_buffer(MAX_CLASH)
    answer = _made("noontrough_clash", _CLASH_STACK, _copied("table", table), out)
    if answer.outcome == _ClashAnswer.NO_CLASH:
        return None
    if answer.outcome != _ClashAnswer.CLASH:
        raise Refusal(answer.number, answer.node)
    ways = answer.first, answer.second
    ends, arms = (None, ways) if answer.number == 9 else (ways, None)
    return Clash(answer.number, answer.node, ctypes.string_at(out, answer.length), ends, arms)


def afm_import(section: BytesLike) -> bytes:
    """Gives the sheet of a section of Adobe's metrics: a line left;right;value for each pair, in their order.

    A section is the part of an AFM file from the line StartKernPairs, with its
    count, to the line EndKernPairs, and between them a line KPX left right value
    for each pair.
    """
    return _afm("noontrough_afm_import", _copied("section", section))


def afm_export(sheet: BytesLike) -> bytes:
    """Gives the section of a sheet with lines left;right;value, from which afm_import takes the same sheet."""
    return _afm("noontrough_afm_export", _copied("sheet", sheet))


def _afm(function: str, text: bytes) -> bytes:
    """Makes a call without a program. It needs next to no stack, so it is made on any thread."""
    out = ctypes.create_string_buffer(MAX_AFM)
    answer = getattr(_library(), function)(text, len(text), out, MAX_AFM)
    if answer.number:
        raise Refusal(answer.number, answer.node, AFM_SENTENCES)
    return ctypes.string_at(out, answer.length)


def _copied(name: str, value: BytesLike) -> bytes:
    """The bytes of an argument, as an object that no other thread can change during the call."""
    if type(value) is bytes:
        return value
    if isinstance(value, str):
        raise TypeError(
            f"{name} is a str, and the engine takes bytes: encode it, or read the file in binary, as open(path, 'rb') does"
        )
    try:
        view = memoryview(value)
    except TypeError:
        raise TypeError(f"{name} must be bytes-like, not {type(value).__name__}") from None
    return view.tobytes()


def _text(function: str, stack: int, *slices: bytes) -> Tuple[bytes, _Answer]:
    """Makes a call that gives a text, which comes with the whole answer.

    Every result fits the buffer, and no two calls share one.
    """
    out = ctypes.create_string_buffer(MAX_TEXT)
    answer = _answer(function, stack, *slices, out)
    return ctypes.string_at(out, answer.length), answer


def _answer(function: str, stack: int, *slices: Union[bytes, ctypes.Array]) -> _Answer:
    """Makes a call and gives its answer, if that is a result."""
    answer = _made(function, stack, *slices)
    if answer.number:
        raise Refusal(answer.number, answer.node)
    return answer


def _made(function: str, stack: int, *slices: Union[bytes, ctypes.Array]) -> Any:
    """Makes a call and gives its answer, whatever it is.

    An empty bytes object has an address too, so no pointer is null.
    """
    arguments = [part for each in slices for part in (each, len(each))]
    made = getattr(_library(), function)
    return _with_stack(stack, lambda: made(*arguments))


# The library

class _Answer(ctypes.Structure):
    """struct noontrough_answer of include/noontrough.h."""

    _fields_ = [("number", ctypes.c_uint64), ("node", ctypes.c_uint64), ("length", ctypes.c_uint64)]


class _PutAnswer(_Answer):
    """struct noontrough_put_answer: the same fields, and these behind them."""

    _fields_ = [("kept", ctypes.c_uint64), ("made", ctypes.c_uint64), ("dropped", ctypes.c_uint64)]


class _ClashAnswer(ctypes.Structure):
    """struct noontrough_clash_answer, and two of the outcomes; the third is a refusal."""

    _fields_ = [
        (name, ctypes.c_uint64) for name in ("outcome", "number", "node", "length", "first", "second")
    ]

    NO_CLASH = 0
    CLASH = 1


#: How many slices each function takes, the buffer for the result included, and what it answers.
_FUNCTIONS: Dict[str, Tuple[int, Type[ctypes.Structure]]] = {
    "noontrough_check": (1, _Answer),
    "noontrough_get": (3, _Answer),
    "noontrough_put": (4, _PutAnswer),
    "noontrough_create": (3, _Answer),
    "noontrough_clash": (2, _ClashAnswer),
    "noontrough_afm_import": (2, _Answer),
    "noontrough_afm_export": (2, _Answer),
}

_FOLDER = os.path.dirname(os.path.abspath(__file__))


@functools.lru_cache(maxsize=None)
def _library() -> ctypes.CDLL:
    """The engine's library, loaded by the first call, so that the module can be imported without it."""
    named = os.environ.get("NOONTROUGH_LIBRARY")
    path = os.path.abspath(named or os.path.join(_FOLDER, "libnoontrough.so"))
    if not os.path.isfile(path):
        raise ImportError(f"The engine's shared library is missing: {path}. {_advice(named)}")
    try:
        library = ctypes.CDLL(path)
        for name, (slices, answer) in _FUNCTIONS.items():
            function = getattr(library, name)
            function.argtypes = [ctypes.c_char_p, ctypes.c_size_t] * slices
            function.restype = answer
    except (OSError, AttributeError) as error:
        raise ImportError(f"The engine's shared library can't be used: {path} ({error}). {_advice(named)}") from error
    return library


def _advice(named: Union[str, None]) -> str:
    """What to do about a library that is missing or wrong."""
    if named:
        return "NOONTROUGH_LIBRARY names it: correct that, or unset it to use the library beside the module."
    script = os.path.join(os.path.dirname(_FOLDER), "build")
    if os.path.isfile(script):
        return f"Build it with this command: {script}"
    return "Run bindings/python/build in the repository and install the module again, or name a library in NOONTROUGH_LIBRARY."


# The stack
#
# A call that finds too little stack ends the process. So a call is made on a
# thread of its own where the caller's stack is small, or its size unknown.

#: The most that check and get take, that clash takes, and that any call takes (include/noontrough.h).
_READ_STACK = 704 * 1024
_CLASH_STACK = 832 * 1024
_WRITE_STACK = 1840 * 1024

#: What the caller's own frames may hold already: over 2 MiB have been seen within Python's usual limit of recursion.
_IN_USE = 4096 * 1024

#: The stack of a thread that is started for one call. It is only reserved, and has room for what Python itself takes.
_THREAD_STACK = 4096 * 1024

_Call = Callable[[], Any]

_here = threading.local()
_starting = threading.Lock()


def _with_stack(stack: int, call: _Call) -> Any:
    """Makes a call where it has so many bytes of stack."""
    if _stack_here() >= stack + _IN_USE:
        return call()
    return _on_a_thread(call)


def _stack_here() -> int:
    """The size of this thread's stack. It is asked for once, since the main thread's takes a while to find."""
    try:
        return _here.stack
    except AttributeError:
        _here.stack = _find_stack()
        return _here.stack


def _find_stack() -> int:
    """The size of this thread's stack, and 0 where the system does not tell."""
    try:
        system = ctypes.CDLL(None)
        names = "pthread_self", "pthread_getattr_np", "pthread_attr_getstack", "pthread_attr_destroy"
        this, read, stack_of, destroy = [getattr(system, name) for name in names]
    except (OSError, AttributeError, TypeError):
        return 0
    this.restype = ctypes.c_void_p
    attributes = (ctypes.c_uint64 * 64)()  # more than a pthread_attr_t takes anywhere
    low, size = ctypes.c_void_p(), ctypes.c_size_t()
    if read(ctypes.c_void_p(this()), attributes) != 0:
        return 0
    failed = stack_of(attributes, ctypes.byref(low), ctypes.byref(size))
    destroy(attributes)
    return 0 if failed else size.value


def _on_a_thread(call: _Call) -> Any:
    """Makes a call on a thread of its own, and waits for it."""
    answer: Future = Future()

    def run() -> None:
        try:
            answer.set_result(call())
        except BaseException as error:  # whatever it is, the caller is the one to know
            answer.set_exception(error)

    thread = threading.Thread(target=run, name="noontrough")
    _start(thread)
    thread.join()
    return answer.result()


def _start(thread: threading.Thread) -> None:
    """Starts a thread with a stack that is large enough.

    The size for new threads is one for the whole process, so it is set and put
    back by one thread at a time.
    """
    with _starting:
        before = threading.stack_size(_THREAD_STACK)
        try:
            thread.start()
        finally:
            threading.stack_size(before)
