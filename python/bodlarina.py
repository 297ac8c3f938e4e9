"""Bodlarina from Python: a proved simulator of a matrix unit, for a test bench.

One file over ctypes and the shared library libbodlarina.so; Python 3.9 or later, and nothing else. include/bodlarina.h says what each
function does; here a Machine holds the buffers that the library is lent, a line of assembler text may stand wherever a word may, and a
refusal is an exception:

    >>> from bodlarina import Machine
    >>> m = Machine(64, 256, memory=64)
    >>> m.put(0, 8, [12, 40, 7, 0,  3, 99, 15, 2])     # four counts of loop one, four of loop two
    >>> m.x[10], m.x[11] = 0, 4                         # where they lie, and the bytes of a loop
    >>> for line in "msettypei x0, 0", "msettilemi x0, 2", "msettileki x0, 4", "mlae8.m tr0, (x10), x11", "msettilemi x0, 3":
    ...     m.step(line)
    >>> m["tr0"].element(1, 1, width=8)
    99
    >>> m.step("msae8.m tr0, (x10), x11")
    Traceback (most recent call last):
        ...
    bodlarina.Refused: msae8.m tr0, (x10), x11: refused with 5, a register element to be read was never written: row 2, column 0 of tr0

A refusal changes nothing. Numbers that the library can be given are answered by it, with Refused; others, as a word of 33 bits or a
number that is text, raise ValueError or TypeError, and the library is not called. The module sees to all that the header asks of a host: lengths,
buffers that do not overlap, calls on one machine in turn (a machine has a lock, and the calls of several may run at once), and floats as C
starts them. Only machines that share one memory are the caller's to take in turn.

The library is looked for at BODLARINA_LIBRARY (the path of the file), then beside this file, in PREFIX/lib if this file is installed, in the
tree or archive that this file belongs to, and last where the system's loader looks. It has to be of this file's version.
"""

from __future__ import annotations

import ctypes
import operator
import os
import re
import sys
import threading
from collections.abc import Iterable, Sequence
from enum import IntEnum
from pathlib import Path
from typing import Any, Dict, List, NamedTuple, NoReturn, Optional, SupportsIndex, Tuple, Union, overload

__all__ = [
    "Answer", "E16", "E32", "E64", "E8", "ELEN_MOST", "Handed", "Kind", "MACCQ", "MILL", "MLEN_MOST", "Machine", "Plan", "REGISTERS",
    "RLEN_MOST", "Refused", "Register", "Rule", "SEALS_MOST", "Salvaged", "Scalars", "TEXT_BYTES_MOST", "VERSION", "VERSION_NUMBER",
    "Vectors", "image_mlen", "image_salvage", "text_word", "word_text",
]

# ---- the header's numbers, under its names without BODLARINA_; the tests hold them to it ----

VERSION = "0.8.0"
VERSION_NUMBER = 800
_SONAME = "libbodlarina.so." + ".".join(VERSION.split(".")[:2 if VERSION.startswith("0.") else 1])

RLEN_MOST = 4096
MLEN_MOST = 65536
ELEN_MOST = 64
SEALS_MOST = 8
TEXT_BYTES_MOST = 32

# mtype: the element width, and whether sums are four times as wide; MILL is what mtype holds after a value that is illegal
E8, E16, E32, E64 = 0, 1, 2, 3
MACCQ = 8
MILL = 1 << 63

_MACHINE_BYTES = 200
_SCALAR_BYTES = 256
_VECTOR_BYTES = 512
_RUN_BYTES = 160
_RUN_NEXT_AT = 104
_RUN_KIND_AT = 136
_RUN_OVER = 9
_HANDED_BYTES = 24
_STEPS_BYTES = 8
_REPORT_BYTES = 24
_WORD_BYTES = 8


class Rule(IntEnum):
    """The size that a tile setting gives of the size that it asks for."""

    SMALLER = 0  # the smaller of the asked size and the maximum
    HALVING = 1  # the same, but of a size strictly between the maximum and twice it half, rounded up


class Kind(IntEnum):
    """What a product run multiplies."""

    PRODUCT = 0       # A, m by k, times B, k by n
    A_TRANSPOSED = 1  # the same with A kept transposed: k rows of m elements
    FLOAT = 2         # A times B of binary32 numbers


class Answer(IntEnum):
    """What a call is answered with: 0 done, each other number one reason for a refusal."""

    DONE = 0
    ILLEGAL_WORD = 1
    ILLEGAL_TYPE = 2
    BAD_WIDTH = 3
    TILE_TOO_LARGE = 4
    UNWRITTEN = 5
    OUTSIDE_MEMORY = 6
    SEALED_BYTE = 7
    BAD_ARGUMENTS = 8
    OVERLAP = 9
    WRONG_OPCODE = 10
    LEFT_OUT_WORD = 11
    WRONG_REGISTER = 12
    ROWS_OVERLAP = 13
    NO_ROOM = 14
    DAMAGED = 15
    TOO_MANY_SEALS = 16
    BAD_LINE = 17

    @property
    def text(self) -> str:
        """The sentence of the header."""
        return _TEXTS[self]


_TEXTS = (
    "done",
    "no instruction of the draft has these bits",
    "mtype is illegal, set it first",
    "mtype does not allow this element width here",
    "a tile size is above its maximum under mtype, or a slice exceeds its tile or a vector register",
    "a register element to be read was never written",
    "an element lies outside memory",
    "a store would write a sealed byte",
    "the arguments or the state are at fault, or the run is over",
    "C overlaps A, B, a seal or itself",
    "the opcode is not 1110111",
    "an instruction of the draft that is not carried out here",
    "there is no such register, or a vector group starts at no multiple of its size",
    "a byte of a store lies in two of its rows",
    "the image or the line does not fit the room",
    "this is no image, or it is cut short",
    "a machine has at most eight sealed ranges",
    "no line of assembler text goes on at this column",
)


class Refused(Exception):
    """A call was refused, and nothing changed.

    answer    which reason: answer.name is its name in the header, answer.text the sentence
    row       with UNWRITTEN the row of the element that was never written, counted from 0; else 0
    column    with UNWRITTEN its column, counted from 0; with BAD_LINE the column, counted from 1, at which no line can go on; else 0
    place     with DAMAGED, and with NO_ROOM of image_salvage, the place of the first byte at which no image can go on; else 0
    what      the line of assembler text that was refused, or the function
    register  with UNWRITTEN of a step or turn the register that has the element; else empty
    """

    def __init__(self, answer: int, row: int = 0, column: int = 0, place: int = 0, what: str = "", register: str = "") -> None:
        super().__init__(answer, row, column, place, what, register)
        self.answer = Answer(answer)
        self.row = row
        self.column = column
        self.place = place
        self.what = what
        self.register = register

    @property
    def name(self) -> str:
        """The name of the answer."""
        return self.answer.name

    @property
    def text(self) -> str:
        """The sentence of the answer."""
        return self.answer.text

    def __str__(self) -> str:
        said = f"refused with {self.answer.value}, {self.text}"
        if self.what:
            said = f"{self.what}: {said}"
        if self.answer == Answer.UNWRITTEN:
            said += f": row {self.row}, column {self.column}"
            if self.register:
                said += f" of {self.register}"
        elif self.answer == Answer.DAMAGED:
            said += f": place {self.place}"
        elif self.answer == Answer.BAD_LINE:
            said += f": column {self.column}"
        return said


# ---- the library ----

_U64, _I64, _U32 = ctypes.c_uint64, ctypes.c_int64, ctypes.c_uint32
_BUFFER: List[Any] = [ctypes.c_void_p, ctypes.c_size_t]
_PLAN: List[Any] = [_U64] * 6 + [_U64, _I64] * 3

# the arguments of each function
_FUNCTIONS: Dict[str, List[Any]] = {
    "version": [],
    "start": [_U64] * 4 + _BUFFER * 4,
    "seal": [_U64] * 2 + _BUFFER * 3,
    "step": [_U32, _U64] + _BUFFER * 6,
    "run_start": _PLAN + _BUFFER * 5,
    "run_next": _BUFFER * 2,
    "run_steps": _BUFFER,
    "run_turn": _BUFFER * 5,
    "run_turns": [_U64] + _BUFFER * 5,
    "run": _PLAN + _BUFFER * 5,
    "image_size": _BUFFER * 3,
    "image_write": _BUFFER * 4,
    "image_read": _BUFFER * 4,
    "image_salvage": _BUFFER * 3,
    "word_text": [_U32] + _BUFFER,
    "text_word": _BUFFER * 2,
}


def _library_path() -> str:
    """The file of the library, or its name for the system's loader."""
    named = os.environ.get("BODLARINA_LIBRARY")
    if named:
        return named
    here = Path(__file__).resolve().parent
    for folder in here, here / "../../../lib", here / "../lib", here / "../target/sharedlib":
        for name in f"libbodlarina.so.{VERSION}", _SONAME:
            if (folder / name).is_file():
                return str(folder / name)
    return _SONAME


def _load() -> ctypes.CDLL:
    """The library, of this file's version."""
    path = _library_path()
    try:
        library = ctypes.CDLL(path)
        for name, arguments in _FUNCTIONS.items():
            function = getattr(library, "bodlarina_" + name)
            function.argtypes = arguments
            function.restype = _U64
        found = library.bodlarina_version()
    except (AttributeError, OSError) as error:
        raise ImportError(f"no shared library of Bodlarina {VERSION}: {error}; BODLARINA_LIBRARY may name its file") from error
    if found != VERSION_NUMBER:
        numbers = f"{found // 10000}.{found // 100 % 100}.{found % 100}"
        raise ImportError(f"{path} is Bodlarina {numbers}, and this module is of {VERSION}")
    return library


_library = _load()


def _done(result: int, what: str) -> int:
    """The length in the result of a call that is done; raises Refused for any other."""
    answer, rest = result & 0xFFFF, result >> 16
    if answer == Answer.DONE:
        return rest
    if answer == Answer.BAD_LINE:
        raise Refused(answer, column=rest, what=what)
    raise Refused(answer, place=rest, what=what)


# ---- numbers and buffers ----

def _between(value: SupportsIndex, low: int, high: int, what: str) -> int:
    """A whole number from low to high."""
    number = operator.index(value)
    if not low <= number <= high:
        raise ValueError(f"{what} is a number from {low} to {high}, not {number}")
    return number


def _unsigned(value: SupportsIndex, what: str) -> int:
    """A number of 64 bits without sign."""
    return _between(value, 0, 2**64 - 1, what)


def _bytes_of(width: int) -> int:
    """The bytes of an element of so many bits."""
    if width not in (8, 16, 32, 64):
        raise ValueError(f"an element has 8, 16, 32 or 64 bits, not {width}")
    return width // 8


def _split(data: Union[bytes, memoryview], width: int, signed: bool) -> List[int]:
    """Elements one after another, low byte first."""
    size = _bytes_of(width)
    return [int.from_bytes(data[at:at + size], "little", signed=signed) for at in range(0, len(data), size)]


def _joined(width: int, numbers: Iterable[int]) -> bytes:
    """Numbers with or without sign as elements one after another, low byte first."""
    size = _bytes_of(width)
    low, high = -(1 << width - 1), (1 << width) - 1
    return b"".join((_between(n, low, high, f"an element of {width} bits") & high).to_bytes(size, "little") for n in numbers)


def _number_at(view: memoryview, at: int, signed: bool = False) -> int:
    """The number of 64 bits at a byte of a block."""
    return int.from_bytes(view[at:at + 8], "little", signed=signed)


class _Lent:
    """A buffer for the library: `lent` is its address and length. While it is there, what it is made of cannot be resized."""

    __slots__ = ("view", "lent", "_held")

    def __init__(self, buffer: Any) -> None:
        view = memoryview(buffer)  # TypeError, here or below, for one that is none, cannot be written or has gaps
        if view.nbytes == 0:  # an address is lent all the same
            view = memoryview(bytearray())
            self._held = (ctypes.c_uint8 * 1)()
        else:
            view = view.cast("B")
            self._held = (ctypes.c_uint8 * view.nbytes).from_buffer(view)
        self.view = view
        self.lent: Tuple[int, int] = (ctypes.addressof(self._held), view.nbytes)


def _copied(data: Any) -> bytes:
    """The bytes of a buffer; of bytes themselves there is no copy."""
    return data if isinstance(data, bytes) else bytes(memoryview(data))


def _room(asked: Optional[SupportsIndex], most: int) -> _Lent:
    """Room of the asked length, or of `most`, beyond which none is used."""
    return _Lent(bytearray(most if asked is None else min(_between(asked, 0, sys.maxsize, "room"), most)))


def _check_floats() -> None:
    """Whether this thread rounds to the nearest and keeps subnormal numbers, which mfma.mm takes for granted."""
    one, little, least = 1.0, 2.0**-60, sys.float_info.min
    if not (one + little == one == one - little and least / 2 * 2.0**60 > 0):
        raise RuntimeError("floats of this thread are not rounded to the nearest, or subnormal numbers are flushed to zero")


# ---- lines of assembler text ----

def word_text(word: int, room: int = TEXT_BYTES_MOST) -> str:
    """The line of assembler text of a word, as 'mlae8.m tr0, (x10), x11'.

    Refused with 10, 11, 1 or 12 for a word without a line, then with 14 for a line that is longer than room.
    """
    code = _between(word, 0, 0xFFFFFFFF, "a word")
    text = _room(room, TEXT_BYTES_MOST)
    length = _done(_library.bodlarina_word_text(code, *text.lent), f"word 0x{code:08X}")
    return bytes(text.view[:length]).decode("ascii")


def text_word(line: str) -> int:
    """The word of a line of assembler text; refused with 17 and the column if it is no line."""
    if not isinstance(line, str):
        raise TypeError(f"a line is text, not {type(line).__name__}")
    text = line.encode("ascii", "replace")
    word = _Lent(bytearray(_WORD_BYTES))
    _done(_library.bodlarina_text_word(text, len(text), *word.lent), line)
    return _number_at(word.view, 0)


# ---- images ----

class Salvaged(NamedTuple):
    """What image_salvage keeps: a fresh image, the runs kept of those announced, and the place of the fault, or the length if there is none."""

    image: bytes
    kept: int
    announced: int
    place: int


def image_mlen(image: Union[bytes, bytearray, memoryview]) -> int:
    """MLEN of the machine whose image starts like this; 0 if no image does, or too few bytes are there to tell."""
    head = _copied(image)[:5]
    version = head[0] if head else 0
    at = min(version, 3)  # RLEN and MLEN, as exponents, stand behind what belongs to the version
    if not 1 <= version <= 4 or len(head) < at + 2:
        return 0
    rule = head[1] if version >= 2 else 0
    elen = head[2] if version >= 3 else 5
    if rule > 1 or (version == 2 and rule == 0) or not 5 <= elen <= 6:
        return 0
    rlen, mlen = head[at], head[at + 1]
    most = (12, 16) if version >= 3 else (9, 12)
    if not elen < rlen <= most[0] or not rlen < mlen <= most[1]:
        return 0
    if version == 3 and elen == 5 and rlen <= 9 and mlen <= 12:  # a machine that a lower version holds
        return 0
    return 1 << mlen


def image_salvage(image: Union[bytes, bytearray, memoryview], room: Optional[int] = None) -> Salvaged:
    """Keeps what is whole of an image that was cut short or damaged; one without fault comes out as it is.

    Refused with 15 if the header is at fault or cut short, then with 14 if the fresh image is longer than room; both name the place of the fault.
    """
    data = _copied(image)
    fresh, report = _room(room, len(data)), _Lent(bytearray(_REPORT_BYTES))
    length = _done(_library.bodlarina_image_salvage(data, len(data), *fresh.lent, *report.lent), "image_salvage")
    return Salvaged(bytes(fresh.view[:length]), *_split(report.view, 64, False))


# ---- parts of a machine ----

class Scalars(Sequence[int]):
    """x0 to x31, numbers of 64 bits without sign. x0 is 0 and stays 0. A negative number is set in two's complement, as a stride is."""

    __slots__ = ("_view",)

    def __init__(self, view: memoryview) -> None:
        self._view = view

    def __len__(self) -> int:
        return 32

    @overload
    def __getitem__(self, index: int) -> int: ...
    @overload
    def __getitem__(self, index: slice) -> List[int]: ...
    def __getitem__(self, index: Union[int, slice]) -> Union[int, List[int]]:
        slots = range(32)[index]
        return [_number_at(self._view, 8 * slot) for slot in slots] if isinstance(slots, range) else _number_at(self._view, 8 * slots)

    @overload
    def __setitem__(self, index: int, value: int) -> None: ...
    @overload
    def __setitem__(self, index: slice, value: Iterable[int]) -> None: ...
    def __setitem__(self, index: Union[int, slice], value: Any) -> None:
        slots = range(32)[index]
        if not isinstance(slots, range):
            slots, value = range(slots, slots + 1), [value]
        blocks = [_joined(64, [number]) for number in value]
        if len(blocks) != len(slots):
            raise ValueError(f"{len(slots)} scalars are set to {len(blocks)} numbers")
        for slot, block in zip(slots, blocks):
            if slot:
                self._view[8 * slot:8 * slot + 8] = block

    def __repr__(self) -> str:
        return f"Scalars({self[:]})"


class Vectors(Sequence[memoryview]):
    """v0 to v31, each a view of its 16 bytes, which may be read and written. They carry no marks and belong to no image."""

    __slots__ = ("_view",)

    def __init__(self, view: memoryview) -> None:
        self._view = view

    def __len__(self) -> int:
        return 32

    @overload
    def __getitem__(self, index: int) -> memoryview: ...
    @overload
    def __getitem__(self, index: slice) -> List[memoryview]: ...
    def __getitem__(self, index: Union[int, slice]) -> Union[memoryview, List[memoryview]]:
        numbers = range(32)[index]
        if isinstance(numbers, range):
            return [self[number] for number in numbers]
        return self._view[16 * numbers:16 * numbers + 16]

    def __setitem__(self, index: int, value: Union[bytes, bytearray, memoryview]) -> None:
        self[operator.index(index)][:] = value

    def get(self, index: int, width: int, signed: bool = True) -> List[int]:
        """The elements of a register."""
        return _split(self[operator.index(index)], width, signed)

    def put(self, index: int, width: int, numbers: Iterable[int]) -> None:
        """Sets the first elements of a register; those behind them stay."""
        data = _joined(width, numbers)
        if len(data) > 16:
            raise ValueError(f"a vector register has 16 bytes, not {len(data)}")
        self[operator.index(index)][:len(data)] = data


REGISTERS = tuple(f"tr{i}" for i in range(8)) + ("acc0", "acc1")


class Register:
    """A tile register or an accumulator, as a view of its machine: what it shows is what the machine holds now.

    Element (i, j) of w bits starts at byte j * w / 8 of row i, low byte first; rows and columns count from 0.
    """

    __slots__ = ("name", "_machine")

    def __init__(self, machine: Machine, name: str) -> None:
        if name not in REGISTERS:
            raise KeyError(name)
        self.name = name
        self._machine = machine

    @property
    def rows(self) -> int:
        """How many rows it has: MLEN / RLEN."""
        return self._machine.mlen // self._machine.rlen

    @property
    def row_bytes(self) -> int:
        """The bytes of a row: RLEN / 8, of an accumulator RLEN / 2."""
        return self._machine.rlen // (8 if self.name.startswith("tr") else 2)

    def _part(self, view: memoryview) -> memoryview:
        """The bytes of this register in the registers or marks of the machine."""
        size, number = self.rows * self.row_bytes, int(self.name[-1])
        start = number * size if self.name.startswith("tr") else self._machine.mlen + number * size
        return view[start:start + size]

    @property
    def bytes(self) -> memoryview:
        """Its bytes, row by row, to be read only. A byte without a mark holds anything."""
        return self._part(self._machine.registers)

    @property
    def marks(self) -> memoryview:
        """The marks of its bytes, to be read only: 1 written, 0 not."""
        return self._part(self._machine.marks)

    def _place(self, row: int, column: int, width: int) -> slice:
        """Where an element stands in its bytes."""
        size = _bytes_of(width)
        row = range(self.rows)[operator.index(row)]
        column = range(self.row_bytes // size)[operator.index(column)]
        start = row * self.row_bytes + column * size
        return slice(start, start + size)

    def is_written(self, row: int, column: int, width: int) -> bool:
        """Whether every byte of an element was written since the start."""
        return all(self.marks[self._place(row, column, width)])

    def element(self, row: int, column: int, width: int, signed: bool = True) -> Optional[int]:
        """An element of so many bits; None if a byte of it was never written."""
        place = self._place(row, column, width)
        return int.from_bytes(self.bytes[place], "little", signed=signed) if all(self.marks[place]) else None

    def elements(self, width: int, signed: bool = True) -> List[List[Optional[int]]]:
        """All elements, a list for each row; None where a byte was never written."""
        columns = range(self.row_bytes // _bytes_of(width))
        return [[self.element(i, j, width, signed) for j in columns] for i in range(self.rows)]

    def __repr__(self) -> str:
        return f"<{self.name}, {self.rows} rows of {self.row_bytes} bytes, {sum(self.marks)} written>"


class Plan(NamedTuple):
    """What a product run multiplies: C = A x B, A m by k, B k by n, of sew bits, C m by n of factor * sew bits.

    a, b and c are the address and the stride of each matrix: row i lies at address + i * stride, a signed number of bytes.
    """

    sew: int
    factor: int
    m: int
    k: int
    n: int
    a: Tuple[int, int]
    b: Tuple[int, int]
    c: Tuple[int, int]
    kind: int = Kind.PRODUCT


class Handed(NamedTuple):
    """A step that a run hands out: the word, and scalars 10 and 11, an address and a stride, for it."""

    word: int
    address: int
    stride: int


def _numbers_of(plan: Plan) -> List[int]:
    """The numbers of a plan in the order of the library."""
    if not isinstance(plan, Plan):
        raise TypeError(f"a run is started with a Plan, not {type(plan).__name__}")
    numbers = [_unsigned(getattr(plan, name), name) for name in ("kind", "sew", "factor", "m", "k", "n")]
    for name in "abc":
        address, stride = getattr(plan, name)
        numbers += _unsigned(address, f"the address of {name}"), _between(stride, -(2**63), 2**63 - 1, f"the stride of {name}")
    return numbers


# ---- a machine ----

class Machine:
    """A machine, with the memory, the scalars, the vector registers and the product run that it is used with.

    rlen    bits of a row, a power of two from 64 to 4096
    mlen    bits of a tile register, a power of two from 128 to 65536, above rlen
    memory  how many bytes of memory, all 0, or a bytearray or other buffer that is lent: it is used as it is, without a copy, and cannot
            be resized while the machine is there
    elen    bits of the widest element, 32 or 64, below rlen
    rule    Rule.SMALLER or Rule.HALVING
    seals   none to eight ranges of memory that no store may change, the start and the length of each

    m.memory   memory, a view of bytes; m.get and m.put read and write numbers there
    m.x        the scalars x0 to x31
    m.v        the vector registers v0 to v31
    m.group    how many vector registers a move takes, 1, 2, 4 or 8
    m["tr0"]   a register by its name, tr0 to tr7, acc0 and acc1
    """

    def __init__(self, rlen: int, mlen: int, memory: Union[int, bytearray, memoryview] = 0, *, elen: int = 32, rule: int = Rule.SMALLER,
                 seals: Iterable[Tuple[int, int]] = ()) -> None:
        self._lock = threading.RLock()
        self._machine, self._scalars = _Lent(bytearray(_MACHINE_BYTES)), _Lent(bytearray(_SCALAR_BYTES))
        self._vectors, self._run = _Lent(bytearray(_VECTOR_BYTES)), _Lent(bytearray(_RUN_BYTES))
        self._registers, self._marks = _Lent(bytearray()), _Lent(bytearray())
        self._memory = _Lent(bytearray(memory) if isinstance(memory, int) else memory)
        self.group = 1
        self.start(rlen, mlen, elen=elen, rule=rule, seals=seals)

    @classmethod
    def of_image(cls, image: Union[bytes, bytearray, memoryview], memory: Union[int, bytearray, memoryview] = 0) -> Machine:
        """The machine whose image it is; refused with 15 and the place if it is none."""
        machine = cls(64, 128, memory)
        machine.image_read(image)
        return machine

    def _sized(self, mlen: int) -> Tuple[_Lent, _Lent]:
        """Registers and marks for this MLEN: those that are there, if they have its size. None are needed for an MLEN that no machine has."""
        size = 2 * mlen if mlen <= MLEN_MOST else 0
        if size == len(self._registers.view):
            return self._registers, self._marks
        return _Lent(bytearray(size)), _Lent(bytearray(size))

    @property
    def _state(self) -> Tuple[int, ...]:
        """The machine block, the registers and the marks, lent."""
        return self._machine.lent + self._registers.lent + self._marks.lent

    # -- starting and stepping --

    def start(self, rlen: int, mlen: int, *, elen: int = 32, rule: int = Rule.SMALLER, seals: Iterable[Tuple[int, int]] = ()) -> None:
        """Starts it anew, with other numbers if they are other: no register byte counts as written, mtype and the tile sizes are 0.

        Memory, scalars, vector registers and the run stay. Refused with 8 for numbers that no machine has, then with 16 for a ninth range.
        """
        numbers = [_unsigned(*pair) for pair in ((rlen, "rlen"), (mlen, "mlen"), (elen, "elen"), (rule, "rule"))]
        ends = [_unsigned(number, "a sealed range") for start, length in seals for number in (start, length)]
        lent = (ctypes.c_uint64 * max(1, len(ends)))(*ends)
        with self._lock:
            registers, marks = self._sized(numbers[1])
            _done(_library.bodlarina_start(*numbers, lent, len(ends), *self._machine.lent, *registers.lent, *marks.lent), "start")
            self._registers, self._marks = registers, marks

    def seal(self, start: int, length: int) -> None:
        """Seals a further range of memory from now on; none is ever taken off. It binds the machine's stores, not the host.

        Refused with 8 if it ends above 2^64 - 1, then with 16 for a ninth range.
        """
        with self._lock:
            _done(_library.bodlarina_seal(_unsigned(start, "start"), _unsigned(length, "length"), *self._state), "seal")

    def step(self, word: Union[int, str]) -> None:
        """Carries out one word, given as a number or as its line of assembler text.

        Refused with the first answer that applies in the order 17 (no line), 8 (another group than 1, 2, 4 and 8), 10, 11, 1, 12, 2 to 6, 13, 7.
        """
        code = text_word(word) if isinstance(word, str) else _between(word, 0, 0xFFFFFFFF, "a word")
        if code & 0xFE00707F == 0x02006077:  # mfma.mm
            _check_floats()
        with self._lock:
            result = _library.bodlarina_step(code, _unsigned(self.group, "group"), *self._state, *self._scalars.lent, *self._memory.lent,
                                             *self._vectors.lent)
            if result != 0:
                self._refuse(result, code)

    def _refuse(self, result: int, word: int, where: str = "") -> NoReturn:
        """Raises the refusal of a word, with its line, and with row, column and register of the element of answer 5."""
        answer, row, column = result & 0xFFFF, result >> 16 & 0xFFFF, result >> 32 & 0xFFFF
        try:
            line = word_text(word)
        except Refused:
            line = f"word 0x{word:08X}"
        register = self._source(line, row, column) if answer == Answer.UNWRITTEN else ""
        raise Refused(answer, row, column, what=where + line, register=register)

    def _source(self, line: str, row: int, column: int) -> str:
        """Which register a word that was refused with 5 speaks of: the first of ms1, ms2 and md in whose tile this element was never written."""
        names = [name for name in re.split("[ ,]+", line) if name in REGISTERS]
        if len(names) == 1:  # a store, or a move out
            return names[0]
        md, *sources = names
        m, k, n = self.tile_m, self.tile_k, self.tile_n
        shapes = [(m, k), (k, n)] if len(sources) == 2 else [(m, n)]
        for name, (rows, columns) in zip(sources, shapes):
            if row < rows and column < columns and not self[name].is_written(row, column, 8 << (self.mtype & 3)):
                return name
        return md

    # -- a product run --

    def run(self, plan: Plan) -> int:
        """A whole product run; how many steps it took.

        Refused with 8 for numbers that no run can have, then with 6 if an element lies outside memory, then with 9 if C overlaps itself, A, B or
        a seal. The run that run_start began stays.
        """
        numbers, steps = _numbers_of(plan), _Lent(bytearray(_STEPS_BYTES))
        if numbers[0] == Kind.FLOAT:
            _check_floats()
        with self._lock:
            _done(_library.bodlarina_run(*numbers, *self._state, *self._memory.lent, *steps.lent), "run")
        return _number_at(steps.view, 0)

    def run_start(self, plan: Plan) -> None:
        """Starts a run, and changes neither machine nor memory. Refused as run; then the run that was there stays."""
        numbers = _numbers_of(plan)
        with self._lock:
            _done(_library.bodlarina_run_start(*numbers, *self._state, *self._memory.lent, *self._run.lent), "run_start")

    def run_next(self) -> Handed:
        """Hands out the next step and moves the run past it, for a host that carries it out: the word, with x10 and x11 as given and the
        others 0. Refused with 8 past the last step, and where there is no run."""
        with self._lock:
            return self._handed(self._run)

    @staticmethod
    def _handed(run: _Lent) -> Handed:
        handed = _Lent(bytearray(_HANDED_BYTES))
        _done(_library.bodlarina_run_next(*run.lent, *handed.lent), "run_next")
        return Handed(_number_at(handed.view, 0), _number_at(handed.view, 8), _number_at(handed.view, 16, signed=True))

    def run_turn(self) -> None:
        """One turn: hands out the next step and carries it out. Refused with 8 past the last step, and as its word; then the run stays at
        its place."""
        with self._lock:
            self._check_run()
            result = _library.bodlarina_run_turn(*self._run.lent, *self._state, *self._memory.lent)
            if result == 0:
                return
            try:
                word = self._handed(_Lent(bytearray(self._run.view))).word
            except Refused as refused:  # there is no step
                raise Refused(refused.answer, what="run_turn") from None
            self._refuse(result, word, "run_turn: ")

    def run_turns(self, turns: int) -> int:
        """Up to so many turns, stopping before the first that would be refused; how many were done. If they are fewer, the run is over, or
        run_turn says why it stands."""
        with self._lock:
            self._check_run()
            return int(_library.bodlarina_run_turns(_unsigned(turns, "turns"), *self._run.lent, *self._state, *self._memory.lent))

    def run_steps(self) -> int:
        """How many steps the run has in all, the same before the first and after the last; 0 where there is no run."""
        with self._lock:
            return int(_library.bodlarina_run_steps(*self._run.lent))

    def run_is_over(self) -> bool:
        """Whether each of the run's steps is done."""
        with self._lock:
            return _number_at(self._run.view, _RUN_NEXT_AT) == _RUN_OVER

    def _check_run(self) -> None:
        if _number_at(self._run.view, _RUN_KIND_AT) == Kind.FLOAT:
            _check_floats()

    # -- images --

    def image_size(self) -> int:
        """The length of its image."""
        with self._lock:
            return _done(_library.bodlarina_image_size(*self._state), "image_size")

    def image_write(self, room: Optional[int] = None) -> bytes:
        """Its image: its numbers and its written register bytes. Refused with 14 if that is longer than room."""
        with self._lock:
            image = _room(room, self.image_size())
            length = _done(_library.bodlarina_image_write(*self._state, *image.lent), "image_write")
        return bytes(image.view[:length])

    def image_read(self, image: Union[bytes, bytearray, memoryview]) -> None:
        """Becomes the machine whose image it is. Memory, scalars, vector registers and the run stay. Refused with 15 and the place if it is
        no image."""
        data = _copied(image)
        with self._lock:
            registers, marks = self._sized(image_mlen(data) or self.mlen)
            _done(_library.bodlarina_image_read(data, len(data), *self._machine.lent, *registers.lent, *marks.lent), "image_read")
            self._registers, self._marks = registers, marks

    # -- what it holds --

    @property
    def machine(self) -> memoryview:
        """The machine block, twenty-five numbers of 64 bits, to be read only."""
        return self._machine.view.toreadonly()

    @property
    def registers(self) -> memoryview:
        """The bytes of all registers, to be read only; m["tr0"] shows one."""
        return self._registers.view.toreadonly()

    @property
    def marks(self) -> memoryview:
        """The marks of all register bytes, to be read only: 1 written, 0 not."""
        return self._marks.view.toreadonly()

    @property
    def run_block(self) -> memoryview:
        """The block of the run, twenty numbers of 64 bits, to be read only."""
        return self._run.view.toreadonly()

    @property
    def memory(self) -> memoryview:
        """Memory, a view of bytes that may be read and written. A seal binds the machine's stores, not the host."""
        return self._memory.view[:]

    @property
    def x(self) -> Scalars:
        """The scalars x0 to x31."""
        return Scalars(self._scalars.view)

    @property
    def v(self) -> Vectors:
        """The vector registers v0 to v31."""
        return Vectors(self._vectors.view)

    def __getitem__(self, name: str) -> Register:
        return Register(self, name)

    @property
    def rlen(self) -> int:
        """Bits of a row."""
        return _number_at(self._machine.view, 0)

    @property
    def mlen(self) -> int:
        """Bits of a tile register."""
        return _number_at(self._machine.view, 8)

    @property
    def mtype(self) -> int:
        """The type: the element width in bits 2 to 0 (E8 to E64), MACCQ in bit 3; MILL if it is illegal."""
        return _number_at(self._machine.view, 16)

    @property
    def tile_m(self) -> int:
        """The tile size m."""
        return _number_at(self._machine.view, 24)

    @property
    def tile_k(self) -> int:
        """The tile size k."""
        return _number_at(self._machine.view, 32)

    @property
    def tile_n(self) -> int:
        """The tile size n."""
        return _number_at(self._machine.view, 40)

    @property
    def rule(self) -> Rule:
        """What a tile setting gives of the size that it asks for."""
        return Rule(_number_at(self._machine.view, 64))

    @property
    def elen(self) -> int:
        """Bits of the widest element."""
        return _number_at(self._machine.view, 72)

    @property
    def seals(self) -> List[Tuple[int, int]]:
        """The sealed ranges, the start and the length of each, in the order in which they were sealed."""
        view = self._machine.view
        places = [48 if i == 0 else 72 + 16 * i for i in range(_number_at(view, 80))]
        return [(_number_at(view, at), _number_at(view, at + 8)) for at in places]

    def get(self, address: int, width: int, count: int, signed: bool = True) -> List[int]:
        """So many elements of memory, one after another from an address on."""
        return _split(self._range(address, _bytes_of(width) * _between(count, 0, sys.maxsize, "count")), width, signed)

    def put(self, address: int, width: int, numbers: Iterable[int]) -> None:
        """Writes numbers to memory, one after another from an address on, with or without sign."""
        data = _joined(width, numbers)
        self._range(address, len(data))[:] = data

    def _range(self, address: int, length: int) -> memoryview:
        start, memory = operator.index(address), self._memory.view
        if start < 0 or start + length > len(memory):
            raise IndexError(f"{length} bytes from {start} on lie outside memory, which has {len(memory)}")
        return memory[start:start + length]

    def __repr__(self) -> str:
        return f"<Machine of RLEN {self.rlen}, MLEN {self.mlen}, ELEN {self.elen}, {len(self.memory)} bytes of memory>"
