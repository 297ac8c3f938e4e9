"""Matrix words in GDB, for a RISC-V program under qemu-riscv64 (user mode), which takes them for illegal instructions.

    qemu-riscv64 -g 1234 recorder missing &
    gdb-multiarch recorder -ex 'target remote :1234' -ex 'source bodlarina-gdb.py' -ex continue

Each word that the program comes to is carried out here by the proved library, with the program's scalars and memory; `continue`, `next`, `step`
and `finish` go over it, and a breakpoint on its line stops before it. A word that is refused stops the program on its line and says why.

    info matrix             the machine, mtype, tile sizes, what each register holds and which line wrote it, sealed ranges
    info matrix tr0 [BITS]  a register as elements
    info marks [tr0]        which register bytes were written
    matrix machine RLEN,MLEN[,ELEN] [halving]   another machine than 64,256,32
    matrix group N          vector registers of a move
    matrix seal EXPRESSION  seals an object of the program, as `matrix seal counts`
    matrix save FILE.img    the image of the machine

Without an operating system plain GDB on `bodlarina-firmware --gdb PORT` does all this without any script. Here a word costs about a millisecond. Each
thread has a unit of its own; but QEMU's own server for GDB gets stuck when two threads come to matrix words at once. Scalar stores over a
sealed byte are found at the next matrix word.
"""

from __future__ import annotations

import mmap
import re
import sys
from pathlib import Path
from typing import Dict, List, NamedTuple, Optional, Tuple

import gdb  # type: ignore[import]

if sys.version_info < (3, 9):
    raise gdb.GdbError("bodlarina-gdb.py needs a GDB with Python 3.9 or later")
# in the tree and where it is installed, the module stands in the folder python beside that of this file
sys.path.insert(0, str(Path(__file__).resolve().parent.parent / "python"))
try:
    import bodlarina
except ImportError as error:
    raise gdb.GdbError(f"bodlarina-gdb.py: {error}")

OPCODE = 0x77
TRANSFER = re.compile(r"m([ls])([abc])(t?)e(\d+)\.m \w+, \(x(\d+)\), x(\d+)$")
MAP_NORESERVE = 0x4000  # mmap.MAP_NORESERVE, which Python has from 3.11 on


class Sealed(NamedTuple):
    """A sealed range and the bytes that it held when it was sealed."""

    name: str
    start: int
    kept: bytes


class Written(NamedTuple):
    """The line of the word that wrote a register last, and where that word stands."""

    line: str
    place: str


def address_space() -> mmap.mmap:
    """Memory for all guest addresses, empty: the rows of a word are put into it before the word is carried out."""
    for bits in range(46, 32, -1):
        try:
            return mmap.mmap(-1, 1 << bits, flags=mmap.MAP_PRIVATE | mmap.MAP_ANONYMOUS | MAP_NORESERVE)
        except OSError:
            continue
    raise gdb.GdbError("bodlarina-gdb.py: no address space for the program's memory")


def place_of(pc: int) -> str:
    """File and line of an address, or the address."""
    line = gdb.find_pc_line(pc)
    return f"{Path(line.symtab.filename).name}:{line.line}" if line.symtab and line.line else hex(pc)


class Unit:
    """The matrix unit of one thread."""

    def __init__(self, settings: Settings) -> None:
        seals = [(sealed.start, len(sealed.kept)) for sealed in settings.seals]
        self.machine = bodlarina.Machine(*settings.lengths, settings.memory, elen=settings.elen, rule=settings.rule, seals=seals)
        self.words = 0
        self.written: Dict[str, Written] = {}
        self.named: Tuple[str, int, int, int] = ("", 0, 0, 0)  # register, row, and bytes from and to, of the last refusal with 5

    def rows(self, line: str) -> List[Tuple[int, int]]:
        """The rows of memory that a load or store reads or writes: the address and the bytes of each."""
        match = TRANSFER.match(line)
        if not match:
            return []
        _, tile, transposed, width, rs1, rs2 = match.groups()
        machine = self.machine
        rows, columns = {"a": (machine.tile_m, machine.tile_k), "b": (machine.tile_k, machine.tile_n), "c": (machine.tile_m, machine.tile_n)}[tile]
        if transposed:
            rows, columns = columns, rows
        start, stride, length = machine.x[int(rs1)], machine.x[int(rs2)], columns * int(width) // 8
        return [((start + i * stride) % 2**64, length) for i in range(rows)] if length else []

    def fetch(self, rows: List[Tuple[int, int]], store: bool) -> bool:
        """Puts the rows of the program's memory into that of the machine. False if one cannot be read, or for a store not be written."""
        inferior = gdb.selected_inferior()
        try:
            for at, length in rows:
                data = bytes(inferior.read_memory(at, length))
                self.machine.memory[at:at + length] = data
                if store:
                    inferior.write_memory(at, data)
        except (gdb.MemoryError, OverflowError, ValueError):
            return False
        return True

    def step(self, word: int, pc: int) -> None:
        """Carries out a word of the program, or raises bodlarina.Refused."""
        machine, frame, inferior = self.machine, gdb.newest_frame(), gdb.selected_inferior()
        try:
            line = bodlarina.word_text(word)
        except bodlarina.Refused:
            line = ""
        for number in map(int, re.findall(r"\bx(\d+)", line)):
            machine.x[number] = int(frame.read_register(f"x{number}")) % 2**64
        rows, store = self.rows(line), line.startswith("ms") and not line.startswith("mset")
        if self.fetch(rows, store):
            machine.step(word)
        else:  # with no memory the library says whether that matters: 6, or a reason before it
            bare = bodlarina.Machine.of_image(machine.image_write())
            bare.x[:] = machine.x[:]
            bare.step(word)
        self.words += 1
        if store:
            for at, length in rows:
                inferior.write_memory(at, bytes(machine.memory[at:at + length]))
        operand = re.split("[ ,]+", line)[1]
        if line.startswith("mset") and operand != "x0":
            gdb.execute(f"set ${operand} = {machine.x[int(operand[1:])]}", to_string=True)
        elif operand in bodlarina.REGISTERS and not store:
            self.written[operand] = Written(line, place_of(pc))

    def refused(self, refused: bodlarina.Refused) -> None:
        """Keeps which element a refusal named."""
        width = 1 << (self.machine.mtype & 3)
        if refused.register.startswith("acc") and refused.what.startswith(("mw", "mq")):
            width *= 2 if refused.what.startswith("mw") else 4
        match = TRANSFER.match(refused.what)
        if match:
            width = int(match.group(4)) // 8
        self.named = (refused.register, refused.row, refused.column * width, (refused.column + 1) * width)


class Settings:
    """What the units are started with, and the unit of each thread."""

    def __init__(self) -> None:
        self.memory = address_space()
        self.lengths, self.elen, self.rule, self.group = (64, 256), 32, bodlarina.Rule.SMALLER, 1
        self.seals: List[Sealed] = []
        self.units: Dict[Tuple[int, int, int], Unit] = {}
        self.ended = False  # the program of these units and seals

    def end(self, _event: object) -> None:
        self.ended = True

    def begin(self) -> None:
        """Another program than the one that has ended starts anew."""
        if self.ended:
            self.units.clear()
            self.seals.clear()
            self.ended = False

    def unit(self) -> Unit:
        """The unit of the selected thread; after the end the one that was used last."""
        thread = gdb.selected_thread()
        key = thread.ptid if thread else next(reversed(self.units), (0, 0, 0))
        unit = self.units.pop(key, None) or Unit(self)
        unit.machine.group = self.group
        self.units[key] = unit
        return unit

    def changed_seal(self) -> str:
        """A sentence on the first sealed byte that a scalar store has changed since the last word; empty if there is none."""
        inferior = gdb.selected_inferior()
        for i, (name, start, kept) in enumerate(self.seals):
            now = bytes(inferior.read_memory(start, len(kept)))
            if now != kept:
                self.seals[i] = Sealed(name, start, now)
                at = start + next(j for j in range(len(kept)) if kept[j] != now[j])
                return f"a scalar store has written the sealed byte {at:#x} of {name} since the last matrix word"
        return ""


settings = Settings()
gdb.events.exited.connect(settings.end)


# ---- going on ----

class Resumption:
    """How the program was last made to go on: by which command, from which frame and line. A matrix word interrupts that, and when it is carried out
    the command is taken up again."""

    COMMANDS = ("continue", "jump", "signal", "next", "step", "finish", "stepi", "nexti", "until", "advance")

    def __init__(self) -> None:
        self.command = "continue"
        self.frame: Optional[gdb.Frame] = None
        self.line: Tuple[object, int] = ("", 0)
        self.taken_up = False  # a command runs that is taken up again here
        self.at_word = False   # the program stopped at an illegal instruction that was not looked at yet

    def stopped(self, event: gdb.StopEvent) -> None:
        self.at_word = isinstance(event, gdb.SignalEvent) and event.stop_signal == "SIGILL"

    def begins(self, command: str) -> None:
        """A command is about to run."""
        if self.taken_up:
            return
        self.command = command
        try:
            self.frame = gdb.selected_frame() if command == "finish" else gdb.newest_frame()
            self.line = self.here()
        except gdb.error:  # there is no program yet
            self.frame = None

    @staticmethod
    def here() -> Tuple[object, int]:
        """File and line of pc."""
        line = gdb.find_pc_line(gdb.newest_frame().pc())
        return (line.symtab.filename if line.symtab else "", line.line)

    def execute(self, command: str) -> None:
        """Runs a command until the program stops."""
        self.taken_up = True
        try:
            gdb.execute(command)
        finally:
            self.taken_up = False

    def go_on(self) -> None:
        """A word is carried out and pc is past it: goes on as the command would have."""
        if self.command in ("continue", "jump", "signal"):
            self.execute("continue")
        elif self.command in ("next", "step"):
            self.step()
        elif self.command == "finish" and self.frame is not None and self.frame.is_valid():
            self.frame.select()
            self.execute("finish")
        else:
            gdb.execute("frame")

    def callee(self) -> Optional[gdb.Frame]:
        """Of the frames that were called since, the one that the first frame called; None if pc is in the first frame, or that is gone."""
        frame = gdb.newest_frame()
        while frame is not None and self.frame is not None and self.frame.is_valid():
            if frame.older() == self.frame:
                return frame
            frame = frame.older()
        return None

    def step(self) -> None:
        """The rest of a line: out of the function that it called, then on to the start of another line."""
        callee = self.callee()
        if callee is not None:
            end = gdb.FinishBreakpoint(callee, internal=True)
            end.silent = True
            self.execute("continue")
            if end.is_valid() and not end.hit_count:
                end.delete()
            if not gdb.selected_inferior().pid or self.at_word or gdb.newest_frame() != self.frame:
                return
        pc = gdb.newest_frame().pc()
        if gdb.find_pc_line(pc).pc == pc and self.here() != self.line:
            gdb.execute("frame")
        else:
            self.execute(self.command)


resumption = Resumption()
gdb.events.stop.connect(resumption.stopped)


def carried_out() -> bool:
    """Carries out the matrix word at pc, or says why not."""
    pc = gdb.newest_frame().pc()
    word = int.from_bytes(bytes(gdb.selected_inferior().read_memory(pc, 4)), "little")
    settings.begin()
    said = settings.changed_seal()
    if word & 0x7F != OPCODE:
        said = "Program received signal SIGILL, Illegal instruction: no matrix word. `signal SIGILL` hands it to the program."
    if not said:
        unit = settings.unit()
        try:
            unit.step(word, pc)
            gdb.execute(f"set $pc = {pc + 4}", to_string=True)
            return True
        except bodlarina.Refused as refused:
            unit.refused(refused)
            said = str(refused) if refused.what.startswith("word ") else str(refused).replace(":", f" ({word:08x}):", 1)
    print(said)
    gdb.execute("frame")
    return False


def bodlarina_word() -> None:
    """What the catchpoint on SIGILL does, unless the loop below has come to this word."""
    if resumption.taken_up:
        return
    while resumption.at_word:
        resumption.at_word = False
        if carried_out():
            resumption.go_on()


# ---- what the unit holds ----

def widths(machine: bodlarina.Machine) -> str:
    """mtype as text."""
    if machine.mtype >> 63:
        return f"mtype {machine.mtype:#x}: illegal"
    return f"mtype {machine.mtype}: e{8 << (machine.mtype & 3)}{', accq' if machine.mtype & bodlarina.MACCQ else ''}"


def sizes(machine: bodlarina.Machine) -> str:
    """The tile sizes and their maxima under mtype."""
    said = f"m {machine.tile_m}, k {machine.tile_k}, n {machine.tile_n}"
    if machine.mtype >> 63:
        return said
    rows, columns = machine.mlen // machine.rlen, machine.rlen // (8 << (machine.mtype & 3))
    return f"{said}; at most {rows}, {min(rows, columns)}, {columns}"


def show_elements(register: bodlarina.Register, width: int) -> None:
    """A register as elements; one that was never written as --."""
    room = max(4, len(str(-(1 << width - 1))))
    print(f"{register.name}, elements of {width} bits")
    print("      " + "".join(f" {column:{room}}" for column in range(register.row_bytes * 8 // width)))
    for row, elements in enumerate(register.elements(width)):
        print(f"{row:5}:" + "".join(f" {'--' if element is None else element:>{room}}" for element in elements))


def show_marks(unit: Unit, name: str) -> None:
    """The marks of a register, a character a byte."""
    register = unit.machine[name]
    named, named_row, start, end = unit.named
    if not any(register.marks) and named != name:
        print(f"{name:4}   never written")
        return
    print(f"{name:4}   " + "".join(f"{byte:<9}" for byte in range(0, register.row_bytes, 8)).rstrip())
    for row in range(register.rows):
        marks = ["#" if mark else "." for mark in register.marks[row * register.row_bytes:(row + 1) * register.row_bytes]]
        if named == name and named_row == row and "." in marks[start:end]:
            marks[start:end] = "!" * (end - start)
        print(f"{row:5}: " + " ".join("".join(marks[at:at + 8]) for at in range(0, len(marks), 8)))


def named_register(name: str) -> str:
    if name not in bodlarina.REGISTERS:
        raise gdb.GdbError("The registers are tr0 to tr7, acc0 and acc1.")
    return name


class InfoMatrix(gdb.Command):
    """The matrix unit of this thread. With a register, as tr0, its elements; then the bits of an element may follow."""

    def __init__(self) -> None:
        super().__init__("info matrix", gdb.COMMAND_STATUS)

    def invoke(self, argument: str, _from_tty: bool) -> None:
        unit = settings.unit()
        name, *width = gdb.string_to_argv(argument) or [""]
        if name:
            self.element(unit.machine, named_register(name), width)
            return
        machine = unit.machine
        halving = ", halving" if machine.rule == bodlarina.Rule.HALVING else ""
        print(f"machine {machine.rlen} {machine.mlen} {machine.elen}{halving}; words carried out: {unit.words}")
        print(widths(machine))
        print(sizes(machine))
        for name in bodlarina.REGISTERS:
            self.summary(unit, name)
        for name, start, kept in settings.seals:
            print(f"sealed {start:#x}, {len(kept)} bytes: {name}")

    @staticmethod
    def summary(unit: Unit, name: str) -> None:
        marks = unit.machine[name].marks
        if not any(marks):
            print(f"{name:4}   never written")
            return
        last = unit.written.get(name)
        print(f"{name:4}   {sum(marks)} of {len(marks)} bytes written" + (f", last by {last.line} at {last.place}" if last else ""))

    @staticmethod
    def element(machine: bodlarina.Machine, name: str, width: List[str]) -> None:
        if len(width) > 1 or (width and width[0] not in ("8", "16", "32", "64")):
            raise gdb.GdbError("An element has 8, 16, 32 or 64 bits.")
        sew = 8 << (machine.mtype & 3)
        sums = min(4 * sew, machine.elen) if machine.mtype & bodlarina.MACCQ else sew
        show_elements(machine[name], int(width[0]) if width else sums if name.startswith("acc") else sew)


class InfoMarks(gdb.Command):
    """Which register bytes of the matrix unit were written, of one register or of all."""

    def __init__(self) -> None:
        super().__init__("info marks", gdb.COMMAND_STATUS)

    def invoke(self, argument: str, _from_tty: bool) -> None:
        names = [named_register(name) for name in gdb.string_to_argv(argument)] or list(bodlarina.REGISTERS)
        print("marks, a byte each: # written, . never written, ! named by the last refusal with 5")
        for name in names:
            show_marks(settings.unit(), name)


# ---- how it is set up ----

class Matrix(gdb.Command):
    """The matrix unit: its machine, sealed ranges, the group of moves, its image."""

    def __init__(self) -> None:
        super().__init__("matrix", gdb.COMMAND_RUNNING, prefix=True)


class MatrixMachine(gdb.Command):
    """matrix machine RLEN,MLEN[,ELEN] [halving]: starts another machine. It starts anew; sealed ranges stay."""

    def __init__(self) -> None:
        super().__init__("matrix machine", gdb.COMMAND_RUNNING)

    def invoke(self, argument: str, _from_tty: bool) -> None:
        match = re.fullmatch(r"(\d+)\s*,\s*(\d+)\s*(?:,\s*(\d+)\s*)?(halving)?", argument.strip())
        if not match:
            raise gdb.GdbError("matrix machine RLEN,MLEN[,ELEN] [halving]")
        elen, rule = int(match.group(3) or 32), bodlarina.Rule.HALVING if match.group(4) else bodlarina.Rule.SMALLER
        try:
            bodlarina.Machine(int(match.group(1)), int(match.group(2)), elen=elen, rule=rule)
        except (bodlarina.Refused, ValueError) as error:
            raise gdb.GdbError(str(error))
        settings.lengths, settings.elen, settings.rule = (int(match.group(1)), int(match.group(2))), elen, rule
        settings.units.clear()


class MatrixGroup(gdb.Command):
    """matrix group N: how many vector registers a move takes, 1, 2, 4 or 8."""

    def __init__(self) -> None:
        super().__init__("matrix group", gdb.COMMAND_RUNNING)

    def invoke(self, argument: str, _from_tty: bool) -> None:
        if argument.strip() not in ("1", "2", "4", "8"):
            raise gdb.GdbError("A group is 1, 2, 4 or 8.")
        settings.group = int(argument)


class MatrixSeal(gdb.Command):
    """matrix seal EXPRESSION: seals an object of the program, as counts or *counts@3, from now on."""

    def __init__(self) -> None:
        super().__init__("matrix seal", gdb.COMMAND_RUNNING, gdb.COMPLETE_EXPRESSION)

    def invoke(self, argument: str, _from_tty: bool) -> None:
        value = gdb.parse_and_eval(argument)
        if value.address is None:
            raise gdb.GdbError(f"{argument} has no address.")
        settings.begin()
        start, length = int(value.address), value.type.sizeof
        if (start, length) in settings.unit().machine.seals:
            raise gdb.GdbError(f"{argument} is sealed already.")
        kept = bytes(gdb.selected_inferior().read_memory(start, length))
        try:
            for unit in settings.units.values():
                unit.machine.seal(start, length)
        except bodlarina.Refused as refused:
            raise gdb.GdbError(str(refused))
        settings.seals.append(Sealed(argument.strip(), start, kept))
        print(f"sealed {start:#x}, {length} bytes: {argument.strip()}")


class MatrixSave(gdb.Command):
    """matrix save FILE.img: writes the image of this thread's machine."""

    def __init__(self) -> None:
        super().__init__("matrix save", gdb.COMMAND_DATA, gdb.COMPLETE_FILENAME)

    def invoke(self, argument: str, _from_tty: bool) -> None:
        names = gdb.string_to_argv(argument)
        if len(names) != 1:
            raise gdb.GdbError("matrix save FILE.img")
        try:
            Path(names[0]).write_bytes(settings.unit().machine.image_write())
        except OSError as error:
            raise gdb.GdbError(str(error))


for made in InfoMatrix, InfoMarks, Matrix, MatrixMachine, MatrixGroup, MatrixSeal, MatrixSave:
    made()
for name in Resumption.COMMANDS:
    gdb.execute(f"define hook-{name}\npython resumption.begins('{name}')\nend")
gdb.execute("handle SIGILL stop print nopass", to_string=True)
gdb.execute("catch signal SIGILL", to_string=True)
gdb.execute("commands\nsilent\npython bodlarina_word()\nend", to_string=True)
