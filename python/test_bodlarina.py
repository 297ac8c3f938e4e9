"""Tests of bodlarina.py: python3 python/test_bodlarina.py. The last line is 'N passed, M failed'.

What the library gives is held to numbers worked out by hand or by plain Python arithmetic; the module's own numbers and sentences to the headers.
"""
import ctypes
import doctest
import gc
import mmap
import os
import pickle
import random
import re
import shutil
import struct
import subprocess
import sys
import tempfile
import threading
import unittest
import weakref
from contextlib import contextmanager
from pathlib import Path

import bodlarina
from bodlarina import Answer, Kind, Machine, Plan, Refused, Rule, image_mlen, image_salvage, text_word, word_text

HERE = Path(__file__).resolve().parent
TREE = HERE.parent
IMAGES = TREE / "bench/examples"
HEADER = (TREE / "include/bodlarina.h").read_text()
WORDS = (TREE / "include/bodlarina_words.h").read_text()

COUNTS = [[12, 40, 7, 0], [3, 99, 15, 2], [100, 1, 0, 64], [25, 30, 0, 8]]
WEIGHTS = [[1, -1], [2, 0], [3, 5], [-4, 10]]


def flat(rows):
    return [number for row in rows for number in row]


def product(a, b, bits=None):
    """A x B; with bits each sum reduced to so many in two's complement."""
    sums = [[sum(x * y for x, y in zip(row, column)) for column in zip(*b)] for row in a]
    if bits is None:
        return sums
    half = 1 << bits - 1
    return [[(x + half) % (2 * half) - half for x in row] for row in sums]


def word(bits):
    """A word from its bits, with blanks between its fields."""
    return int(bits.replace(" ", ""), 2)


def held(m):
    """Every byte that a machine holds or is lent."""
    return [bytes(view) for view in (m.machine, m.registers, m.marks, m.run_block, m.memory)] + [m.x[:], flat(m.v), m.group]


def loops(loaded=4, **more):
    """A machine of four loops whose counts and weights are loaded, and that is about to multiply for four."""
    m = Machine(64, 256, memory=64, **more)
    m.put(0, 8, flat(COUNTS))
    m.put(16, 8, flat(WEIGHTS))
    m.x[10:18] = 0, 4, loaded, 4, 16, 2, 32, 8
    for line in ("msettypei x0, 8", "msettileki x0, 4", "msettileni x0, 2", "msettilem x0, x12", "mlae8.m tr0, (x10), x11",
                 "mlbe8.m tr1, (x14), x15", "msettilem x0, x13", "mqemulc.mi acc0, acc0, 0"):
        m.step(line)
    return m


class Case(unittest.TestCase):
    @contextmanager
    def refused(self, answer, m=None, *, row=0, column=0, place=0, what=None, register=""):
        """What stands below it is refused so, and leaves every buffer."""
        before = held(m) if m else None
        with self.assertRaises(Refused) as caught:
            yield
        refused = caught.exception
        self.assertIs(refused.answer, Answer(answer))
        self.assertEqual((refused.row, refused.column, refused.place, refused.register), (row, column, place, register))
        if what is not None:
            self.assertEqual(refused.what, what)
        if m:
            self.assertEqual(held(m), before)


class TheHeader(Case):
    """The module's own numbers, sentences and signatures are those of the headers."""

    def test_version(self):
        self.assertIn(f'#define BODLARINA_VERSION "{bodlarina.VERSION}"\n', HEADER)
        major, minor, patch = map(int, bodlarina.VERSION.split("."))
        self.assertEqual(bodlarina.VERSION_NUMBER, 10000 * major + 100 * minor + patch)
        self.assertEqual(bodlarina._library.bodlarina_version(), bodlarina.VERSION_NUMBER)

    def test_numbers(self):
        defines = re.findall(r"^#define BODLARINA_(\w+) (\d+)u?\b(?! \*)", HEADER + WORDS, re.M)
        names = {**vars(bodlarina), **Answer.__members__, **Rule.__members__, **{"PRODUCT": 0, "A_TRANSPOSED": 1, "FLOAT": 2}}
        self.assertEqual({name: int(Kind[name]) for name in Kind.__members__}, {"PRODUCT": 0, "A_TRANSPOSED": 1, "FLOAT": 2})
        left = {name for name, number in defines if names.get(name, names.get("_" + name)) != int(number)}
        # places in blocks, which the module has as plain numbers: those are tried below, with what stands there
        self.assertEqual({name for name in left if not re.match("(MACHINE|HANDED|REPORT)_.*_AT$", name)}, set())
        self.assertGreater(len(defines), 50)
        self.assertIn("#define BODLARINA_MILL ((uint64_t)1 << 63)", WORDS)

    def test_places_in_blocks(self):
        m = loops(seals=[(3, 5), (8, 13)])
        places = {name: int(at) for name, at in re.findall(r"^#define BODLARINA_MACHINE_(\w+)_AT (\d+)\b", HEADER, re.M)}
        found = {name: bodlarina._number_at(m.machine, at) for name, at in places.items()}
        self.assertEqual(found, {"RLEN": 64, "MLEN": 256, "MTYPE": 8, "TILE_M": 4, "TILE_K": 4, "TILE_N": 2, "SEAL_START": 3, "SEAL_LENGTH": 5,
                                 "RULE": 0, "ELEN": 32, "SEALS": 2})
        self.assertEqual((m.rlen, m.mlen, m.mtype, m.tile_m, m.tile_k, m.tile_n, m.seals, m.rule, m.elen), (64, 256, 8, 4, 4, 2, [(3, 5), (8, 13)], 0, 32))

    def test_answers(self):
        sentences = re.findall(r'case BODLARINA_(\w+): return "(.*)";', HEADER)
        self.assertEqual(sentences, [(answer.name, answer.text) for answer in Answer])

    def test_signatures(self):
        kinds = {"uint64_t": ctypes.c_uint64, "int64_t": ctypes.c_int64, "uint32_t": ctypes.c_uint32, "size_t": ctypes.c_size_t}
        found = {}
        for name, arguments in re.findall(r"^uint64_t bodlarina_(\w+)\((.*?)\);", HEADER, re.M | re.S):
            found[name] = [ctypes.c_void_p if "*" in argument else kinds[argument.split()[0]]
                           for argument in arguments.split(",") if argument != "void"]
        self.assertEqual(found, bodlarina._FUNCTIONS)
        self.assertEqual(len(found), 16)

    def test_each_function(self):
        """Each function of the header, those that stand in it too, has its like here."""
        here = {"answer_text": Answer.text, "get64": bodlarina._number_at, "put64": Machine.put, "bench_start_sealed": Machine.start,
                "bench_scalar": Machine.x, "bench_set_scalar": Machine.x, "version": bodlarina.VERSION_NUMBER}
        for name in re.findall(r"^(?:BODLARINA_INLINE )?(?:const char \*|\w+ )bodlarina_(\w+)\(", HEADER, re.M):
            short = name.replace("bench_", "", 1)
            self.assertTrue(name in here or hasattr(Machine, short) or hasattr(bodlarina, short), name)

    def test_exports(self):
        for name in bodlarina.__all__:
            self.assertTrue(hasattr(bodlarina, name), name)


class TheLibrary(Case):
    """Where it is looked for."""

    def ran(self, module, **environment):
        """What importing a module from its folder writes: the library's path, or the error."""
        code = "import bodlarina; print(bodlarina._library._name)"
        kept = {name: value for name, value in os.environ.items() if name not in ("BODLARINA_LIBRARY", "LD_LIBRARY_PATH", "PYTHONPATH")}
        done = subprocess.run([sys.executable, "-B", "-c", code], cwd=module, env={**kept, **environment, "PYTHONPATH": str(module)},
                              stdout=subprocess.PIPE, stderr=subprocess.PIPE, text=True)
        return done.stdout.strip() if done.returncode == 0 else done.stderr.strip().splitlines()[-1]

    def test_places(self):
        library, soname = Path(bodlarina._library._name).resolve(), bodlarina._SONAME
        with tempfile.TemporaryDirectory() as name:
            prefix = Path(name).resolve()
            module = prefix / "share/bodlarina/python"
            module.mkdir(parents=True)
            (prefix / "lib").mkdir()
            shutil.copy(HERE / "bodlarina.py", module)
            if self.ran(module) != soname:  # it is not where the system's loader looks
                self.assertRegex(self.ran(module), "^ImportError: no shared library of Bodlarina .*: libbodlarina.so.*; BODLARINA_LIBRARY may name its file")
            (prefix / "other").mkdir()
            shutil.copy(library, prefix / "other" / soname)
            self.assertEqual(self.ran(module, LD_LIBRARY_PATH=str(prefix / "other")), soname)             # where the loader looks
            shutil.copy(library, prefix / "lib" / soname)
            self.assertEqual(Path(self.ran(module)).resolve(), prefix / "lib" / soname)                   # installed
            shutil.copy(library, module / soname)
            self.assertEqual(Path(self.ran(module)).resolve(), module / soname)                           # beside the module
            self.assertEqual(self.ran(module, BODLARINA_LIBRARY=str(library)), str(library))              # named
            (module / "link").mkdir()
            (module / "link/bodlarina.py").symlink_to(module / "bodlarina.py")
            self.assertEqual(Path(self.ran(module / "link")).resolve(), module / soname)

    def test_wrong_files(self):
        self.assertRegex(self.ran(HERE, BODLARINA_LIBRARY="/absent/lib.so"), "^ImportError: .*/absent/lib.so")
        self.assertRegex(self.ran(HERE, BODLARINA_LIBRARY=str(HERE / "bodlarina.py")), "^ImportError: ")
        self.assertRegex(self.ran(HERE, BODLARINA_LIBRARY="libc.so.6"), "^ImportError: .*bodlarina_version")

    @unittest.skipUnless(shutil.which("cc"), "cc is not installed: a library of another version is not tried")
    def test_another_version(self):
        with tempfile.TemporaryDirectory() as folder:
            source, library = Path(folder) / "other.c", Path(folder) / "other.so"
            lines = [f"unsigned long bodlarina_{name}(void) {{ return 10203; }}" for name in bodlarina._FUNCTIONS]
            source.write_text("\n".join(lines) + "\n")
            subprocess.run(["cc", "-shared", "-fPIC", "-o", library, source], check=True)
            said = self.ran(HERE, BODLARINA_LIBRARY=str(library))
            self.assertEqual(said, f"ImportError: {library} is Bodlarina 1.2.3, and this module is of {bodlarina.VERSION}")


class Starting(Case):
    def test_numbers(self):
        m = Machine(128, 512, elen=64, rule=Rule.HALVING, seals=[(5, 300), (2**64 - 2, 1), (7, 0)])
        self.assertEqual((m.rlen, m.mlen, m.elen, m.rule, m.mtype, m.tile_m, m.tile_k, m.tile_n), (128, 512, 64, Rule.HALVING, 0, 0, 0, 0))
        self.assertEqual(m.seals, [(5, 300), (2**64 - 2, 1), (7, 0)])
        self.assertEqual((len(m.machine), len(m.registers), len(m.marks), len(m.memory)), (200, 1024, 1024, 0))
        self.assertEqual(Machine(64, 128).seals, [])
        self.assertIn("RLEN 128, MLEN 512, ELEN 64", repr(m))

    def test_each_length(self):
        for rlen in [0, 32, 63, *(1 << i for i in range(6, 14)), 2**64 - 1]:
            for mlen in [0, 64, 384, *(1 << i for i in range(7, 18)), 2**63]:
                for elen in 0, 16, 32, 64, 128:
                    power = bin(rlen).count("1") == 1 and bin(mlen).count("1") == 1
                    fits = power and 64 <= rlen <= 4096 and rlen < mlen <= 65536 and elen in (32, 64) and elen < rlen
                    if fits:
                        m = Machine(rlen, mlen, elen=elen)
                        self.assertEqual((m["acc1"].rows, m["tr7"].row_bytes, m["acc0"].row_bytes), (mlen // rlen, rlen // 8, rlen // 2))
                    else:
                        with self.refused(8, what="start"):
                            Machine(rlen, mlen, elen=elen)

    def test_refused(self):
        m = loops()
        with self.refused(8, m):
            m.start(64, 512, rule=2)
        with self.refused(8, m):
            m.start(64, 256, seals=[(2**64 - 1, 1)])
        with self.refused(16, m):
            m.start(64, 256, seals=[(0, 0)] * 9)
        with self.refused(8, m):  # 8 comes first
            m.start(64, 256, seals=[(1, 2**64 - 1)] * 9)
        with self.refused(8, m):
            m.start(64, 2**40)

    def test_again(self):
        m = loops(seals=[(0, 16)])
        memory, registers, scalars = bytes(m.memory), bytes(m.registers), m.x[:]
        self.assertGreater(sum(m.marks), 0)
        m.start(64, 256)
        self.assertEqual((bytes(m.memory), bytes(m.registers), m.x[:]), (memory, registers, scalars))  # register bytes stay, without marks
        self.assertEqual((sum(m.marks), m.mtype, m.tile_m, m.seals), (0, 0, 0, []))
        m.start(4096, 65536)
        self.assertEqual((len(m.registers), len(m.marks), sum(m.marks), bytes(m.memory)), (131072, 131072, 0, memory))

    def test_seal(self):
        m = Machine(64, 256, memory=64)
        for i in range(8):
            m.seal(8 * i, i)
        self.assertEqual(m.seals, [(8 * i, i) for i in range(8)])
        with self.refused(16, m, what="seal"):
            m.seal(0, 0)
        with self.refused(8, m):
            m.seal(2**63, 2**63)
        with self.refused(8, m):
            m.seal(2**64 - 1, 1)


class Stepping(Case):
    def test_four_loops(self):
        m = loops()
        m.step("mqma.mm acc0, tr0, tr1")
        m.step("msce32.m acc0, (x16), x17")
        readings = product(COUNTS, WEIGHTS)
        self.assertEqual(m.get(32, 32, 8), flat(readings))
        self.assertEqual(readings[3], [25 + 60 + 0 - 32, -25 + 0 + 0 + 80])
        self.assertEqual(m["tr0"].elements(8), [row + [None] * 4 for row in COUNTS])
        self.assertEqual(m["tr1"].elements(8), [row + [None] * 6 for row in WEIGHTS])
        self.assertEqual(m["acc0"].elements(32), [row + [None] * 6 for row in readings])
        self.assertEqual((m.mtype, m.tile_m, m.tile_k, m.tile_n), (bodlarina.E8 | bodlarina.MACCQ, 4, 4, 2))
        self.assertEqual((sum(m.marks), sum(m["acc0"].marks), sum(m["tr2"].marks)), (16 + 8 + 32, 32, 0))

    def test_loop_four_is_missing(self):
        m = loops(loaded=3)
        with self.refused(5, m, row=3, column=0, what="mqma.mm acc0, tr0, tr1", register="tr0"):
            m.step("mqma.mm acc0, tr0, tr1")
        self.assertIsNone(m["tr0"].element(3, 0, 8))

    def test_words_and_lines(self):
        m = loops()
        n = loops()
        m.step("mqma.mm acc0, tr0, tr1")
        n.step(word("0000100 00001 00000 110 00000 1110111"))
        self.assertEqual(held(m), held(n))

    def test_scalars(self):
        m = Machine(64, 256, memory=8)
        m.step("msettypei x5, 9")   # e16 with maccq needs ELEN 64
        self.assertEqual((m.x[5], m.mtype), (bodlarina.MILL, bodlarina.MILL))
        m.step("msettypei x5, 1")
        m.step("msettilemi x6, 9")
        m.step("msettilen x7, x0")
        self.assertEqual(m.x[5:8], [1, 256 // 64, 64 // 16])
        m.x[31] = -8
        self.assertEqual((m.x[31], m.x[-1], len(m.x), m.x[0]), (2**64 - 8, 2**64 - 8, 32, 0))
        m.x[0] = 77
        m.x[0:2] = 5, 6
        self.assertEqual(m.x[:3], [0, 6, 0])
        m.x[4:9:2] = (n for n in (1, 2, 2**64 - 1))
        self.assertEqual(m.x[4:9], [1, 1, 2, 4, 2**64 - 1])
        self.assertIn("Scalars([0, 6,", repr(m.x))

    def test_rules(self):
        for rule in Rule:
            m = Machine(64, 256, rule=rule)
            for asked in range(11):
                m.step(f"msettilemi x3, {asked}")
                halved = rule == Rule.HALVING and 4 < asked < 8
                self.assertEqual(m.x[3], (asked + 1) // 2 if halved else min(asked, 4))

    def test_negative_stride(self):
        m = Machine(64, 128, memory=16)
        m.put(0, 8, range(16))
        m.x[10], m.x[11] = 8, -8
        for line in "msettypei x0, 0", "msettilemi x0, 2", "msettileki x0, 2", "mlae8.m tr3, (x10), x11":
            m.step(line)
        self.assertEqual([row[:2] for row in m["tr3"].elements(8)], [[8, 9], [0, 1]])

    def test_moves(self):
        m = Machine(64, 256, memory=32)
        rows = [[10 * (4 * i + j + 1) for j in range(4)] for i in range(4)]
        m.put(0, 16, flat(rows))
        m.x[11], m.x[12] = 8, 1
        for line in "msettypei x0, 1", "msettilemi x0, 4", "msettileni x0, 4", "mlce16.m acc0, (x10), x11":
            m.step(line)
        m.group = 2
        m.step("mmvcr.v.m v4, acc0, x12")
        self.assertEqual((m.v.get(4, 16), m.v.get(5, 16)), (rows[1] + [0] * 4, rows[2] + [0] * 4))
        m.v.put(4, 16, [55, -60])
        self.assertEqual(m.v.get(4, 16)[:4], [55, -60, 70, 80])
        m.step("mmvcr.m.v acc0, v4, x12")
        self.assertEqual(m["acc0"].elements(16)[1][:4], [55, -60, 70, 80])
        m.v[31] = bytes(range(16))
        self.assertEqual((bytes(m.v[31]), m.v.get(31, 32)[0], bytes(m.v[-1][:2]), len(m.v[2:4])), (bytes(range(16)), 0x03020100, b"\0\1", 2))
        with self.refused(12, m):
            m.step("mmvcr.v.m v5, acc0, x12")
        m.x[12] = 3
        with self.refused(4, m):
            m.step("mmvcr.v.m v4, acc0, x12")
        with self.refused(5, m, register="acc1"):
            m.step("mmvcr.v.m v4, acc1, x0")
        m.group = 3
        with self.refused(8, m):
            m.step("mmvcr.v.m v4, acc0, x0")

    def test_wide(self):
        m = Machine(128, 256, memory=64, elen=64)
        m.put(0, 64, [2**63 - 1, -5])
        m.x[11] = 8
        for line in "msettypei x0, 3", "msettilemi x0, 2", "msettileni x0, 1", "mlce64.m acc1, (x10), x11", "maddc.mm acc1, acc1":
            m.step(line)
        self.assertEqual([m["acc1"].element(i, 0, 64) for i in (0, 1)], [-2, -10])  # 2^64 - 2 in two's complement
        self.assertEqual(m["acc1"].element(0, 0, 64, signed=False), 2**64 - 2)
        self.assertEqual((m["acc1"].element(1, 0, 8), m["acc1"].element(1, 7, 8), m["acc1"].is_written(1, 2, 32)), (-10, -1, False))


class Refusals(Case):
    """Each answer, from the plainest thing that is answered so, and that it leaves every buffer."""

    def test_1_no_instruction(self):
        m = loops()
        with self.refused(1, m, what="word 0xFC006077"):
            m.step(word("111111 00000 00000 0 110 00000 1110111"))

    def test_2_illegal_type(self):
        m = loops()
        m.step("msettypei x0, 4")
        with self.refused(2, m):
            m.step("msettilemi x0, 1")

    def test_3_width(self):
        m = loops()
        with self.refused(3, m):
            m.step("mlae16.m tr0, (x10), x11")

    def test_4_size(self):
        m = loops()
        m.step("msettileni x0, 8")
        m.step("msettypei x0, 1")
        with self.refused(4, m):
            m.step("mlbe16.m tr1, (x14), x15")

    def test_5_unwritten(self):
        """The register is the first of ms1, ms2 and md that has an element unwritten in its own tile."""
        m = Machine(64, 256, memory=64)
        m.x[11] = 8
        for line in "msettypei x0, 8", "msettilemi x0, 2", "msettileki x0, 3", "msettileni x0, 1", "mlae8.m tr0, (x10), x11":
            m.step(line)
        with self.refused(5, m, register="tr2"):
            m.step("mqma.mm acc0, tr2, tr1")
        with self.refused(5, m, register="tr1"):
            m.step("mqma.mm acc0, tr0, tr1")
        m.step("msettileki x0, 2")
        m.step("mlbe8.m tr1, (x10), x11")
        m.step("msettileki x0, 3")
        with self.refused(5, m, row=2, register="tr1"):  # tr0 has no row 2 in its tile, which is 2 by 3
            m.step("mqma.mm acc0, tr0, tr1")
        m.step("mlbe8.m tr1, (x10), x11")
        with self.refused(5, m, register="acc0"):
            m.step("mqma.mm acc0, tr0, tr1")
        with self.subTest("half an element"):
            n = Machine(64, 256, memory=64)
            for line in ("msettypei x0, 0", "msettilemi x0, 1", "msettileki x0, 2", "msettileni x0, 4", "mlae8.m tr0, (x0), x0", "mlbe8.m tr1, (x0), x0",
                         "msettypei x0, 1", "msettileni x0, 1", "memulc.mi acc0, acc0, 0"):
                n.step(line)
            with self.refused(5, n, column=1, register="tr0"):  # at 16 bits: tr0 has bytes 0 and 1, and element 1 is bytes 2 and 3
                n.step("mma.mm acc0, tr0, tr1")
        m.step("msettilemi x0, 1")
        m.step("mqemulc.mi acc0, acc0, 0")
        m.step("msettilemi x0, 2")
        with self.refused(5, m, row=1, register="acc0"):
            m.step("mqma.mm acc0, tr0, tr1")
        m.step("mlce8.m acc1, (x10), x11")
        for line, row, register in (("mqaddc.mm acc0, acc1", 1, "acc0"), ("mqaddc.mm acc1, acc0", 1, "acc0"), ("mwsubc.mm acc1, acc1", 0, "acc1"),
                                    ("mqemulc.mi acc1, acc0, 3", 1, "acc0"), ("mwemulc.mx acc1, acc0, x11", 1, "acc0"),
                                    ("msce32.m acc0, (x10), x11", 1, "acc0"), ("mscte32.m acc0, (x10), x11", 1, "acc0"),
                                    ("msae8.m tr7, (x10), x11", 0, "tr7"), ("msbte8.m tr7, (x10), x11", 0, "tr7"),
                                    ("mmvcr.v.m v0, acc0, x11", None, ""), ("mmvcc.v.m v0, acc0, x0", 1, "acc0")):
            with self.subTest(line):
                if row is None:
                    with self.refused(4, m):  # row 8 of two
                        m.step(line)
                else:
                    with self.refused(5, m, row=row, register=register, what=line):
                        m.step(line)

    def test_6_memory(self):
        m = loops()
        m.x[16] = 64 - 28
        m.step("mqma.mm acc0, tr0, tr1")
        with self.refused(6, m):
            m.step("msce32.m acc0, (x16), x17")
        m = Machine(64, 128)
        m.step("msettilemi x0, 1")
        m.step("msettileki x0, 1")
        with self.refused(6, m):
            m.step("mlae8.m tr0, (x0), x0")

    def test_7_seal(self):
        m = loops(seals=[(60, 1)])
        m.step("mqma.mm acc0, tr0, tr1")
        with self.refused(7, m, what="msce32.m acc0, (x16), x17"):
            m.step("msce32.m acc0, (x16), x17")

    def test_8_arguments(self):
        m = loops()
        with self.refused(8, m, what="run_turn"):
            m.run_turn()
        with self.refused(8, m, what="run_next"):
            m.run_next()
        m.group = 0
        with self.refused(8, m):
            m.step("msettilemi x0, 1")

    def test_9_overlap(self):
        m = loops(seals=[(48, 4)])
        for c in (0, 8), (32, 4), (32, 8):
            with self.refused(9, m, what="run"):
                m.run(Plan(8, 4, 4, 4, 2, (0, 4), (16, 2), c))

    def test_10_11_12_words(self):
        m = loops()
        with self.refused(10, m, what="word 0x00000000"):
            m.step(0)
        with self.refused(11, m):  # mfaddc.mm acc0, acc1
            m.step(word("000100 1 00000 00001 110 00000 1110111"))
        with self.refused(12, m):  # mqma.mm acc2, tr0, tr1
            m.step(word("0000100 00001 00000 110 00010 1110111"))
        for answer, bits in (10, 0), (11, 0x1200E077), (1, 0xFC006077), (12, 0x08106177):
            with self.refused(answer, what=f"word 0x{bits:08X}"):
                word_text(bits)

    def test_13_rows(self):
        m = loops()
        m.step("mqma.mm acc0, tr0, tr1")
        m.x[17] = 7
        with self.refused(13, m):
            m.step("msce32.m acc0, (x16), x17")

    def test_14_room(self):
        m = loops()
        size = m.image_size()
        for room in 0, 1, size - 1:
            with self.refused(14, m, what="image_write"):
                m.image_write(room)
        self.assertEqual(m.image_write(size), m.image_write(sys.maxsize))
        with self.refused(14):
            word_text(0x04B50077, 22)
        self.assertEqual(word_text(0x04B50077, 23), "mlae8.m tr0, (x10), x11")
        with self.refused(14, place=60, what="image_salvage"):
            image_salvage((IMAGES / "cut.img").read_bytes(), 50)

    def test_15_image(self):
        m = loops()
        with self.refused(15, m, place=60, what="image_read"):
            m.image_read((IMAGES / "cut.img").read_bytes())
        with self.refused(15, m, place=22):
            m.image_read((IMAGES / "damaged.img").read_bytes())
        with self.refused(15, m, place=0):
            m.image_read(b"")
        with self.refused(15, place=2):
            Machine.of_image(b"\1\6")
        with self.refused(15, place=7):
            image_salvage((IMAGES / "handover.img").read_bytes()[:7])

    def test_17_line(self):
        m = loops()
        for line, column in (("", 1), ("mlae8", 6), ("mlae8.m tr8, (x10), x11", 11), ("mlae8.m tr0, (x10), x11 ", 24), ("mlae8.m tr0,(x10), x11", 13),
                             ("µlae8.m", 1), ("mlaä8.m", 4), ("mla\0", 4), ("msettypei x0, 8192", 18), ("mla\udc80", 4)):
            with self.subTest(line):
                with self.refused(17, m, column=column, what=line):
                    m.step(line)
                with self.refused(17, column=column):
                    text_word(line)

    def test_said(self):
        m = loops(loaded=3)
        cases = [
            (lambda: m.step("mqma.mm acc0, tr0, tr1"),
             "mqma.mm acc0, tr0, tr1: refused with 5, a register element to be read was never written: row 3, column 0 of tr0"),
            (lambda: m.image_read(b"\1\6"), "image_read: refused with 15, this is no image, or it is cut short: place 2"),
            (lambda: m.step("mlae8"), "mlae8: refused with 17, no line of assembler text goes on at this column: column 6"),
            (lambda: m.step(0), "word 0x00000000: refused with 10, the opcode is not 1110111"),
            (lambda: Machine(1, 2), "start: refused with 8, the arguments or the state are at fault, or the run is over"),
        ]
        for call, said in cases:
            with self.assertRaises(Refused) as caught:
                call()
            refused = caught.exception
            self.assertEqual(str(refused), said)
            self.assertEqual((refused.name, refused.text), (refused.answer.name, refused.answer.text))
            self.assertIn(refused.text, said)
            again = pickle.loads(pickle.dumps(refused))
            self.assertEqual((str(again), vars(again)), (said, vars(refused)))
        self.assertEqual(str(Refused(5, 3, 1)), "refused with 5, a register element to be read was never written: row 3, column 1")


class Runs(Case):
    A, B, C = 0, 4096, 16384

    def filled(self, rng, sew, m, k, n, transposed=False, **more):
        """A machine with A and B in memory, and the two."""
        half = 1 << sew - 1
        a = [[rng.randrange(-half, half) for _ in range(k)] for _ in range(m)]
        b = [[rng.randrange(-half, half) for _ in range(n)] for _ in range(k)]
        machine = Machine(128, 512, memory=32768, **more)
        machine.put(self.A, sew, flat(zip(*a)) if transposed else flat(a))
        machine.put(self.B, sew, flat(b))
        return machine, a, b

    def test_products(self):
        rng = random.Random(1)
        for sew, factor, elen in ((8, 1, 32), (8, 2, 32), (8, 4, 32), (16, 1, 32), (16, 2, 32), (32, 1, 32), (16, 4, 64), (32, 2, 64), (64, 1, 64)):
            for kind in Kind.PRODUCT, Kind.A_TRANSPOSED:
                for rule in Rule:
                    m, k, n = (rng.randrange(1, 13) for _ in range(3))
                    with self.subTest(sew=sew, factor=factor, kind=kind, rule=rule, sizes=(m, k, n)):
                        machine, a, b = self.filled(rng, sew, m, k, n, kind == Kind.A_TRANSPOSED, elen=elen, rule=rule)
                        size, wide = sew // 8, factor * sew
                        plan = Plan(sew, factor, m, k, n, (self.A, size * (m if kind else k)), (self.B, size * n), (self.C, wide // 8 * n), kind)
                        rows, columns = 512 // 128, 128 // sew
                        terms = min(rows, columns)
                        blocks = [-(-x // y) for x, y in ((m, rows), (k, terms), (n, columns))]
                        steps = 1 + blocks[0] * (1 + blocks[2] * (3 + 4 * blocks[1]))
                        self.assertEqual(machine.run(plan), steps)
                        self.assertEqual(machine.get(self.C, wide, m * n), flat(product(a, b, wide)))

    def test_negative_strides(self):
        m = Machine(64, 256, memory=64)
        m.put(0, 8, flat(COUNTS[::-1]))
        m.put(16, 8, flat(WEIGHTS))
        self.assertEqual(m.run(Plan(8, 4, 4, 4, 2, a=(12, -4), b=(16, 2), c=(56, -8))), 9)
        self.assertEqual(m.get(32, 32, 8), flat(product(COUNTS, WEIGHTS)[::-1]))

    def test_turns(self):
        rng = random.Random(2)
        machine, a, b = self.filled(rng, 8, 9, 10, 17)
        plan = Plan(8, 4, 9, 10, 17, (self.A, 10), (self.B, 17), (self.C, 68))
        self.assertEqual((machine.run_steps(), machine.run_is_over(), machine.run_turns(5)), (0, False, 0))
        before = held(machine)
        machine.run_start(plan)
        after = held(machine)
        self.assertEqual(after[:3] + after[4:], before[:3] + before[4:])  # the run's block alone is written
        self.assertEqual(bodlarina._split(machine.run_block, 64, True), [8, 4, 9, 10, 17, 0, 10, 4096, 17, 16384, 68, 128, 512] + [0] * 6 + [32])
        steps = 1 + 3 * (1 + 2 * (3 + 4 * 3))  # rows by 4, terms by 4, columns by 16
        self.assertEqual((machine.run_steps(), machine.run_is_over()), (steps, False))
        machine.run_turn()
        self.assertEqual(machine.run_turns(50), 50)
        self.assertEqual((machine.run_steps(), machine.run_is_over()), (steps, False))
        self.assertEqual(machine.run_turns(10**6), steps - 51)
        self.assertEqual((machine.run_steps(), machine.run_is_over(), machine.run_turns(1)), (steps, True, 0))
        with self.refused(8, machine, what="run_turn"):
            machine.run_turn()
        with self.refused(8, machine, what="run_next"):
            machine.run_next()
        self.assertEqual(machine.get(self.C, 32, 9 * 17), flat(product(a, b, 32)))

    def test_next(self):
        """The words that a run hands out, carried out one by one."""
        rng = random.Random(3)
        machine, a, b = self.filled(rng, 16, 5, 6, 7)
        machine.run_start(Plan(16, 2, 5, 6, 7, (self.A, 12), (self.B, 14), (self.C + 4 * 28, -28)))
        lines = []
        while not machine.run_is_over():
            handed = machine.run_next()
            machine.x[:] = [0] * 32
            machine.x[10], machine.x[11] = handed.address, handed.stride
            machine.step(handed.word)
            lines.append((word_text(handed.word), handed.address, handed.stride))
        self.assertEqual(len(lines), machine.run_steps())
        self.assertEqual(lines[0], ("msettypei x0, 1", 0, 0))
        self.assertEqual(lines[-1][1:], (self.C, -28))  # the block of C that is last has its last row alone
        self.assertEqual(machine.get(self.C, 32, 35), flat(product(a, b, 32)[::-1]))

    def test_refused(self):
        m = loops()
        good = Plan(8, 4, 4, 4, 2, (0, 4), (16, 2), (32, 8))
        for answer, change in ((8, {"sew": 9}), (8, {"factor": 3}), (8, {"m": 1025}), (8, {"kind": 3}), (8, {"sew": 64}), (8, {"kind": 2}),
                               (6, {"a": (53, 4)}), (6, {"c": (2**64 - 1, 8)}), (6, {"b": (16, -8)}), (9, {"c": (16, 8)}), (9, {"c": (32, 0)})):
            with self.subTest(change):
                with self.refused(answer, m, what="run"):
                    m.run(good._replace(**change))
                with self.refused(answer, m, what="run_start"):
                    m.run_start(good._replace(**change))
        self.assertEqual(m.run(good._replace(k=0, a=(10**9, 1))), 1 + 1 * (1 + 1 * 3))
        self.assertEqual(m.get(32, 32, 8), [0] * 8)

    def test_refused_turns(self):
        """A range that is sealed on the way, and a machine that is started anew on the way."""
        m = loops()
        m.run_start(Plan(8, 4, 4, 4, 2, (0, 4), (16, 2), (32, 8)))
        self.assertEqual(m.run_turns(8), 8)
        m.seal(63, 1)
        self.assertEqual(m.run_turns(2), 0)
        self.assertFalse(m.run_is_over())
        with self.refused(7, m, what="run_turn: msce32.m acc0, (x10), x11"):
            m.run_turn()
        m = loops()
        m.run_start(Plan(8, 4, 4, 4, 2, (0, 4), (16, 2), (32, 8)))
        while word_text(m._handed(bodlarina._Lent(bytearray(m.run_block))).word) != "mqma.mm acc0, tr0, tr1":
            m.run_turn()
        sizes = [f"msettile{name}i x0, {size}" for name, size in (("m", 4), ("k", 4), ("n", 2))]
        m.start(64, 256)
        for line in ["msettypei x0, 8"] + sizes:
            m.step(line)
        with self.refused(5, m, what="run_turn: mqma.mm acc0, tr0, tr1", register="tr0"):
            m.run_turn()

    def test_floats(self):
        def rounded(x):
            return struct.unpack("<f", struct.pack("<f", x))[0]  # of a sum or product of two binary32 numbers: as rounded once

        rng = random.Random(4)
        a = [[rounded(rng.uniform(-9, 9)) for _ in range(6)] for _ in range(5)]
        b = [[rounded(rng.uniform(-9, 9) * 1e-41 if i % 2 else rng.uniform(-9, 9)) for _ in range(3)] for i in range(6)]
        m = Machine(128, 512, memory=1024)
        struct.pack_into("<30f", m.memory, 0, *flat(a))
        struct.pack_into("<18f", m.memory, 256, *flat(b))
        self.assertEqual(m.run(Plan(32, 1, 5, 6, 3, (0, 24), (256, 12), (512, 12), Kind.FLOAT)), 1 + 2 * (1 + 1 * (3 + 4 * 2)))
        for i in range(5):
            for j in range(3):
                total = 0.0
                for k in range(6):
                    total = rounded(total + rounded(a[i][k] * b[k][j]))
                self.assertEqual(struct.unpack_from("<f", m.memory, 512 + 12 * i + 4 * j)[0], total)

    def test_other_floats(self):
        """Where floats are not as C starts them, no word and no run multiplies any, and nothing changes."""
        try:
            math = ctypes.CDLL("libm.so.6")
        except OSError:
            self.skipTest("no libm.so.6: other roundings are not tried")
        m = Machine(128, 512, memory=1024)
        plan = Plan(32, 1, 2, 2, 2, (0, 8), (256, 8), (512, 8), Kind.FLOAT)
        m.run_start(plan)
        for line in "msettypei x0, 2", "msettilemi x0, 1", "msettileki x0, 1", "msettileni x0, 1":
            m.step(line)
        before, environment = held(m), (ctypes.c_uint32 * 8)()
        self.assertEqual(math.fegetenv(environment), 0)
        for bits in 0x2000, 0x4000, 0x6000, 0x8000, 0x0040:  # of MXCSR: down, up, towards zero; results, operands flushed to zero
            changed = (ctypes.c_uint32 * 8)(*environment)
            changed[7] |= bits
            for call in (lambda: m.step("mfma.mm acc0, tr0, tr1"), m.run_turn, lambda: m.run_turns(3), lambda: m.run(plan)):
                math.fesetenv(changed)
                try:
                    call()
                    said = "done"
                except RuntimeError as error:
                    said = str(error)
                finally:
                    math.fesetenv(environment)
                self.assertRegex(said, "^floats of this thread", hex(bits))
                self.assertEqual(held(m), before)
        with self.refused(5, m, register="tr0"):
            m.step("mfma.mm acc0, tr0, tr1")
        self.assertEqual(m.run(plan), 9)


class Images(Case):
    WHOLE = "today", "handover", "halving", "long-sums", "visit"

    def test_of_the_bench(self):
        """What the bench in C wrote is read, and written again as it was."""
        numbers = {"today": (128, 256, 32, 0), "handover": (64, 256, 32, 0), "halving": (64, 256, 32, 1), "long-sums": (128, 256, 64, 0),
                   "visit": (64, 512, 32, 0)}
        for name in self.WHOLE:
            data = (IMAGES / f"{name}.img").read_bytes()
            for form in bytes, bytearray, memoryview:
                m = Machine.of_image(form(data), memory=8)
                self.assertEqual((m.rlen, m.mlen, m.elen, m.rule), numbers[name])
                self.assertEqual((m.image_write(), m.image_size(), image_mlen(form(data))), (data, len(data), m.mlen))
        m = Machine.of_image((IMAGES / "handover.img").read_bytes(), memory=64)
        self.assertEqual((m.seals, m.mtype, m.tile_m, m.tile_k, m.tile_n), ([(0, 20)], 8, 3, 4, 2))
        self.assertEqual([row[:4] for row in m["tr0"].elements(8)], COUNTS[:3] + [[None] * 4])
        self.assertEqual([row[:2] for row in m["acc0"].elements(32)], product(COUNTS[:3], WEIGHTS) + [[None] * 2])
        m.x[10], m.x[11] = 24, 8
        m.step("msce32.m acc0, (x10), x11")
        self.assertEqual(m.get(24, 32, 6), flat(product(COUNTS[:3], WEIGHTS)))
        m = Machine.of_image((IMAGES / "visit.img").read_bytes())
        self.assertEqual(m.seals, [(4 * i, 4) for i in range(8)])

    def test_for_the_bench(self):
        """The machine of handover.bench, made here, has the image that the bench wrote."""
        m = Machine(64, 256, memory=256, seals=[(0, 20)])
        m.put(0, 8, flat(COUNTS[:3]) + flat(WEIGHTS))
        m.x[11], m.x[14], m.x[15] = 4, 12, 2
        for line in ("msettypei x0, 8", "msettilemi x0, 3", "msettileki x0, 4", "msettileni x0, 2", "mlae8.m tr0, (x10), x11", "mlbe8.m tr1, (x14), x15",
                     "mqemulc.mi acc0, acc0, 0", "mqma.mm acc0, tr0, tr1"):
            m.step(line)
        self.assertEqual(m.image_write(), (IMAGES / "handover.img").read_bytes())

    def test_by_hand(self):
        # version 1, RLEN 2^6, MLEN 2^7, mtype e16, sizes 2, 2 and 3, 300 bytes sealed from 5 on (300 is 44 + 128, then 2); two runs: two bytes of
        # tr0 from 1 on; and behind a gap of 252 (124 + 128, then 1) the last byte of acc1
        data = bytes([1, 6, 7, 1, 2, 2, 3, 5, 172, 2, 2, 1, 2, 11, 0, 252, 1, 1, 255])
        m = Machine.of_image(data)
        self.assertEqual((m.rlen, m.mlen, m.mtype, m.tile_m, m.tile_k, m.tile_n, m.seals), (64, 128, 1, 2, 2, 3, [(5, 300)]))
        self.assertEqual([i for i, mark in enumerate(m.marks) if mark], [1, 2, 255])
        self.assertEqual((m["tr0"].element(0, 1, 8), m["tr0"].element(0, 0, 16), m["acc1"].element(1, 31, 8), m["acc1"].element(1, 31, 8, False)),
                         (11, None, -1, 255))
        self.assertEqual([m["tr0"].is_written(0, 0, 16), m["tr0"].is_written(0, 1, 8), m["tr0"].is_written(0, 1, 16)], [False, True, False])
        for length in range(len(data)):
            with self.refused(15, m, place=length):
                m.image_read(data[:length])
        with self.refused(15, m, place=len(data)):
            m.image_read(data + b"\0")
        n = Machine(4096, 65536, memory=3)
        n.x[7] = 9
        n.image_read(data)
        self.assertEqual((n.image_write(), n.mlen, len(n.registers), len(n.memory), n.x[7]), (data, 128, 256, 3, 9))

    def test_mlen(self):
        """image_mlen is not 0 exactly where the library's own place of the fault lies behind MLEN."""
        rng = random.Random(5)
        values = [0, 1, 2, 3, 4, 5, 6, 7, 8, 9, 10, 11, 12, 13, 16, 17, 128, 255]
        seen = set()
        m = Machine(64, 128)
        for _ in range(30000):
            head = bytes([rng.choice([0, 1, 2, 3, 4, 5]), rng.choice([0, 1, 2, 6, 7, 9, 10]), rng.choice([5, 6, 7, 8, 9, 12]),
                          rng.choice(values), rng.choice(values)])[:rng.randrange(6)]
            with self.assertRaises(Refused) as caught:
                m.image_read(head)
            at = min(head[0] if head else 0, 3)
            behind = len(head) >= at + 2 and caught.exception.place >= at + 2
            self.assertEqual(image_mlen(head), 1 << head[at + 1] if behind else 0, head)
            seen.add((head[0] if head else None, behind))
        self.assertEqual({version for version, behind in seen if behind}, {1, 2, 3, 4})

    def test_salvage(self):
        data = (IMAGES / "handover.img").read_bytes()
        self.assertEqual(image_salvage(data), (data, 10, 10, 75))
        kept = image_salvage(bytearray(data[:60]))
        self.assertEqual((kept.kept, kept.announced, kept.place), (8, 10, 60))
        self.assertEqual((IMAGES / "cut.img").read_bytes(), data[:60])
        m = Machine.of_image(kept.image, memory=64)
        self.assertEqual([row[:2] for row in m["acc0"].elements(32)], product(COUNTS[:1], WEIGHTS) + [[None] * 2] * 3)
        m.x[10], m.x[11] = 24, 8
        with self.refused(5, m, row=1, register="acc0"):
            m.step("msce32.m acc0, (x10), x11")
        self.assertEqual(image_salvage(memoryview((IMAGES / "damaged.img").read_bytes()))[1:], (2, 10, 22))
        self.assertEqual(image_salvage(data, 75).image, data)


class Lines(Case):
    def test_words(self):
        for line, bits in (("mlae8.m tr0, (x10), x11", "0000010 01011 01010 000 00000 1110111"),
                           ("msbte32.m tr7, (x31), x1", "0001101 00001 11111 010 00111 1110111"),
                           ("memulc.mi acc1, acc0, -16", "0100000 10000 00000 110 00001 1110111"),
                           ("msettypei x3, 8191", "0000 1111111111111 111 00011 1110111"),
                           ("mmvcc.v.m v31, acc1, x2", "0001000 00010 00001 101 11111 1110111")):
            self.assertEqual((text_word(line), word_text(word(bits))), (word(bits), line))

    def test_there_and_back(self):
        rng = random.Random(6)
        lines = 0
        for _ in range(20000):
            bits = rng.getrandbits(25) << 7 | 0x77
            bits &= rng.choice([0xFFFFFFFF, 0xFE0FF0FF, 0x0FF8F0FF])
            try:
                line = word_text(bits)
            except Refused as refused:
                self.assertIn(refused.answer, (1, 11, 12))
                continue
            lines += 1
            self.assertEqual(text_word(line), bits)
            self.assertLessEqual(len(line), bodlarina.TEXT_BYTES_MOST)
        self.assertGreater(lines, 2000)

    def test_of_the_example(self):
        """Words and lines that the C example writes."""
        rows = re.findall(r"^  0x([0-9A-F]{8})  (m\S+ .*?) +(?:done|refused with [57],)", (TREE / "examples/step.out").read_text(), re.M)
        rows = [(int(bits, 16), line) for bits, line in rows if not line.startswith("msettypei")]
        self.assertGreater(len(rows), 8)
        for bits, line in rows:
            self.assertEqual((text_word(line), word_text(bits)), (bits, line))


class Buffers(Case):
    """Memory is lent as it is, and what a machine holds lives as long as someone holds it."""

    def test_lent(self):
        with mmap.mmap(-1, 64) as shared:
            for memory in (bytearray(64), memoryview(bytearray(80))[8:72], memoryview(bytearray(64)).cast("i"), memoryview(bytearray(64)).cast("B", (8, 8)),
                           shared):
                m = Machine(64, 256, memory)
                m.put(4, 8, [7, -1])
                self.assertEqual(memoryview(memory).tobytes()[:7], b"\0\0\0\0\7\xff\0")
                self.assertEqual(m.run(Plan(8, 4, 1, 1, 1, (4, 1), (5, 1), (60, 4))), 9)
                self.assertEqual(struct.unpack_from("<i", memoryview(memory).tobytes(), 60), (-7,))
            del m, memory
            gc.collect()

    def test_not_resized(self):
        memory = bytearray(16)
        m = Machine(64, 256, memory)
        for change in (lambda: memory.append(1), memory.clear, lambda: memory.extend(b"abc")):
            with self.assertRaises(BufferError):
                change()
        with m.memory as view:  # and released
            view[3] = 9
        self.assertEqual((m.memory[3], len(m.memory)), (9, 16))
        del m
        gc.collect()
        memory.append(1)
        self.assertEqual(len(memory), 17)

    def test_collected(self):
        m = loops()
        gone = weakref.ref(m)
        tr0, scalars, marks, memory = m["tr0"], m.x, m.marks, m.memory
        del m
        self.assertIsNotNone(gone())  # a register is a view of its machine
        self.assertEqual(tr0.element(1, 1, 8), 99)
        del tr0
        self.assertIsNone(gone())     # without a collector: nothing points in a circle
        gc.collect()
        self.assertEqual((scalars[13], sum(marks), memory[5]), (4, 16 + 8 + 32, 99))

    def test_many(self):
        for i in range(300):
            m = Machine(4096, 65536, memory=65536)
            m.put(65528, 64, [i])
            self.assertEqual(m.get(65528, 64, 1), [i])

    def test_read_only(self):
        m = loops()
        for view in m.machine, m.registers, m.marks, m.run_block, m["tr0"].bytes, m["acc1"].marks:
            with self.assertRaises(TypeError):
                view[0] = 1
        self.assertEqual(bytes(m["tr1"].bytes), bytes(m.registers[32:64]))
        self.assertEqual(bytes(m["acc1"].marks), bytes(m.marks[384:512]))

    def test_empty(self):
        for memory in 0, bytearray(), memoryview(bytearray(4))[4:]:
            m = Machine(64, 128, memory)
            self.assertEqual(len(m.memory), 0)
            m.step("msettypei x0, 0")
            self.assertEqual(m.run(Plan(8, 1, 0, 0, 0, (0, 0), (0, 0), (0, 0))), 1)

    def test_memory(self):
        m = Machine(64, 256, memory=16)
        m.put(0, 16, [-1, 65535, 258])
        self.assertEqual((m.get(0, 16, 3), m.get(0, 16, 3, signed=False), m.get(4, 8, 2)), ([-1, -1, 258], [65535, 65535, 258], [2, 1]))
        self.assertEqual((m.get(16, 64, 0), m.get(8, 64, 1)), ([], [0]))
        m.put(16, 8, [])
        m.memory[15] = 200
        self.assertEqual(m.get(15, 8, 1), [-56])


class Threads(Case):
    def together(self, jobs):
        """Runs functions at once in as many threads; what they raise is raised."""
        raised, barrier = [], threading.Barrier(len(jobs))

        def one(job):
            barrier.wait()
            try:
                job()
            except BaseException as error:  # reported below
                raised.append(error)

        threads = [threading.Thread(target=one, args=(job,)) for job in jobs]
        for thread in threads:
            thread.start()
        for thread in threads:
            thread.join()
        if raised:
            raise raised[0]

    def test_machines_of_their_own(self):
        def job(seed):
            rng = random.Random(seed)
            m, k, n = 20, 30, 25
            a = [[rng.randrange(-128, 128) for _ in range(k)] for _ in range(m)]
            b = [[rng.randrange(-128, 128) for _ in range(n)] for _ in range(k)]
            machine = Machine(512, 4096, memory=8192)
            machine.put(0, 8, flat(a))
            machine.put(1024, 8, flat(b))
            for _ in range(10):
                machine.put(4096, 32, [0] * (m * n))
                machine.run(Plan(8, 4, m, k, n, (0, k), (1024, n), (4096, 4 * n)))
                self.assertEqual(machine.get(4096, 32, m * n), flat(product(a, b)))

        self.together([lambda seed=seed: job(seed) for seed in range(6)])

    def test_one_machine(self):
        """Calls on one machine take turns by themselves, a start with other lengths among them."""
        machine = Machine(64, 256, memory=64)
        machine.put(0, 8, flat(COUNTS))
        machine.put(16, 8, flat(WEIGHTS))

        def runs():
            for _ in range(100):
                machine.run(Plan(8, 4, 4, 4, 2, (0, 4), (16, 2), (32, 8)))

        def starts():
            for i in range(100):
                machine.start(64, 256 << i % 5)

        def steps():
            for i in range(300):
                machine.step(f"msettilemi x3, {i % 5}")
                machine.image_write()

        self.together([runs, starts, steps, runs, starts])
        self.assertEqual(machine.get(32, 32, 8), flat(product(COUNTS, WEIGHTS)))


class WrongArguments(Case):
    """What the library cannot be given raises as Python does, and leaves every buffer."""

    def test_types_and_values(self):
        m = loops()
        plan = Plan(8, 4, 4, 4, 2, (0, 4), (16, 2), (32, 8))
        for error, calls in (
            (TypeError, [
                lambda: Machine("64", 256), lambda: Machine(64.0, 256), lambda: Machine(64), lambda: Machine(64, 256, "abc"), lambda: Machine(64, 256, None),
                lambda: Machine(64, 256, b"abc"), lambda: Machine(64, 256, 1.5), lambda: Machine(64, 256, memoryview(bytearray(8))[::2]),
                lambda: Machine(64, 256, 0, 32), lambda: m.start(None, 256), lambda: m.start(64, 256, elen="32"), lambda: m.start(64, 256, seals=5),
                lambda: m.start(64, 256, seals=[5]), lambda: m.start(64, 256, seals=[("a", 1)]), lambda: m.seal(0.5, 1), lambda: m.seal(0),
                lambda: m.step(None), lambda: m.step(1.0), lambda: m.step(b"mlae8.m tr0, (x10), x11"), lambda: m.run((8, 4, 4, 4, 2)),
                lambda: m.run(plan._replace(m="4")), lambda: m.run(plan._replace(a=5)), lambda: m.run_start(None), lambda: m.run_turns(2.0),
                lambda: m.image_read("abc"), lambda: m.image_read(5), lambda: m.image_read(None), lambda: m.image_write("5"), lambda: image_mlen(5),
                lambda: image_salvage("abc"), lambda: image_salvage(b"abc", 1.0), lambda: word_text("x"), lambda: text_word(5), lambda: text_word(b"m"),
                lambda: m.x.__setitem__(3, "5"), lambda: m.x.__setitem__(3, None), lambda: m.x["a"], lambda: m.x.__setitem__(slice(0, 2), 5),
                lambda: m.v["a"], lambda: m.v.__setitem__(3, 5), lambda: m.v.put(3, 8, [None]), lambda: m.v.get(slice(0, 1), 8),
                lambda: m.put("a", 8, [1]), lambda: m.put(0, 8, ["a"]), lambda: m.put(0, 8, 5), lambda: m.get(0, 8, "1"), lambda: m["tr0"].element("a", 0, 8),
            ]),
            (ValueError, [
                lambda: Machine(-64, 256), lambda: Machine(64, 2**64), lambda: Machine(64, 256, -1), lambda: m.start(2**64 + 64, 256),
                lambda: m.start(64, 256, seals=[(1, 2, 3)]), lambda: m.start(64, 256, seals=[(-1, 2)]), lambda: m.start(64, 256, rule=-1),
                lambda: m.seal(-1, 1), lambda: m.seal(0, 2**64), lambda: m.step(-1), lambda: m.step(2**32), lambda: m.run(plan._replace(m=-1)),
                lambda: m.run(plan._replace(a=(0, 2**63))), lambda: m.run(plan._replace(c=(0, 1, 2))), lambda: m.run(plan._replace(b=(-1, 2))),
                lambda: m.run_turns(-1), lambda: m.image_write(-1), lambda: image_salvage(b"abc", -1), lambda: word_text(2**32), lambda: word_text(0x77, -1),
                lambda: m.x.__setitem__(3, 2**64), lambda: m.x.__setitem__(3, -(2**63) - 1), lambda: m.x.__setitem__(slice(0, 2), [1]),
                lambda: m.x.__setitem__(slice(0, 2), [1, 2**64]), lambda: m.v.__setitem__(3, b"abc"), lambda: m.v.put(3, 8, [0] * 17),
                lambda: m.v.put(3, 8, [256]), lambda: m.v.get(3, 12), lambda: m.put(0, 8, [256]), lambda: m.put(0, 8, [-129]), lambda: m.put(0, 24, [1]),
                lambda: m.get(0, 8, -1), lambda: m["tr0"].element(0, 0, 24), lambda: m["tr0"].elements(0),
            ]),
            (IndexError, [
                lambda: m.x[32], lambda: m.x.__setitem__(32, 1), lambda: m.v[32], lambda: m["tr0"].element(4, 0, 8), lambda: m["tr0"].element(0, 8, 8),
                lambda: m["acc0"].element(0, 8, 32), lambda: m.get(64, 8, 1), lambda: m.get(-1, 8, 1), lambda: m.put(60, 64, [1]), lambda: m.get(57, 64, 1),
            ]),
            (KeyError, [lambda: m["tr8"], lambda: m["acc2"], lambda: m["x0"], lambda: m[0], lambda: m["tr00"]]),
        ):
            for i, call in enumerate(calls):
                with self.subTest(error=error.__name__, call=i):
                    before = held(m)
                    self.assertRaises(error, call)
                    self.assertEqual(held(m), before)

    def test_group(self):
        m = loops()
        for group, error in ("1", TypeError), (1.0, TypeError), (-1, ValueError), (2**64, ValueError):
            m.group = group
            self.assertRaises(error, m.step, "msettilemi x0, 1")


class Texts(Case):
    def test_sessions(self):
        """What the module and the README show."""
        for done in doctest.testmod(bodlarina), doctest.testfile(str(TREE / "README.md"), module_relative=False, encoding="utf-8"):
            self.assertEqual(done.failed, 0)
            self.assertGreater(done.attempted, 3)

    def test_docstrings(self):
        for name in bodlarina.__all__:
            thing = getattr(bodlarina, name)
            if callable(thing):
                self.assertTrue(thing.__doc__, name)
        for name, thing in vars(Machine).items():
            self.assertTrue(name.startswith("_") or thing.__doc__, name)

    def test_example(self):
        done = subprocess.run([sys.executable, "-B", HERE / "four_loops.py"], stdout=subprocess.PIPE, check=True, text=True)
        self.assertEqual(done.stdout, (HERE / "four_loops.out").read_text())


if __name__ == "__main__":
    outcome = unittest.main(exit=False).result
    wrong = {getattr(test, "test_case", test).id() for test, _ in outcome.failures + outcome.errors}
    for test, reason in outcome.skipped:
        print(reason)
    print(f"{outcome.testsRun - len(wrong) - len(outcome.skipped)} passed, {len(wrong)} failed")
    sys.exit(bool(wrong))
