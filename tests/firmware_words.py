"""tests/firmware_words.py FOLDER SEED RLEN,MLEN,ELEN GROUP [halving]: a list of words that a machine accepts, chosen by a seed, in three ways.

FOLDER/words.S is a program for RISC-V that has them, with the scalars of each set before it; at its end it writes its memory out: to standard output,
or compiled with -DBARE by the UART of QEMU's machine virt. FOLDER/words.bench has the same for the bench, which saves bench.img and says so if its memory
is another. words.img and words.memory are what the module for Python leaves.
"""
import random
import sys
from pathlib import Path

sys.path.insert(0, str(Path(__file__).resolve().parent.parent / "python"))
import bodlarina  # noqa: E402

MEMORY, WORDS, SUM_AT = 4096, 400, 0  # the first eight bytes, which no word touches, take the sum over what settings gave

WEIGHTS = (1, 2, 2, 40, 40, 60, 6, 2, 2, 2, 2)  # of the kinds of lines below

START = """    .option norelax # gp is not set
    .globl _start
_start:
#ifdef BARE
    lla t0, stopped
    csrw mtvec, t0
#endif
    li x13, 0
"""
END = f"""    lla x10, memory
    sd x13, {SUM_AT}(x10)
#ifdef BARE
    li x11, {MEMORY}
    li x12, 0x10000000
1:  lbu x14, 0(x10)
    sb x14, 0(x12)
    addi x10, x10, 1
    addi x11, x11, -1
    bnez x11, 1b
    li x14, 0x5555
    j 3f
    .balign 4
stopped:
    li x14, 99 << 16 | 0x3333
3:  li x12, 0x100000
    sw x14, 0(x12)
4:  j 4b
#else
    mv x11, x10
    li x10, 1
    li x12, {MEMORY}
    li x17, 64
    ecall
    li x10, 0
    li x17, 93
    ecall
#endif
    .data
    .balign 16
memory:
"""


def choose(chance: random.Random, elen: int) -> str:
    """A line of assembler text, whether the machine accepts it or not."""
    tile, acc, vector = f"tr{chance.randrange(8)}", f"acc{chance.randrange(2)}", f"v{chance.randrange(32)}"
    kind, width, size = chance.choice("abc"), chance.choice((8, 16, 32, elen)), chance.choice("mkn")
    wide = chance.choice(("m", "mw", "mq"))
    lines = (
        f"msettypei x12, {chance.choice((0, 1, 2, 3, 8, 9))}",
        f"msettile{size}i x12, {chance.randrange(24)}",
        f"msettile{size} x12, x{chance.choice((0, 14, 14))}",
        f"ml{kind}{chance.choice(('', 't'))}e{width}.m {acc if kind == 'c' else tile}, (x10), x11",
        f"ms{kind}{chance.choice(('', 't'))}e{width}.m {acc if kind == 'c' else tile}, (x10), x11",
        f"{chance.choice(('mma', 'mwma', 'mqma', 'mfma'))}.mm {acc}, {tile}, tr{chance.randrange(8)}",
        f"{wide}{chance.choice(('addc', 'subc', 'rsubc'))}.mm {acc}, acc{chance.randrange(2)}",
        f"{wide}emulc.mx {acc}, acc{chance.randrange(2)}, x14",
        f"{wide}emulc.mi {acc}, acc{chance.randrange(2)}, {chance.randrange(-16, 16)}",
        f"mmvc{chance.choice('rc')}.v.m {vector}, {acc}, x15",
        f"mmvc{chance.choice('rc')}.m.v {acc}, {vector}, x15",
    )
    return chance.choices(lines, WEIGHTS)[0]


def main(folder: str, seed: str, lengths: str, group: str, *rule: str) -> None:
    chance = random.Random(int(seed))
    rlen, mlen, elen = map(int, lengths.split(","))
    machine = bodlarina.Machine(rlen, mlen, MEMORY, elen=elen, rule=bodlarina.Rule.HALVING if rule else bodlarina.Rule.SMALLER)
    machine.group = int(group)
    first = bytes(chance.randrange(256) for _ in range(MEMORY))
    machine.memory[:] = first
    program, script, total, words = [START], [], 0, 0
    while words < WORDS:
        stride = chance.choice((-64, -8, 8, 24, 64))
        scalars = {10: chance.randrange(1024, 3072), 11: stride, 14: chance.randrange(-40, 40), 15: chance.randrange(4)}
        for number, value in scalars.items():
            machine.x[number] = value
        line = choose(chance, elen)
        try:
            machine.step(line)
        except bodlarina.Refused:
            continue
        words += 1
        script += [f"x {number} {value}" for number, value in scalars.items()] + [line]
        program.append(f"    lla x10, memory + {scalars[10]}\n    li x11, {stride}\n    li x14, {scalars[14]}\n    li x15, {scalars[15]}\n"
                       f"    .word {bodlarina.text_word(line):#010x} # {line}\n")
        if line.startswith("mset"):
            total = (3 * total + machine.x[12]) % 2**64
            program.append("    slli x16, x13, 1\n    add x13, x13, x16\n    add x13, x13, x12\n")
    machine.put(SUM_AT, 64, [total])
    program += [END, "    .byte " + ", ".join(map(str, first)) + "\n"]
    script = [f"machine {rlen} {mlen} {elen}" + (" halving" if rule else ""), f"memory {MEMORY}", f"group {group}", "bytes 0 " + first.hex(" ")] + script
    script += [f"bytes {SUM_AT} " + bytes(machine.memory[SUM_AT:SUM_AT + 8]).hex(" "), "save bench.img", "expect memory 0 " + " ".join(map(str, machine.memory))]
    Path(folder, "words.S").write_text("".join(program))
    Path(folder, "words.bench").write_text("\n".join(script) + "\n")
    Path(folder, "words.img").write_bytes(machine.image_write())
    Path(folder, "words.memory").write_bytes(machine.memory)


main(*sys.argv[1:])
