"""Writes the table of machine encodings that a patcher of displacements has to agree with.

    python3 tools/make_encodings.py > crates/vectors/stdin

Every byte of the table comes from LLVM's assembler (llvm-mc, LLVM 14.0.6), which is run as

    llvm-mc -triple=aarch64 --filetype=obj
    llvm-mc -triple=riscv64 -mattr=-relax,-c --filetype=obj

and assembles each instruction twice: with displacement 0 and with the displacement of the line.
The displacement is the target's address minus the address of the instruction.

A line holds, separated by single spaces:

    SET KIND UNPATCHED DISPLACEMENT PATCHED INSTRUCTION...

SET           aarch64 or riscv
KIND          which field holds the displacement, numbered within the set, see KINDS
UNPATCHED     the four bytes with displacement 0, in hexadecimal, lowest address first
DISPLACEMENT  in bytes, signed decimal, a multiple of 4
PATCHED       the four bytes with that displacement, written like UNPATCHED
INSTRUCTION   what was assembled into PATCHED, the rest of the line. AArch64 names the target
              relative to the instruction itself, `.+8`; in RISC-V a bare number is, to LLVM,
              the displacement.
"""

import struct
import subprocess

ASSEMBLER = {
    "aarch64": ["llvm-mc", "-triple=aarch64", "--filetype=obj"],
    "riscv": ["llvm-mc", "-triple=riscv64", "-mattr=-relax,-c", "--filetype=obj"],
}

CONDITIONS = "eq ne cs cc mi pl vs vc hi ls ge lt gt le".split()

# Set, kind, bits of the signed displacement in bytes, the instructions of the kind. {t} is the
# target; the other operands are those of `operands`.
KINDS = [
    ("aarch64", 0, 16, ["tbz {w}, #{low}, {t}", "tbnz {w}, #{low}, {t}",
                        "tbz {x}, #{high}, {t}", "tbnz {x}, #{high}, {t}"]),
    ("aarch64", 1, 21, ["b." + condition + " {t}" for condition in CONDITIONS]
                     + ["cbz {w}, {t}", "cbnz {w}, {t}", "cbz {x}, {t}", "cbnz {x}, {t}"]),
    ("aarch64", 2, 28, ["b {t}", "bl {t}"]),
    ("aarch64", 3, 21, ["ldr {w}, {t}", "ldr {x}, {t}", "ldrsw {x}, {t}", "ldr s{n}, {t}",
                        "ldr d{n}, {t}", "ldr q{n}, {t}", "prfm {prefetch}, {t}"]),
    ("aarch64", 4, 21, ["adr {x}, {t}"]),
    ("aarch64", 5, 32, [".word {t} - ."]),
    ("riscv", 0, 13, [branch + " {first}, {second}, {t}"
                      for branch in "beq bne blt bge bltu bgeu".split()]),
    ("riscv", 1, 21, ["jal {first}, {t}", "jal x0, {t}"]),
]

BIT_NUMBERS = [0, 31, 16, 1, 8, 15, 7, 30, 21, 10]
PREFETCHES = "pldl1keep pldl1strm plil2keep plil3strm pstl1keep pstl3strm".split()
RANDOM_DISPLACEMENTS = 10


class Random:
    """A linear congruential generator, so that the table is the same everywhere."""

    def __init__(self, seed):
        self.state = seed

    def below(self, limit):
        self.state = (self.state * 6364136223846793005 + 1442695040888963407) % 2**64
        return (self.state >> 32) * limit >> 32


def displacements(bits, random):
    """0, both ends of the range, each bit alone, the negative of each, and some random ones."""
    end = 1 << (bits - 1)
    alone = [1 << bit for bit in range(2, bits - 1)]
    chosen = [4 * random.below(end // 2) - end for _ in range(RANDOM_DISPLACEMENTS)]
    return [0, end - 4, -end] + alone + [-one for one in alone] + chosen


def operands(use, random):
    """The operands of the use-th line of one instruction, besides the target."""
    number = random.below(32)
    return {
        "n": number,
        "w": "wzr" if number == 31 else f"w{number}",
        "x": "xzr" if number == 31 else f"x{number}",
        "low": BIT_NUMBERS[use % len(BIT_NUMBERS)],
        "high": BIT_NUMBERS[use % len(BIT_NUMBERS)] + 32,
        "prefetch": PREFETCHES[use % len(PREFETCHES)],
        "first": f"x{number}",
        "second": f"x{random.below(32)}",
    }


def target(name, displacement):
    """The target as the assembler of the set takes it."""
    if name == "riscv":
        return str(displacement)
    return f".{displacement:+d}" if displacement else "."


def text_section(elf):
    """The contents of .text in a little-endian ELF64 object, which must have no relocation."""
    start, = struct.unpack_from("<Q", elf, 0x28)
    size, count, names = struct.unpack_from("<HHH", elf, 0x3A)
    sections = [struct.unpack_from("<IIQQQQ", elf, start + i * size) for i in range(count)]
    assert not any(kind in (4, 9) for _, kind, *_ in sections), "a relocation is left"
    names = sections[names][4]
    (offset, size), = [section[4:] for section in sections
                       if elf.startswith(b".text\0", names + section[0])]
    return elf[offset:offset + size]


def assemble(name, instructions):
    """The four bytes of each instruction, in hexadecimal."""
    source = "\n".join(instructions) + "\n"
    elf = subprocess.run(ASSEMBLER[name], input=source.encode(), stdout=subprocess.PIPE,
                         check=True).stdout
    code = text_section(elf)
    assert len(code) == 4 * len(instructions), "an instruction is not of four bytes"
    return [code[i:i + 4].hex() for i in range(0, len(code), 4)]


def main():
    random = Random(1)
    for name, kind, bits, forms in KINDS:
        wanted = displacements(bits, random)
        unpatched, patched = [], []
        for i, displacement in enumerate(wanted):
            form, others = forms[i % len(forms)], operands(i // len(forms), random)
            unpatched.append(form.format(t=target(name, 0), **others))
            patched.append(form.format(t=target(name, displacement), **others))
        columns = assemble(name, unpatched), wanted, assemble(name, patched), patched
        for before, displacement, after, instruction in zip(*columns):
            print(name, kind, before, displacement, after, instruction)


if __name__ == "__main__":
    main()
