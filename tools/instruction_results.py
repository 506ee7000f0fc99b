#!/usr/bin/env python3
"""Prints what each instruction computes of operands at the edges, for rv_emulator's table test.

For each instruction the GNU assembler (Debian: binutils-riscv64-linux-gnu) makes a static program of HARNESS
with that instruction at SLOT, and qemu-riscv64 (Debian: qemu-user) runs it. The program does the
instruction for each pair of the operands, folds what it leaves in a register and in memory into one number
of 64 bits, and writes that number to channel 1. This script prints HARNESS's bytes, and a row with the
instruction's word and the number for each instruction. The test puts each word into the same bytes and
wants the same number of the emulator.
"""

import subprocess
import tempfile
from pathlib import Path

TEXT, DATA = 0x10000, 0x20000
OPERANDS = [0, 1, 2**64 - 1, 2**63, 2**63 - 1, 2**31, 2**31 - 1, 2**64 - 2**31]

# x10 and x11 are the operands, x12 the result, x13 where x10 stands, x14 a place for stores, x15 SLOT - 4.
HARNESS = """
    lui x5, 0x20
    addi x6, x5, 64
    addi x14, x5, 72
    addi x16, x0, 0
    addi x13, x5, 0
outer:
    ld x10, 0(x13)
    addi x8, x5, 0
inner:
    ld x11, 0(x8)
    addi x12, x0, 0
    sd x0, 0(x14)
    sd x0, 8(x14)
    auipc x15, 0
slot:
    SLOT
    addi x12, x12, 7
    slli x7, x16, 5
    sub x16, x7, x16
    add x16, x16, x12
    ld x7, 0(x14)
    add x16, x16, x7
    ld x7, 8(x14)
    xor x16, x16, x7
    addi x8, x8, 8
    bne x8, x6, inner
    addi x13, x13, 8
    bne x13, x6, outer
    sd x16, 0(x14)
    addi x18, x0, 0
put:
    addi x10, x0, 1
    add x11, x14, x18
    addi x12, x0, 1
    addi x17, x0, 64
    ecall
    addi x18, x18, 1
    addi x7, x0, 8
    bne x18, x7, put
    addi x10, x0, 0
    addi x17, x0, 93
    ecall
"""

PAIRS = "add sub sll slt sltu xor srl sra or and mul mulh mulhsu mulhu div divu rem remu addw subw sllw srlw sraw mulw divw divuw remw remuw"
IMMEDIATES = "addi slti sltiu xori ori andi addiw"
LOADS = "lb lh lw ld lbu lhu lwu"
STORES = "sb sh sw sd"
BRANCHES = "beq bne blt bge bltu bgeu"


def instructions():
    """The instructions with their operands, in the assembler's syntax."""
    yield from ["lui x12, 0x80000", "lui x12, 0x7ffff", "jal x12, .+8", "jalr x12, 12(x15)", "jalr x12, 13(x15)"]
    yield from ["sub x12, x15, x5", "auipc x12, 0", "auipc x12, 0xfffff"]
    yield from [f"{name} x10, x11, .+8" for name in BRANCHES.split()]
    yield from [f"{name} x12, {imm}(x13)" for name in LOADS.split() for imm in (0, 3, 7)]
    yield from [f"{name} x11, {imm}(x14)" for name in STORES.split() for imm in (0, 5)]
    yield from [f"{name} x12, x10, {imm}" for name in IMMEDIATES.split() for imm in (0, 1, -1, 2047, -2048)]
    yield from [f"{name} x12, x10, {imm}" for name in ("slli", "srli", "srai") for imm in (0, 1, 31, 32, 63)]
    yield from [f"{name} x12, x10, {imm}" for name in ("slliw", "srliw", "sraiw") for imm in (0, 1, 16, 31)]
    yield from [f"{name} x12, x10, x11" for name in PAIRS.split()]
    yield from ["add x0, x10, x11", "fence"]


def linked(folder, line):
    """The program with an instruction at SLOT: its file, and the bytes of its text."""
    source, code, program, text = (Path(folder) / name for name in ("a.s", "a.o", "a.elf", "a.bin"))
    data = "\n".join(f"    .quad {value}" for value in OPERANDS + [0, 0, 0])
    head = [".option norvc", ".option norelax", ".globl _start", ".text", "_start:"]
    source.write_text("\n".join(head + [HARNESS.replace("SLOT", line), ".data", data]) + "\n")
    subprocess.run(["riscv64-linux-gnu-as", "-march=rv64im", "-o", code, source], check=True)
    places = [f"-Ttext={TEXT:#x}", f"-Tdata={DATA:#x}"]
    subprocess.run(["riscv64-linux-gnu-ld", "-static", "-o", program, *places, code], check=True)
    subprocess.run(["riscv64-linux-gnu-objcopy", "-O", "binary", "-j", ".text", code, text], check=True)
    return program, text.read_bytes()


def main():
    with tempfile.TemporaryDirectory() as folder:
        plain = linked(folder, "nop")[1]
        slot = next(at for at in range(0, len(plain), 4) if plain[at : at + 4] == bytes([0x13, 0, 0, 0]))
        print(f"const SLOT: usize = {slot};")
        print(f"const HARNESS: [u8; {len(plain)}] = [")
        for at in range(0, len(plain), 16):
            print("    " + " ".join(f"0x{byte:02x}," for byte in plain[at : at + 16]))
        print("];")
        lines = list(instructions())
        print(f"const RESULTS: [(u32, u64); {len(lines)}] = [")
        for line in lines:
            program, text = linked(folder, line)
            word = int.from_bytes(text[slot : slot + 4], "little")
            assert text[:slot] + text[slot + 4 :] == plain[:slot] + plain[slot + 4 :], line
            done = subprocess.run(["qemu-riscv64", program], check=True, capture_output=True)
            number = int.from_bytes(done.stdout, "little")
            assert len(done.stdout) == 8
            print(f"    (0x{word:08x}, 0x{number:016x}), // {line}")
        print("];")


if __name__ == "__main__":
    main()
