#!/usr/bin/env python3
"""Prints the words of instructions as the GNU assembler gives them, for rv_encode's table test.

Each line of EXAMPLES is an instruction in the assembler's syntax and the value of `Instr` that it is. The
assembler (Debian: binutils-riscv64-linux-gnu) translates the instructions one after the other, without
compressed forms and without relaxation; this program reads the words back from the object file and prints
a row of the table for each. Branches and jumps are written with their distance from themselves.
"""

import subprocess
import tempfile
from pathlib import Path

EXAMPLES = [
    ("lui x10, 0x80000", "Instr::Lui { rd: 10, imm: -524288 }"),
    ("auipc x18, 0x12345", "Instr::Auipc { rd: 18, imm: 74565 }"),
    ("jal x1, .-699052", "Instr::Jal { rd: 1, imm: -699052 }"),
    ("jalr x1, 16(x2)", "Instr::Jalr { rd: 1, rs1: 2, imm: 16 }"),
    ("beq x19, x20, .+2048", "Instr::Beq { rs1: 19, rs2: 20, imm: 2048 }"),
    ("bne x9, x15, .-2048", "Instr::Bne { rs1: 9, rs2: 15, imm: -2048 }"),
    ("blt x11, x12, .-4096", "Instr::Blt { rs1: 11, rs2: 12, imm: -4096 }"),
    ("bge x6, x7, .+4094", "Instr::Bge { rs1: 6, rs2: 7, imm: 4094 }"),
    ("bltu x30, x29, .-2", "Instr::Bltu { rs1: 30, rs2: 29, imm: -2 }"),
    ("bgeu x2, x3, .+8", "Instr::Bgeu { rs1: 2, rs2: 3, imm: 8 }"),
    ("lb x18, 5(x19)", "Instr::Lb { rd: 18, rs1: 19, imm: 5 }"),
    ("lh x8, -3(x9)", "Instr::Lh { rd: 8, rs1: 9, imm: -3 }"),
    ("lw x10, -2048(x11)", "Instr::Lw { rd: 10, rs1: 11, imm: -2048 }"),
    ("ld x5, 2047(x6)", "Instr::Ld { rd: 5, rs1: 6, imm: 2047 }"),
    ("lbu x31, -1(x30)", "Instr::Lbu { rd: 31, rs1: 30, imm: -1 }"),
    ("lhu x1, 16(x2)", "Instr::Lhu { rd: 1, rs1: 2, imm: 16 }"),
    ("lwu x18, 5(x19)", "Instr::Lwu { rd: 18, rs1: 19, imm: 5 }"),
    ("sb x15, -3(x9)", "Instr::Sb { rs1: 9, rs2: 15, imm: -3 }"),
    ("sh x12, -2048(x11)", "Instr::Sh { rs1: 11, rs2: 12, imm: -2048 }"),
    ("sw x7, 2047(x6)", "Instr::Sw { rs1: 6, rs2: 7, imm: 2047 }"),
    ("sd x29, -1(x30)", "Instr::Sd { rs1: 30, rs2: 29, imm: -1 }"),
    ("addi x1, x2, 16", "Instr::Addi { rd: 1, rs1: 2, imm: 16 }"),
    ("slti x18, x19, 5", "Instr::Slti { rd: 18, rs1: 19, imm: 5 }"),
    ("sltiu x8, x9, -3", "Instr::Sltiu { rd: 8, rs1: 9, imm: -3 }"),
    ("xori x10, x11, -2048", "Instr::Xori { rd: 10, rs1: 11, imm: -2048 }"),
    ("ori x5, x6, 2047", "Instr::Ori { rd: 5, rs1: 6, imm: 2047 }"),
    ("andi x31, x30, -1", "Instr::Andi { rd: 31, rs1: 30, imm: -1 }"),
    ("slli x1, x2, 63", "Instr::Slli { rd: 1, rs1: 2, imm: 63 }"),
    ("srli x18, x19, 1", "Instr::Srli { rd: 18, rs1: 19, imm: 1 }"),
    ("srai x8, x9, 32", "Instr::Srai { rd: 8, rs1: 9, imm: 32 }"),
    ("add x10, x11, x12", "Instr::Add { rd: 10, rs1: 11, rs2: 12 }"),
    ("sub x5, x6, x7", "Instr::Sub { rd: 5, rs1: 6, rs2: 7 }"),
    ("sll x31, x30, x29", "Instr::Sll { rd: 31, rs1: 30, rs2: 29 }"),
    ("slt x1, x2, x3", "Instr::Slt { rd: 1, rs1: 2, rs2: 3 }"),
    ("sltu x18, x19, x20", "Instr::Sltu { rd: 18, rs1: 19, rs2: 20 }"),
    ("xor x8, x9, x15", "Instr::Xor { rd: 8, rs1: 9, rs2: 15 }"),
    ("srl x10, x11, x12", "Instr::Srl { rd: 10, rs1: 11, rs2: 12 }"),
    ("sra x5, x6, x7", "Instr::Sra { rd: 5, rs1: 6, rs2: 7 }"),
    ("or x31, x30, x29", "Instr::Or { rd: 31, rs1: 30, rs2: 29 }"),
    ("and x1, x2, x3", "Instr::And { rd: 1, rs1: 2, rs2: 3 }"),
    ("mul x18, x19, x20", "Instr::Mul { rd: 18, rs1: 19, rs2: 20 }"),
    ("mulh x8, x9, x15", "Instr::Mulh { rd: 8, rs1: 9, rs2: 15 }"),
    ("mulhsu x10, x11, x12", "Instr::Mulhsu { rd: 10, rs1: 11, rs2: 12 }"),
    ("mulhu x5, x6, x7", "Instr::Mulhu { rd: 5, rs1: 6, rs2: 7 }"),
    ("div x31, x30, x29", "Instr::Div { rd: 31, rs1: 30, rs2: 29 }"),
    ("divu x1, x2, x3", "Instr::Divu { rd: 1, rs1: 2, rs2: 3 }"),
    ("rem x18, x19, x20", "Instr::Rem { rd: 18, rs1: 19, rs2: 20 }"),
    ("remu x8, x9, x15", "Instr::Remu { rd: 8, rs1: 9, rs2: 15 }"),
    ("addiw x10, x11, -2048", "Instr::Addiw { rd: 10, rs1: 11, imm: -2048 }"),
    ("slliw x5, x6, 1", "Instr::Slliw { rd: 5, rs1: 6, imm: 1 }"),
    ("srliw x31, x30, 16", "Instr::Srliw { rd: 31, rs1: 30, imm: 16 }"),
    ("sraiw x1, x2, 31", "Instr::Sraiw { rd: 1, rs1: 2, imm: 31 }"),
    ("addw x18, x19, x20", "Instr::Addw { rd: 18, rs1: 19, rs2: 20 }"),
    ("subw x8, x9, x15", "Instr::Subw { rd: 8, rs1: 9, rs2: 15 }"),
    ("sllw x10, x11, x12", "Instr::Sllw { rd: 10, rs1: 11, rs2: 12 }"),
    ("srlw x5, x6, x7", "Instr::Srlw { rd: 5, rs1: 6, rs2: 7 }"),
    ("sraw x31, x30, x29", "Instr::Sraw { rd: 31, rs1: 30, rs2: 29 }"),
    ("mulw x1, x2, x3", "Instr::Mulw { rd: 1, rs1: 2, rs2: 3 }"),
    ("divw x18, x19, x20", "Instr::Divw { rd: 18, rs1: 19, rs2: 20 }"),
    ("divuw x8, x9, x15", "Instr::Divuw { rd: 8, rs1: 9, rs2: 15 }"),
    ("remw x10, x11, x12", "Instr::Remw { rd: 10, rs1: 11, rs2: 12 }"),
    ("remuw x5, x6, x7", "Instr::Remuw { rd: 5, rs1: 6, rs2: 7 }"),
    (".insn i 0x0f, 0, x3, x4, -1", "Instr::Fence { rd: 3, rs1: 4, imm: -1 }"),
    ("ecall", "Instr::Ecall"),
    ("ebreak", "Instr::Ebreak"),
]


def words_of(lines):
    """The words that the assembler makes of some lines, one for each."""
    with tempfile.TemporaryDirectory() as folder:
        source, code, text = (Path(folder) / name for name in ("words.s", "words.o", "words.bin"))
        head = [".option norvc", ".option norelax", ".text"]
        source.write_text("\n".join(head + lines) + "\n")
        subprocess.run(["riscv64-linux-gnu-as", "-march=rv64im", "-o", code, source], check=True)
        subprocess.run(["riscv64-linux-gnu-objcopy", "-O", "binary", "-j", ".text", code, text], check=True)
        held = text.read_bytes()
    return [int.from_bytes(held[at : at + 4], "little") for at in range(0, len(held), 4)]


def main():
    words = words_of([line for line, _ in EXAMPLES])
    assert len(words) == len(EXAMPLES)
    for word, (line, value) in zip(words, EXAMPLES):
        print(f"        ({value}, 0x{word >> 16:04x}_{word & 0xffff:04x}), // {line}")


if __name__ == "__main__":
    main()
