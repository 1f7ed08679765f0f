"""A small assembler for RV32IMA with Zicsr and Zifencei: one instruction a line, operands by their ABI names.

    assemble('loop: addi t0, t0, -1', 'bnez t0, loop', 'lw a0, 8(sp)', 'amoadd.w t1, a0, (sp)')
    assemble('csrrw t0, mscratch, ra', '.word 0xffffffff', 0x13)

A target of a jump or a branch is a label or a distance in bytes. The encodings are those of chapter 24 of the
RISC-V Unprivileged ISA 20191213, and of the Privileged Architecture 1.12.
"""
import re

from .registers import CONTROL, INTEGER

# Mnemonics by their format, each with the bits that don't depend on the operands.
REGISTERS = {
    'add': 0x33, 'sub': 0x40000033, 'sll': 0x1033, 'slt': 0x2033, 'sltu': 0x3033, 'xor': 0x4033, 'srl': 0x5033,
    'sra': 0x40005033, 'or': 0x6033, 'and': 0x7033,
    'mul': 0x02000033, 'mulh': 0x02001033, 'mulhsu': 0x02002033, 'mulhu': 0x02003033,
    'div': 0x02004033, 'divu': 0x02005033, 'rem': 0x02006033, 'remu': 0x02007033,
}
IMMEDIATE = {'addi': 0x13, 'slti': 0x2013, 'sltiu': 0x3013, 'xori': 0x4013, 'ori': 0x6013, 'andi': 0x7013}
SHIFTS = {'slli': 0x1013, 'srli': 0x5013, 'srai': 0x40005013}
LOADS = {'lb': 0x3, 'lh': 0x1003, 'lw': 0x2003, 'lbu': 0x4003, 'lhu': 0x5003, 'jalr': 0x67}
STORES = {'sb': 0x23, 'sh': 0x1023, 'sw': 0x2023}
BRANCHES = {'beq': 0x63, 'bne': 0x1063, 'blt': 0x4063, 'bge': 0x5063, 'bltu': 0x6063, 'bgeu': 0x7063}
UPPER = {'lui': 0x37, 'auipc': 0x17}
CONTROLS = {'csrrw': 0x1073, 'csrrs': 0x2073, 'csrrc': 0x3073, 'csrrwi': 0x5073, 'csrrsi': 0x6073, 'csrrci': 0x7073}
ATOMICS = {
    'sc.w': 0x1800202f, 'amoswap.w': 0x0800202f, 'amoadd.w': 0x202f, 'amoxor.w': 0x2000202f, 'amoand.w': 0x6000202f,
    'amoor.w': 0x4000202f, 'amomin.w': 0x8000202f, 'amomax.w': 0xa000202f, 'amominu.w': 0xc000202f,
    'amomaxu.w': 0xe000202f,
}
PLAIN = {
    'fence': 0xf, 'fence.i': 0x100f, 'ecall': 0x73, 'ebreak': 0x100073, 'sret': 0x10200073, 'mret': 0x30200073,
    'wfi': 0x10500073, 'sfence.vma': 0x12000073, 'nop': 0x13,
}

# Short forms, each with what it stands for.
SHORT = {
    'j': 'jal zero, {0}', 'jr': 'jalr zero, 0({0})', 'ret': 'jalr zero, 0(ra)', 'mv': 'addi {0}, {1}, 0',
    'li': 'addi {0}, zero, {1}', 'beqz': 'beq {0}, zero, {1}', 'bnez': 'bne {0}, zero, {1}',
    'csrr': 'csrrs {0}, {1}, zero', 'csrw': 'csrrw zero, {0}, {1}',
    'rdtime': 'csrrs {0}, time, zero', 'rdtimeh': 'csrrs {0}, timeh, zero', 'rdcycle': 'csrrs {0}, cycle, zero',
}


def signed(value, bits, line):
    """The lowest bits of a number that fits them with its sign."""
    if not -(1 << bits - 1) <= value < 1 << bits - 1:
        raise ValueError(f'{value} is no number of {bits} bits: {line}')
    return value % (1 << bits)


def control(name):
    """The number of a control register, which is given by its name or as a number."""
    return CONTROL[name] if name in CONTROL else int(name, 0)


def address(text):
    """Offset and register of an operand such as 8(sp)."""
    offset, register = re.fullmatch(r'(.*)\((\w+)\)', text).groups()
    return int(offset or '0', 0), INTEGER[register]


def branch_bits(distance, line):
    bits = signed(distance, 13, line)
    return (bits >> 12) << 31 | (bits >> 5 & 0x3f) << 25 | (bits >> 1 & 0xf) << 8 | (bits >> 11 & 1) << 7


def jump_bits(distance, line):
    bits = signed(distance, 21, line)
    return (bits >> 20) << 31 | (bits >> 1 & 0x3ff) << 21 | (bits >> 11 & 1) << 20 | (bits >> 12 & 0xff) << 12


def encode(line, at=0, labels=None):
    """The word of one instruction, which stands at this distance from where the labels are counted."""
    name, _, rest = line.strip().partition(' ')
    operands = [part.strip() for part in rest.split(',')] if rest.strip() else []
    if name in SHORT:
        return encode(SHORT[name].format(*operands), at, labels)
    number = lambda n: INTEGER[operands[n]]
    target = lambda n: labels[operands[n]] - at if operands[n] in (labels or {}) else int(operands[n], 0)
    if name in PLAIN and not operands:
        return PLAIN[name]
    if name in REGISTERS:
        return REGISTERS[name] | number(0) << 7 | number(1) << 15 | number(2) << 20
    if name in IMMEDIATE:
        return IMMEDIATE[name] | number(0) << 7 | number(1) << 15 | signed(int(operands[2], 0), 12, line) << 20
    if name in SHIFTS:
        return SHIFTS[name] | number(0) << 7 | number(1) << 15 | int(operands[2], 0) % 32 << 20
    if name in LOADS:
        offset, base = address(operands[1])
        return LOADS[name] | number(0) << 7 | base << 15 | signed(offset, 12, line) << 20
    if name in STORES:
        offset, base = address(operands[1])
        bits = signed(offset, 12, line)
        return STORES[name] | number(0) << 20 | base << 15 | (bits >> 5) << 25 | bits % 32 << 7
    if name in BRANCHES:
        return BRANCHES[name] | number(0) << 15 | number(1) << 20 | branch_bits(target(2), line)
    if name in UPPER:
        return UPPER[name] | number(0) << 7 | int(operands[1], 0) % (1 << 20) << 12
    if name == 'jal':
        return 0x6f | number(0) << 7 | jump_bits(target(1), line)
    if name in CONTROLS:
        operand = int(operands[2], 0) if name.endswith('i') else number(2)
        return CONTROLS[name] | number(0) << 7 | operand << 15 | control(operands[1]) << 20
    if name == 'lr.w':
        return 0x1000202f | number(0) << 7 | address(operands[1])[1] << 15
    if name in ATOMICS:
        return ATOMICS[name] | number(0) << 7 | number(1) << 20 | address(operands[2])[1] << 15
    if name == '.word':
        return int(operands[0], 0)
    raise ValueError(f'no instruction: {line}')


def assemble(*lines):
    """The words of some lines. A line is an instruction with or without labels before it, or a word as a number."""
    placed, labels = [], {}
    for line in lines:
        if isinstance(line, str):
            while found := re.match(r'\s*(\w+):', line):
                labels[found[1]] = 4 * len(placed)
                line = line[found.end():]
            if not line.strip():
                continue
        placed.append(line)
    return [
        line if isinstance(line, int) else encode(line, 4 * index, labels)
        for index, line in enumerate(placed)
    ]
