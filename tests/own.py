"""Checks of what the tests stand on: the assembler, the spelling and the readers, the slicer and the model alone."""
import pathlib
import random

import programs
from recordings import MACHINE, RAM, Dma, Lines, Recording, State, Value, assemble, page, reset
from recordings.alone import alone, called_alone
from recordings.answers import Query, answered
from recordings.calls import called, read_calls
from recordings.image import Image
from recordings.observations import shown
from recordings.reading import read, read_image
from recordings.salvaging import recording_of, salvaged
from recordings.slices import read_slice, sliced

EXAMPLE = pathlib.Path(__file__).resolve().parent.parent / 'examples' / 'two_steps.cxr'

# Lines, and the words that GNU as 2.40 gives for them (-march=rv32ima_zicsr_zifencei).
WORDS = [
    ('lui x5, 0x12345', 0x123452b7),
    ('lui x31, 0xfffff', 0xffffffb7),
    ('auipc x1, 0x80000', 0x80000097),
    ('jal x1, 0x7fe', 0x7fe000ef),
    ('jal x0, -0x100000', 0x8000006f),
    ('jal x3, 0xffffe', 0x7ffff1ef),
    ('jalr x1, -1(x2)', 0xfff100e7),
    ('beq x1, x2, 0xffe', 0x7e208fe3),
    ('bne x3, x4, -0x1000', 0x80419063),
    ('blt x5, x6, -2', 0xfe62cfe3),
    ('bge x7, x8, 0x800', 0x0083d0e3),
    ('bltu x9, x10, 0x7e0', 0x7ea4e063),
    ('bgeu x30, x31, 0x1e', 0x01ff7f63),
    ('lb x1, -2048(x2)', 0x80010083),
    ('lh x3, 2047(x4)', 0x7ff21183),
    ('lw x5, -1(x6)', 0xfff32283),
    ('lbu x7, 1(x8)', 0x00144383),
    ('lhu x9, 0x555(x10)', 0x55555483),
    ('sb x1, -2048(x2)', 0x80110023),
    ('sh x3, 2047(x4)', 0x7e321fa3),
    ('sw x5, -1(x6)', 0xfe532fa3),
    ('addi x0, x0, 0', 0x00000013),
    ('addi x10, x10, -273', 0xeef50513),
    ('slti x11, x12, 0x7ff', 0x7ff62593),
    ('sltiu x13, x14, -2048', 0x80073693),
    ('xori x15, x16, -1', 0xfff84793),
    ('ori x17, x18, 0x2aa', 0x2aa96893),
    ('andi x19, x20, 0x155', 0x155a7993),
    ('slli x21, x22, 31', 0x01fb1a93),
    ('srli x23, x24, 1', 0x001c5b93),
    ('srai x25, x26, 17', 0x411d5c93),
    ('add x1, x2, x3', 0x003100b3),
    ('sub x4, x5, x6', 0x40628233),
    ('sll x7, x8, x9', 0x009413b3),
    ('slt x10, x11, x12', 0x00c5a533),
    ('sltu x13, x14, x15', 0x00f736b3),
    ('xor x16, x17, x18', 0x0128c833),
    ('srl x19, x20, x21', 0x015a59b3),
    ('sra x22, x23, x24', 0x418bdb33),
    ('or x25, x26, x27', 0x01bd6cb3),
    ('and x28, x29, x30', 0x01eefe33),
    ('mul x31, x30, x29', 0x03df0fb3),
    ('mulh x28, x27, x26', 0x03ad9e33),
    ('mulhsu x25, x24, x23', 0x037c2cb3),
    ('mulhu x22, x21, x20', 0x034abb33),
    ('div x19, x18, x17', 0x031949b3),
    ('divu x16, x15, x14', 0x02e7d833),
    ('rem x13, x12, x11', 0x02b666b3),
    ('remu x10, x9, x8', 0x0284f533),
    ('fence.i', 0x0000100f),
    ('ecall', 0x00000073),
    ('ebreak', 0x00100073),
    ('sret', 0x10200073),
    ('mret', 0x30200073),
    ('wfi', 0x10500073),
    ('sfence.vma', 0x12000073),
    ('csrrw x1, mstatus, x2', 0x300110f3),
    ('csrrs x3, cycle, x0', 0xc00021f3),
    ('csrrc x4, sip, x5', 0x1442b273),
    ('csrrwi x6, satp, 31', 0x180fd373),
    ('csrrsi x7, 0xfff, 1', 0xfff0e3f3),
    ('csrrci x8, mie, 16', 0x30487473),
    ('lr.w x1, (x2)', 0x100120af),
    ('sc.w x3, x4, (x5)', 0x1842a1af),
    ('amoadd.w x4, x5, (x6)', 0x0053222f),
    ('amoand.w x10, x11, (x12)', 0x60b6252f),
    ('amomin.w x16, x17, (x18)', 0x8119282f),
    ('amomax.w x19, x20, (x21)', 0xa14aa9af),
    ('amominu.w x22, x23, (x24)', 0xc17c2b2f),
]


def checks():
    """Names, each with what is wrong, in lines to read."""
    for line, word in WORDS:
        found = assemble(line)[0]
        yield f'{line} is assembled', [f'{found:08x}, not {word:08x}'] if found != word else []
    labels = assemble('start: addi t0, t0, 1', 'bnez t0, start', 'j over', 'nop', 'over: ret')
    yield 'labels are distances', [] if labels == assemble('addi t0, t0, 1', 'bnez t0, -4', 'j 8', 'nop', 'ret') else [
        'the words differ'
    ]
    two_steps = Recording(State(pc=RAM, mode=MACHINE), {0: page('addi ra, zero, 5', 'j 0')}, end=2)
    yield 'the example is spelled', [] if two_steps.spell() == EXAMPLE.read_bytes() else ['it is spelled otherwise']
    events = (Dma(3, RAM + 4, b'ab'), Lines(3, 0x80), Value(4, 9))
    for version in (1, 2):
        long = Recording(reset(), {0: page(1)}, base=3, end=70000, events=events, version=version).marked()
        bad = read(long.spell())[1]
        yield f'records of version {version} are read again', [f'bad at {bad}'] if bad is not None else []
    for version in (1, 2):
        image = Image({1: page(1)}, 3, bytes(1024), b'ab', version, version == 2)
        reader, bad = read_image(image.spell())
        is_same = bad is None and reader.made_image() == image
        yield f'an image of version {version} is read again', [] if is_same else [f'bad at {bad}, or another image']
    for root, (_, observed) in shown(programs.of_user(random.Random('own'))).items():
        made = sliced(observed)
        reader, bad = read_slice(made.spell())
        is_same = bad is None and (tuple(reader.groups), reader.end) == (made.groups, made.end)
        yield f'the slice of the root {root:x} is read again', [] if is_same else [f'bad at {bad}, or another slice']
        is_same = alone(made.spell()) == (observed, None, None)
        yield f'the program of the root {root:x} goes alone', [] if is_same else ['it shows something else']
        by_calls = called(observed)
        reader, bad = read_calls(by_calls.spell())
        is_same = bad is None and (reader.start, tuple(reader.records), reader.end) == (
            by_calls.start, by_calls.records, by_calls.end)
        yield f'the call slice of the root {root:x} is read again', [] if is_same else [f'bad at {bad}, or another']
        is_same = called_alone(by_calls.spell()) == (observed, None, None)
        yield f'the program of {root:x} goes alone by its calls', [] if is_same else ['it shows something else']
    long = Recording(reset(), {0: page('j 0')}, base=65530, end=65540).marked()
    is_same = recording_of(read(long.spell())[0], long.end).spell() == long.spell()
    yield 'a recording that was read is spelled again', [] if is_same else ['it is spelled otherwise']
    yield 'a good recording is saved whole', [] if salvaged(long.spell()) == (long.spell(), None) else ['it is not']
    cut = long.but(events=(), end=65536).spell()
    yield 'a cut recording is saved up to its mark', [] if salvaged(long.spell()[:-1]) == (cut, None) else ['it is not']
    queries = (Query('reader', 65540, RAM), Query('writer', 65540, RAM), Query('trap', 65530))
    want = b'reader 80000000 65540 step 65539\nwriter 80000000 65540 none\ntrap 65530 none\n'
    yield 'a loop reads its word', [] if answered(long, queries) == want else ['another answer']
