"""Programs of user mode in a space of their own, with their tables and their kernel, and bytes that devices write."""
from played import (
    CODE, CODE_PLACE, DATA, DATA_ENTRY, DATA_PLACE, HANDLER, READABLE, ROOT, SPACE, TO_DATA, bytes_of, code,
    machine_state, played, retired, touch, trapped, user_code, user_state,
)
from recordings import MACHINE, RAM, USER, assemble

LOAD = 'lw x5, 0(x0)'
FIRST = 0x44332211
THIRD_ENTRY, FOURTH_ENTRY = DATA_ENTRY + 8, DATA_ENTRY + 12


def loads(value, **parts):
    return retired({'x5': value}, entries=TO_DATA, read=(touch(DATA_PLACE, bytes_of(value), DATA),), **parts)


MISSING = [
    trapped(13, {'mepc': CODE}, entries=TO_DATA),
    retired({'pc': CODE, 'mode': USER, 'mstatus': 0x80}, dma=((DATA_ENTRY, bytes_of(READABLE)),)),
    loads(FIRST),
]

KERNEL = code('addi x10, x0, 7', 'csrrs x11, mepc, x0', 'addi x11, x11, 4', 'csrrw x0, mepc, x11', 'mret', at=HANDLER)
SKIPPED = [
    retired({'x1': 5}),
    trapped(2, {'mepc': CODE + 4}),
    retired({'x10': 7}),
    retired({'x11': CODE + 4}),
    retired({'x11': CODE + 8}),
    retired({'mepc': CODE + 8}),
    retired({'pc': CODE + 8, 'mode': USER, 'mstatus': 0x80}),
    trapped(8, {'mstatus': 0}),
    retired({'x10': 7}),
    retired({'x11': CODE + 8}),
    retired({'x11': CODE + 12}),
    retired({'mepc': CODE + 12}),
    retired({'pc': CODE + 12, 'mode': USER, 'mstatus': 0x80}),
]

TWICE = [
    retired(entries=(ROOT, THIRD_ENTRY), write=(touch(DATA_PLACE, b'\xaa', 0x2000),)),
    retired({'x4': 0xaa}, entries=(ROOT, FOURTH_ENTRY), read=(touch(DATA_PLACE, b'\xaa', 0x3000),)),
]

# A loop of two instructions, whose first a device writes over between two fetches.
COUNT, BACK = 'addi x5, x5, 1', 'jal x0, -4'
OTHER = bytes_of(assemble('addi x5, x5, 2')[0])
OVERWRITTEN = [
    retired({'x5': 1}),
    retired({'pc': RAM}),
    retired({'x5': 3}, dma=((RAM, OTHER),)),
    retired({'pc': RAM}),
    retired({'x5': 5}),
    retired({'pc': HANDLER, 'mode': MACHINE}, dma=((RAM + 4, bytes_of(assemble('j 0x3ffc')[0])),)),
]

CASES = [
    *played('a missing entry comes from a device', user_state(),
            SPACE | {DATA_ENTRY: 0} | user_code(LOAD) | code('mret', at=HANDLER), MISSING),
    *played('the kernel skips a bad word', user_state(),
            SPACE | user_code('addi x1, x0, 5', '.word 0', 'ecall') | KERNEL, SKIPPED),
    *played('two addresses of one place', user_state(x1=0xaa, x2=0x2000, x3=0x3000),
            SPACE | {THIRD_ENTRY: READABLE, FOURTH_ENTRY: READABLE} | user_code('sb x1, 0(x2)', 'lbu x4, 0(x3)'),
            TWICE),
    *played('bytes of a device come before the load', user_state(), SPACE | user_code(LOAD, LOAD),
            [loads(FIRST), loads(0x44339911, dma=((DATA_PLACE + 1, b'\x99'),))]),
    *played('bytes of a device come before the fetch', user_state(), SPACE,
            [retired({'x1': 5}, dma=((CODE_PLACE, bytes_of(0x00500093)),))]),
    *played('a word is written over between two fetches', machine_state(), code(COUNT, BACK), OVERWRITTEN),
]
