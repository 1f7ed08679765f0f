"""Interrupts: which are taken in each mode, before the instruction, and where they go (Privileged 1.12, 3.1.6.1, 3.1.7,
3.1.8 and 3.1.9)."""
from played import Turn, code, machine_state, played, retired
from recordings import MACHINE, RAM, SUPERVISOR, USER

# A mode, mstatus, mideleg, mie, and the lines that come: none is taken.
PASSED = [
    # machine mode without MIE, with another interrupt enabled, and with none pending
    (MACHINE, 0x0, 0, 0xaaa, 0xa88),
    (MACHINE, 0x8, 0, 0x800, 0x080),
    (MACHINE, 0x8, 0, 0xaaa, None),
    # what is delegated isn't taken in machine mode, nor in supervisor mode without SIE
    (MACHINE, 0xa, 0x200, 0x200, 0x200),
    (SUPERVISOR, 0x8, 0x200, 0x200, 0x200),
    # the other modes with other interrupts enabled
    (SUPERVISOR, 0x2, 0x200, 0x800, 0x280),
    (SUPERVISOR, 0x2, 0x000, 0x200, 0x088),
    (USER, 0xa, 0, 0, 0xa88),
    (USER, 0xa, 0x222, 0xa88, None),
]

# A mode, mstatus, mideleg, mie, mtvec, and the lines that come; then the interrupt's number, and pc and mstatus behind.
TO_MACHINE = [
    (MACHINE, 0x8, 0, 0x080, RAM + 0x4000, 0x080, 7, RAM + 0x4000, 0x1880),
    (MACHINE, 0x8, 0, 0x008, RAM + 0x4000, 0x088, 3, RAM + 0x4000, 0x1880),
    (MACHINE, 0x8, 0, 0x200, RAM + 0x4000, 0x200, 9, RAM + 0x4000, 0x1880),
    # one of several: 11, 3, 7, 9
    (MACHINE, 0x8, 0, 0xaaa, RAM + 0x4000, 0xa88, 11, RAM + 0x4000, 0x1880),
    (MACHINE, 0x8, 0, 0xaaa, RAM + 0x4000, 0x288, 3, RAM + 0x4000, 0x1880),
    (MACHINE, 0x8, 0, 0xaaa, RAM + 0x4000, 0x280, 7, RAM + 0x4000, 0x1880),
    # each to an entry of its own
    (MACHINE, 0x8, 0, 0x080, RAM + 0x4001, 0x080, 7, RAM + 0x401c, 0x1880),
    (SUPERVISOR, 0x8, 0, 0x800, RAM + 0x4001, 0x800, 11, RAM + 0x402c, 0x0880),
    # the modes below are interrupted without MIE
    (SUPERVISOR, 0x0, 0, 0x080, RAM + 0x4000, 0x080, 7, RAM + 0x4000, 0x0800),
    (USER, 0x0, 0, 0x080, RAM + 0x4000, 0x080, 7, RAM + 0x4000, 0x0000),
    (USER, 0x2, 0x200, 0x280, RAM + 0x4000, 0x280, 7, RAM + 0x4000, 0x0002),
]

# A mode, mstatus, stvec, and the lines that come, where 9 is delegated and enabled; then pc and mstatus behind it.
TO_SUPERVISOR = [
    (SUPERVISOR, 0x2, RAM + 0x3000, 0x200, RAM + 0x3000, 0x120),
    (SUPERVISOR, 0x2, RAM + 0x3001, 0x280, RAM + 0x3024, 0x120),
    (USER, 0x0, RAM + 0x3000, 0x200, RAM + 0x3000, 0x000),
    (USER, 0x2, RAM + 0x3001, 0x200, RAM + 0x3024, 0x020),
    (USER, 0x108, RAM + 0x3000, 0xa00, RAM + 0x3000, 0x008),
]


def hexed(*numbers):
    return ' '.join('-' if number is None else f'{number:x}' for number in numbers)


def passed(mode, mstatus, mideleg, mie, lines):
    state = machine_state(mode=mode, mstatus=mstatus, mideleg=mideleg, mie=mie)
    return played(f'no interrupt with {hexed(mode, mstatus, mideleg, mie, lines)}', state, code('nop'),
                  [retired(lines=lines)])


def to_machine(mode, mstatus, mideleg, mie, mtvec, lines, number, pc, after):
    state = machine_state(mode=mode, mstatus=mstatus, mideleg=mideleg, mie=mie, mtvec=mtvec)
    changes = {'pc': pc, 'mode': MACHINE, 'mstatus': after, 'mepc': RAM, 'mcause': 1 << 31 | number}
    return played(f'interrupt {number} with {hexed(mode, mstatus, mideleg, mie, mtvec, lines)}', state, code('nop'),
                  [Turn(f'interrupt {number}', changes, fetches=False, lines=lines)])


def to_supervisor(mode, mstatus, stvec, lines, pc, after):
    state = machine_state(mode=mode, mstatus=mstatus, mideleg=0x200, mie=0x200, stvec=stvec)
    changes = {'pc': pc, 'mode': SUPERVISOR, 'mstatus': after, 'sepc': RAM, 'scause': 1 << 31 | 9}
    return played(f'interrupt 9 to supervisor mode with {hexed(mode, mstatus, stvec, lines)}', state, code('nop'),
                  [Turn('interrupt 9', changes, fetches=False, lines=lines)])


# Machine mode gets its interrupts enabled while the line is up.
ENABLED = played(
    'lines stay until others come', machine_state(mie=0x800), code('csrrsi x0, mstatus, 8'), [
        retired({'mstatus': 0x8}, lines=0x800),
        Turn('interrupt 11', {'pc': RAM + 0x4000, 'mstatus': 0x1880, 'mepc': RAM + 4, 'mcause': 1 << 31 | 11},
             fetches=False),
    ])

CASES = (
    [row for it in PASSED for row in passed(*it)]
    + [row for it in TO_MACHINE for row in to_machine(*it)]
    + [row for it in TO_SUPERVISOR for row in to_supervisor(*it)]
    + ENABLED
)
