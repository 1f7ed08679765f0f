"""Counters: mcycle counts each step and minstret each that retires, but where they are written (Privileged 1.12,
3.1.10)."""
from played import code, machine_state, played, retired, trapped
from recordings import RAM, USER

# An instruction with x1 = 7, and the halves of mcycle and minstret behind it, both 8 before.
WRITES = [
    ('csrrw x0, mcycle, x1', 7, 0, 9, 0),
    ('csrrw x0, mcycleh, x1', 8, 7, 9, 0),
    ('csrrw x0, minstret, x1', 9, 0, 7, 0),
    ('csrrw x0, minstreth, x1', 9, 0, 8, 7),
    ('csrrs x0, mcycle, x1', 15, 0, 9, 0),
    ('csrrci x0, minstret, 8', 9, 0, 0, 0),
    ('csrrs x0, mcycle, x0', 9, 0, 9, 0),
    ('csrrw x0, 0xb03, x1', 9, 0, 9, 0),
    ('addi x0, x0, 0', 9, 0, 9, 0),
]


def counter_written(line, cycle, cycle_high, done, done_high):
    changes = {'mcycle': cycle | cycle_high << 32, 'minstret': done | done_high << 32}
    return played(f'{line} with both counters at 8', machine_state(x1=7, mcycle=8, minstret=8), code(line),
                  [retired(changes)])


# A counter, and what a read of it gives.
READS = [
    ('mcycle', 0xffffffff), ('mcycleh', 2), ('minstret', 0xfffffffe), ('minstreth', 4),
    ('cycle', 0xffffffff), ('cycleh', 2), ('instret', 0xfffffffe), ('instreth', 4),
]
FULL = {'mcycle': 0x2ffffffff, 'minstret': 0x4fffffffe}


def counter_read(name, value):
    changes = {'x5': value, 'mcycle': 0x300000000, 'minstret': 0x4ffffffff}
    return played(f'a read of {name}', machine_state(**FULL), code(f'csrrs x5, {name}, x0'), [retired(changes)])


LAST = (1 << 64) - 1
TRAPPED = {'mstatus': 0, 'mepc': RAM, 'mtval': 0xb0009073, 'mcycle': 9, 'minstret': 8}

CASES = [row for it in WRITES for row in counter_written(*it)] + [row for it in READS for row in counter_read(*it)] + [
    *played('counters begin again at 0', machine_state(mcycle=LAST, minstret=LAST), code('nop'),
            [retired({'mcycle': 0, 'minstret': 0})]),
    *played('a trap is no instruction that retires', machine_state(mode=USER, x1=7, mcycle=8, minstret=8),
            code('csrrw x0, mcycle, x1'), [trapped(2, TRAPPED)]),
]
