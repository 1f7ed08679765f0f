"""Steps that end in an exception."""
from case import cut
from recordings import (
    MACHINE, MPP_MACHINE, MPP_SUPERVISOR, RAM, SIE, SPIE, SUPERVISOR, USER, Recording, State, page, reset,
)

# Behind an addition, something that can't be carried out: its cause and value.
EXCEPTIONS = [
    ('the word 0', '.word 0', 2, 0),
    ('a word of ones', '.word 0xffffffff', 2, 0xffffffff),
    ('ecall in machine mode', 'ecall', 11, 0),
    ('ebreak', 'ebreak', 3, RAM + 4),
    ('a jump by 2', 'jal zero, 2', 0, RAM + 6),
    ('a misaligned load', 'lw sp, 1(zero)', 4, 1),
    ('a load outside RAM', 'lw sp, 0(zero)', 5, 0),
    ('a misaligned store', 'sh zero, 1(zero)', 6, 1),
    ('a store outside RAM', 'sh zero, 0(zero)', 7, 0),
]


def exception(name, line, cause, value):
    """The trap goes to the third word, which jumps to itself."""
    start = reset(mtvec=RAM + 8)
    behind = start.after(2, retired=1, pc=RAM + 8, ra=5, mstatus=MPP_MACHINE, mepc=RAM + 4, mcause=cause, mtval=value)
    code = {0: page('addi ra, zero, 5', line, 'j 0')}
    whole = Recording(start, code, end=3)
    return [
        *cut(f'the state behind {name}', 'window 2 3', whole, whole.but(start=behind, base=2)),
        *cut(f'{name}, whole', 'window 0 3', whole, whole),
    ]


CALL = {0: page('ecall', 0, 'j 0')}


def call_from(name, mode, cause, status):
    start = State(pc=RAM, mode=mode, mtvec=RAM + 8)
    behind = start.after(1, retired=0, pc=RAM + 8, mode=MACHINE, mstatus=status, mepc=RAM, mcause=cause)
    return cut(f'ecall from {name} mode to machine mode', 'window 1 2', Recording(start, CALL, end=2),
               Recording(behind, CALL, base=1, end=2))


DELEGATED = Recording(State(pc=RAM, mode=USER, mstatus=SIE, medeleg=1 << 8, stvec=RAM + 8), CALL, end=2)
# A trap to a place outside RAM: what is fetched there traps too, and no page is read.
NOWHERE = Recording(reset(), {0: page('ecall')}, end=3)
LOST = NOWHERE.start.after(1, retired=0, pc=0, mstatus=MPP_MACHINE, mepc=RAM, mcause=11)

CASES = [row for it in EXCEPTIONS for row in exception(*it)] + [
    *call_from('user', USER, 8, 0),
    *call_from('supervisor', SUPERVISOR, 9, MPP_SUPERVISOR),
    *call_from('machine', MACHINE, 11, MPP_MACHINE),
    *cut('ecall from user mode that is handed to supervisor mode', 'window 1 2', DELEGATED, DELEGATED.but(
        base=1,
        start=DELEGATED.start.after(1, retired=0, pc=RAM + 8, mode=SUPERVISOR, mstatus=SPIE, sepc=RAM, scause=8))),
    *cut('a trap to nowhere', 'window 1 2', NOWHERE, Recording(LOST, base=1, end=2)),
    *cut('a trap at nowhere', 'window 2 3', NOWHERE, Recording(
        LOST.after(1, retired=0, mepc=0, mcause=1), base=2, end=3)),
]
