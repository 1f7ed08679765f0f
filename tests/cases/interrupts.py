"""Steps that take an interrupt, from states whose lines are up. Such a step fetches nothing, so it reads no page."""
from case import cut
from recordings import (
    MACHINE, MACHINE_EXTERNAL, MACHINE_TIMER, MIE, MPIE, MPP_MACHINE, RAM, SIE, SPIE, SPP, SUPERVISOR,
    SUPERVISOR_EXTERNAL, USER, Recording, State, page, reset,
)


def taken(name, start, offset, behind):
    """The first of two steps takes an interrupt to an offset in RAM, where a jump to itself stands."""
    code = {0: page('j 0', at=offset)}
    whole = Recording(start, code, base=7, end=9)
    return [
        *cut(f'{name}: the step that takes it', 'window 7 8', whole, Recording(start, base=7, end=8)),
        *cut(f'{name}: the state behind it', 'window 8 9', whole, Recording(behind, code, base=8, end=9)),
        *cut(f'{name}, whole', 'window 7 9', whole, whole),
    ]


def timer(name, mode, status, entered):
    start = State(pc=RAM, mode=mode, mstatus=status, mie=MACHINE_TIMER, mtvec=RAM + 1, lines=MACHINE_TIMER)
    behind = start.after(1, retired=0, pc=RAM + 4 * 7, mode=MACHINE, mstatus=entered, mepc=RAM, mcause=0x80000007)
    return taken(f"the machine timer's interrupt in {name}", start, 4 * 7, behind)


EXTERNAL = State(pc=RAM, mode=SUPERVISOR, mstatus=SIE, mideleg=SUPERVISOR_EXTERNAL, mie=SUPERVISOR_EXTERNAL,
                 stvec=RAM + 0x40, lines=SUPERVISOR_EXTERNAL)

# A state in supervisor mode none of whose words is 0. All interrupts wait.
FULL = State(
    pc=RAM + 0x10, mode=SUPERVISOR, **{f'x{number}': 0x01010101 * number for number in range(1, 32)},
    mstatus=0x7e19aa, medeleg=0xb3ff, mideleg=0x222, mie=0xaaa, mip=0x222, mtvec=RAM + 0x101, mcounteren=7,
    mscratch=0x1234abcd, mepc=RAM + 4, mcause=3, mtval=0x55, stvec=RAM + 0x201, scounteren=7, sscratch=0x0badcafe,
    sepc=RAM + 8, scause=8, stval=0x66, satp=0x7fffffff, mcycle=0x7ffffffff, minstret=0x9fffffffe, reserved=RAM + 0xffc,
    lines=0xa88,
)
# The machine's external interrupt comes first. It drops the reservation, and of the counters only mcycle grows.
ENTERED = FULL.but(pc=RAM + 0x100 + 4 * 11, mode=MACHINE, mstatus=0x7e09a2, mepc=RAM + 0x10, mcause=0x8000000b, mtval=0,
                   mcycle=0x800000000, reserved=None)


def waits(name, status, delegated, lines):
    """In machine mode, an interrupt that isn't taken."""
    start = reset(mstatus=status, mideleg=delegated, mie=MACHINE_TIMER | SUPERVISOR_EXTERNAL, lines=lines)
    whole = Recording(start, {0: page('addi ra, zero, 5', 'j 0')}, end=2)
    return cut(f'no interrupt is taken in machine mode {name}', 'window 1 2', whole,
               whole.but(start=start.after(1, pc=RAM + 4, ra=5), base=1))


CASES = [
    *timer('machine mode', MACHINE, MIE, MPP_MACHINE | MPIE),
    *timer('user mode with MIE clear', USER, 0, 0),
    *timer('user mode with MIE set', USER, MIE, MPIE),
    *taken("the supervisor's external interrupt, which is delegated", EXTERNAL, 0x40,
           EXTERNAL.after(1, retired=0, pc=RAM + 0x40, mstatus=SPP | SPIE, sepc=RAM, scause=0x80000009)),
    *taken('an interrupt to a state without a 0', FULL, 0x12c, ENTERED),
    *waits('where MIE is clear', 0, 0, MACHINE_TIMER),
    *waits("where it is the supervisor's", MIE, SUPERVISOR_EXTERNAL, SUPERVISOR_EXTERNAL),
    *waits('where it is not enabled', MIE, 0, MACHINE_EXTERNAL),
]
