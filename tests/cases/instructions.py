"""States behind instructions that retire."""
from case import cut
from recordings import MIE, MPIE, MPRV, RAM, USER, Recording, page, reset

# Quotients and remainders, of -2^31 by -1 and of 2^31 by 0.
DIVISIONS = Recording(reset(), {0: page(
    'lui ra, 0x80000', 'addi sp, zero, -1', 'div gp, ra, sp', 'rem tp, ra, sp', 'divu t0, ra, zero',
    'remu t1, ra, zero', 'j 0',
)}, end=7)
DIVIDED = DIVISIONS.start.after(6, pc=RAM + 24, ra=RAM, sp=-1, gp=RAM, tp=0, t0=-1, t1=RAM)

# An instruction with aa in ra and 80000008 in mepc, and what it changes besides the counters.
ONE = [
    ('jal t0, 8', dict(t0=RAM + 4, pc=RAM + 8)),
    ('beq zero, zero, 8', dict(pc=RAM + 8)),
    ('bne zero, zero, 8', {}),
    ('auipc t0, 1', dict(t0=RAM + 0x1000)),
    ('mul t0, ra, ra', dict(t0=0x70e4)),
    ('.word 0x0000000f', {}),
    ('fence.i', {}),
    ('wfi', {}),
    ('sfence.vma', {}),
    ('csrrw t0, mscratch, ra', dict(mscratch=0xaa)),
    ('csrrs t0, misa, zero', dict(t0=0x40141101)),
    ('csrrs t0, mepc, zero', dict(t0=RAM + 8)),
    ('csrrwi zero, minstret, 7', dict(minstret=7)),
    ('csrrwi zero, mcycle, 7', dict(mcycle=7)),
]


def one_instruction(line, changed):
    code = {0: page(line, 'nop', 'nop')}
    start = reset(ra=0xaa, mepc=RAM + 8)
    behind = start.after(1, pc=RAM + 4).but(**changed)
    name = 'fence' if line.startswith('.word') else line
    return cut(f'the state behind {name}', 'window 1 2', Recording(start, code, end=2),
               Recording(behind, code, base=1, end=2))


LEAVING = Recording(reset(mstatus=MPRV | MPIE, mepc=RAM + 8), {0: page('mret', 0, 'j 0')}, end=2)

CASES = [
    *cut('the state behind divisions', 'window 6 7', DIVISIONS, DIVISIONS.but(start=DIVIDED, base=6)),
    *cut('divisions, whole', 'window 0 7', DIVISIONS, DIVISIONS),
    *cut('mret to user mode, with interrupts on again and loads no longer those of that mode', 'window 1 2', LEAVING,
         LEAVING.but(base=1, start=LEAVING.start.after(1, pc=RAM + 8, mode=USER, mstatus=MPIE | MIE))),
] + [row for line, changed in ONE for row in one_instruction(line, changed)]
