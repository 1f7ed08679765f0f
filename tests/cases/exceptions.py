"""Each exception, with its cause and what it tells (Privileged 1.12, 3.1.15 and 3.1.16)."""
from played import (
    CODE, CODE_ENTRY, DATA_ENTRY, ROOT, SPACE, TO_DATA, Turn, code, machine_state, played, trapped,
    user_code, user_state,
)
from recordings import MACHINE, MPP_MACHINE, RAM, SUPERVISOR, USER

DEVICE = 0x10000000

# A mode, x2, and the instruction at the start of RAM; then the cause, and what the trap tells.
CAUSES = [
    (MACHINE, 0, 'jal x0, 2', 0, RAM + 2),
    (MACHINE, RAM + 6, 'jalr x0, 0(x2)', 0, RAM + 6),
    (MACHINE, 0, '.word 0xffffffff', 2, 0xffffffff),
    (SUPERVISOR, 0, 'mret', 2, 0x30200073),
    (USER, 0, 'sret', 2, 0x10200073),
    (USER, 0, 'csrrs x5, mstatus, x0', 2, 0x300022f3),
    (MACHINE, 0, 'csrrw x0, cycle, x2', 2, 0xc0011073),
    (USER, 0, 'sfence.vma', 2, 0x12000073),
    (MACHINE, 0, 'ebreak', 3, RAM),
    (MACHINE, 1, 'lw x5, 0(x2)', 4, 1),
    (MACHINE, 3, 'lh x5, 0(x2)', 4, 3),
    (MACHINE, RAM + 2, 'lr.w x5, (x2)', 4, RAM + 2),
    (MACHINE, 0, 'lw x5, 0(x2)', 5, 0),
    (MACHINE, DEVICE, 'lb x5, 0(x2)', 5, DEVICE),
    (MACHINE, DEVICE, 'lr.w x5, (x2)', 5, DEVICE),
    (MACHINE, RAM + 0x5000, 'lbu x5, 0(x2)', 5, RAM + 0x5000),
    (MACHINE, 2, 'sw x1, 0(x2)', 6, 2),
    (MACHINE, 1, 'sh x1, 0(x2)', 6, 1),
    (MACHINE, RAM + 1, 'sc.w x6, x1, (x2)', 6, RAM + 1),
    (MACHINE, RAM + 3, 'amoadd.w x5, x1, (x2)', 6, RAM + 3),
    (MACHINE, 0, 'sw x1, 0(x2)', 7, 0),
    (MACHINE, 0, 'sc.w x6, x1, (x2)', 7, 0),
    (MACHINE, DEVICE, 'amoadd.w x5, x1, (x2)', 7, DEVICE),
    (MACHINE, DEVICE, 'sh x1, 0(x2)', 7, DEVICE),
    (USER, 0, 'ecall', 8, 0),
    (SUPERVISOR, 0, 'ecall', 9, 0),
    (MACHINE, 0, 'ecall', 11, 0),
]
MODES = {MACHINE: 'machine', SUPERVISOR: 'supervisor', USER: 'user'}


def exception(mode, address, line, cause, told):
    changes = {'mstatus': mode << 11, 'mepc': RAM, 'mtval': told}
    return played(f'{line} in {MODES[mode]} mode with {address:x} in x2', machine_state(mode=mode, x2=address),
                  code(line), [trapped(cause, changes)])


def fetch_outside(pc):
    taken = trapped(1, {'mstatus': MPP_MACHINE, 'mepc': pc, 'mtval': pc}, fetches=False)
    return played(f'a fetch at {pc:x}', machine_state(pc=pc), {}, [taken], split=True)


# Entries that fail a fetch of the space: what they are of, their place and what they are, then the cause and the places
# of the entries that are read.
FETCHES = [
    ('its root entry, which is a misaligned megapage', ROOT, 0x200004df, 12, (ROOT,)),
    ('its root entry, whose table is outside RAM', ROOT, 0x00000401, 1, (ROOT,)),
    ('its entry, which may not be executed', CODE_ENTRY, 0x200008d7, 12, (ROOT, CODE_ENTRY)),
]


def refused_fetch(name, place, entry, cause, entries):
    taken = trapped(cause, {'mepc': CODE, 'mtval': CODE}, fetches=False, entries=entries)
    return played(f'a fetch that is refused by {name}', user_state(),
                  SPACE | {place: entry} | user_code('addi x1, x0, 5'), [taken])


# Instructions of the space whose access the tables refuse: x2, the instruction, the place of an entry and what it is,
# then the cause, and the places of the entries that are read.
MEGAPAGE = 0x400000
ACCESSES = [
    (0, 'sb x0, 0(x0)', DATA_ENTRY, 0x20000c5f, 15, TO_DATA),
    (0, 'sc.w x6, x1, (x2)', DATA_ENTRY, 0x20000c5b, 15, TO_DATA),
    (0, 'amoadd.w x5, x1, (x2)', DATA_ENTRY, 0x20000cdb, 15, TO_DATA),
    (0, 'lw x5, 0(x2)', DATA_ENTRY, 0x20000c9f, 13, TO_DATA),
    (0, 'lr.w x5, (x2)', DATA_ENTRY, 0x20000ccf, 13, TO_DATA),
    (MEGAPAGE, 'lw x5, 0(x2)', ROOT + 4, 0x00000401, 5, (ROOT + 4,)),
    (MEGAPAGE, 'sw x1, 0(x2)', ROOT + 4, 0x00000401, 7, (ROOT + 4,)),
]


def refused_access(address, line, place, entry, cause, entries):
    taken = trapped(cause, {'mepc': CODE, 'mtval': address}, entries=entries)
    return played(f'{line} at {address:x} that the entry {entry:x} refuses', user_state(x2=address),
                  SPACE | {place: entry} | user_code(line), [taken])


# The store of an SC is translated where it fails too.
UNRESERVED = played('an SC without a reservation that its entry refuses', user_state(x1=5, mie=0x80),
                    SPACE | {DATA_ENTRY: 0x20000c5b} | user_code('sc.w x6, x1, (x2)'),
                    [trapped(15, {'mepc': CODE, 'mtval': 0}, entries=TO_DATA)])

DELEGATED = played('a call that is handed to supervisor mode',
                   machine_state(mode=USER, medeleg=0x100, stvec=RAM + 0x3001), code('ecall'),
                   [Turn('trap 8', {'pc': RAM + 0x3000, 'mode': SUPERVISOR, 'sepc': RAM, 'scause': 8})])

CASES = (
    [row for it in CAUSES for row in exception(*it)]
    + [row for pc in (0, RAM - 4, RAM + 0x5000, DEVICE, 0xfffffffc) for row in fetch_outside(pc)]
    + [row for it in FETCHES for row in refused_fetch(*it)]
    + [row for it in ACCESSES for row in refused_access(*it)]
    + UNRESERVED + DELEGATED
)
