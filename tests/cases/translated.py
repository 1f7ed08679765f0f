"""Steps whose addresses are translated by Sv32. The pages of the tables that a walk reads are read too."""
from case import case, cut
from recordings import MACHINE, MPRV, PAGE, RAM, SUPERVISOR, USER, Recording, State, page
from today import without_value

# Entries: V, R, W, X, U, A and D are bits 0, 1, 2, 3, 4, 6 and 7, and the page's number is bits 31:10.
V, R, W, X, U, A, D = 1, 2, 4, 8, 16, 64, 128
LEAF = V | R | W | X | U | A | D


def entry(place, bits):
    return place // PAGE << 10 | bits


# The space of these tests: RAM has five pages. The root table is page 0, the other table page 1. Address 1000 is page
# 2, which has the code, and address 0 is page 3, which has the data. Traps go to page 4.
ROOT = entry(RAM + PAGE, V)
TO_DATA, TO_CODE = entry(RAM + 3 * PAGE, LEAF), entry(RAM + 2 * PAGE, LEAF)
START = State(pc=0x1000, mode=USER, mtvec=RAM + 4 * PAGE, satp=1 << 31 | RAM // PAGE)


def space(*lines, start=START, root=ROOT, data=TO_DATA, end=2):
    memory = {0: page(root), 1: page(data, TO_CODE), 2: page(*lines), 3: page(0x44332211)}
    return Recording(start, memory, ram=5, end=end)


def with_pages(recording, *numbers, **named):
    """The recording with these pages alone, and with other changes."""
    return recording.but(memory={number: recording.memory[number] for number in numbers}, **named)


CALLS = space('addi ra, zero, 5', 'ecall')
STORES = space('sw ra, 0(zero)', 'lw t0, 0(zero)', start=START.but(ra=0xaa))
MEGAPAGE = Recording(State(pc=RAM, mode=SUPERVISOR, satp=1 << 31 | RAM // PAGE + 1), {
    0: page('addi ra, zero, 5', 'j 0'), 1: page(entry(RAM, LEAF & ~U), at=0x800), 2: page(1),
}, ram=3, end=2)
BARE = MEGAPAGE.but(start=MEGAPAGE.start.but(mode=MACHINE))
LOADS = space('lw t0, 0(zero)', 'j 0', start=START.but(pc=RAM + 2 * PAGE, mode=MACHINE, mstatus=MPRV))
DEVICE = entry(0x10000000, LEAF)
CONSOLE = with_pages(space('sw ra, 0(zero)', 'lw t0, 0(zero)', data=DEVICE), 0, 1, 2)


def fetch_faults(name, root, cause):
    """A fetch that faults at the entry of the root table, and the handler behind it."""
    whole = space('addi ra, zero, 5', root=root)
    whole = whole.but(memory={**whole.memory, 4: page('j 0')})
    behind = START.after(1, retired=0, pc=RAM + 4 * PAGE, mode=MACHINE, mepc=0x1000, mcause=cause, mtval=0x1000)
    return [
        *cut(f'a fetch reads the entries up to {name}, and no code', 'window 0 1', whole, with_pages(whole, 0, end=1)),
        *cut(f'the state behind a fetch by way of {name}', 'window 1 2', whole,
             with_pages(whole, 4, start=behind, base=1)),
    ]


def access_faults(name, line, data):
    whole = space(line, data=data, end=1)
    return cut(f'{name} reads entries and its word, and no data', 'window 0 1', whole, with_pages(whole, 0, 1, 2))


CASES = [
    *cut('the tables are read by the walk of a fetch', 'window 0 1', CALLS, with_pages(CALLS, 0, 1, 2, end=1)),
    *cut('ecall behind a walk', 'window 1 2', CALLS,
         with_pages(CALLS, 0, 1, 2, start=START.after(1, pc=0x1004, ra=5), base=1)),
    *cut('no data are read by two steps that ask for none', 'window 0 2', CALLS, with_pages(CALLS, 0, 1, 2)),
    *cut('data that are stored to are not read', 'window 0 1', STORES, with_pages(STORES, 0, 1, 2, end=1)),
    *cut('data that were stored to are read', 'window 1 2', STORES, STORES.but(
        start=STORES.start.after(1, pc=0x1004), memory={**STORES.memory, 3: page(0xaa)}, base=1)),
    *cut('data that are stored to and read are there as they were', 'window 0 2', STORES, STORES),
    *fetch_faults('a megapage that is not aligned', entry(RAM + PAGE, LEAF), 12),
    *fetch_faults('a table outside RAM', entry(PAGE, V), 1),
    *access_faults('a load without an entry', 'lw t0, 0(zero)', 0),
    *access_faults('a store by an entry without D', 'sw ra, 0(zero)', TO_DATA & ~D),
    *cut('a megapage in supervisor mode', 'window 0 1', MEGAPAGE, with_pages(MEGAPAGE, 0, 1, end=1)),
    *cut('machine mode reads no table', 'window 0 1', BARE, with_pages(BARE, 0, end=1)),
    *cut('machine mode that loads as user mode reads the tables for its load', 'window 0 1', LOADS, LOADS.but(end=1)),
    *cut('machine mode that loads as user mode fetches from a place', 'window 1 2', LOADS, with_pages(
        LOADS, 2, start=LOADS.start.after(1, pc=RAM + 2 * PAGE + 4, t0=0x44332211), base=1)),
    *cut('a store to a device word behind an entry', 'window 0 1', CONSOLE.but(end=1), CONSOLE.but(end=1)),
    case('a load of a device word behind an entry has no value', 'window 0 1', CONSOLE, without_value(1)),
]
