"""`process R`: the slice of what the program of a root is handed. Each expected one is written down by hand."""
from case import case
from cases.root_lines import BROKEN, COUNTED, FAULTED, PROGRAM, SWITCHED, looping
from cases.step_lines import BLOCK, looped
from played import CODE, DATA_PLACE, PAGES, SPACE, Ram, user_code, user_state
from recordings import RAM, Dma, Recording, State, Value, assemble, page
from recordings.recording import PAGE
from recordings.registers import USER
from recordings.slices import Group, Slice
from statuses import broken, done, format_at, not_there

ROOT = 0x80080000


def codes(at, *lines):
    """A run of the bytes of each instruction, one behind the other from an address on."""
    return [(at + 4 * index, word.to_bytes(4, 'little')) for index, word in enumerate(assemble(*lines))]


def space(*lines, events=(), steps=None, split=False, **named):
    """A recording of a program in the space of user mode."""
    pages = Ram(SPACE | user_code(*lines)).pages(range(PAGES))
    return Recording(user_state(**named), pages, ram=PAGES, end=steps or len(lines), events=events,
                     version=2 if split else 1, split=split)


def handed(*groups, steps=None):
    """A slice in which each step is handed the given words, runs and value, from step 0 on; None is no group."""
    made = [Group(step, *group) for step, group in enumerate(groups) if group is not None]
    return Slice(tuple(made), steps or len(groups))


# The first program: it computes, stores, loads and calls.
FETCHES = [({}, (run,)) for run in codes(RAM, 'addi ra, zero, 5', 'sw ra, 256(gp)', 'lw sp, 256(gp)', 'ecall')]
CALLED = handed(({0: RAM, 3: RAM}, FETCHES[0][1]), *FETCHES[1:])

LOOPS = handed(({0: RAM}, tuple(codes(RAM, 'j 0'))), steps=100)

# Under 7, 3 and 7 again. A call leaves pc + 4, so the program of 7 is handed pc of its second one, whose word it knows.
CALL = tuple(codes(RAM, 'ecall'))
BY_SEVEN = handed(({0: RAM, 10: 3, 11: 7}, CALL), ({0: RAM, 11: 3},))
BY_THREE = handed(({0: RAM, 10: 7, 11: 7}, CALL))

# A loop that calls its kernel, which changes a word that the loop loads, and registers, and comes back behind the call.
KERNEL = page('csrr t0, mepc', 'addi t0, t0, 4', 'csrw mepc, t0', 'addi a0, a0, 1', 'sw a0, 256(gp)', 'mret')
SERVED = Recording(State(pc=RAM, mode=USER, satp=9, gp=RAM, mtvec=RAM + PAGE), {
    0: page('ecall', 'lw a1, 256(gp)', 'j -8'), 1: KERNEL}, ram=2, end=18)
SERVED_CODE = codes(RAM, 'ecall', 'lw a1, 256(gp)', 'j -8')
SERVED_SLICE = handed(
    ({0: RAM, 3: RAM}, (SERVED_CODE[0],)),
    ({5: RAM + 4, 10: 1}, (SERVED_CODE[1], (RAM + 256, b'\1\0\0\0'))),
    ({}, (SERVED_CODE[2],)),
    None,
    ({10: 2}, ((RAM + 256, b'\2'),)),
    None,
)

# Bytes of the first word of the data: 11 22 33 44.
SEEN = codes(CODE, 'lw x5, 0(x0)', 'lw x5, 0(x0)', 'lw x5, 0(x0)', 'lw x5, 0(x0)')
AGAIN = space('lw x5, 0(x0)', 'lw x5, 0(x0)', 'lw x5, 0(x0)', 'lw x5, 0(x0)',
              events=(Dma(1, DATA_PLACE + 1, b'\x99'), Dma(2, DATA_PLACE + 1, b'\x22'), Dma(3, DATA_PLACE, b'\x11')))
AGAIN_SLICE = handed(
    ({0: CODE}, ((0, b'\x11\x22\x33\x44'), SEEN[0])),
    ({}, ((1, b'\x99'), SEEN[1])),
    ({}, ((1, b'\x22'), SEEN[2])),
    ({}, (SEEN[3],)),
)

# A byte that the kernel takes back before the program sees it is no item; a byte between two others makes two runs.
UNSEEN = space('lw x5, 0(x0)', 'nop', 'lw x5, 0(x0)',
               events=(Dma(1, DATA_PLACE, b'\x99\x99\x99\x99'), Dma(2, DATA_PLACE, b'\x90\x22\x90\x44')))
UNSEEN_CODE = codes(CODE, 'lw x5, 0(x0)', 'nop', 'lw x5, 0(x0)')
UNSEEN_SLICE = handed(
    ({0: CODE}, ((0, b'\x11\x22\x33\x44'), UNSEEN_CODE[0])),
    ({}, (UNSEEN_CODE[1],)),
    ({}, ((0, b'\x90'), (2, b'\x90'), UNSEEN_CODE[2])),
)

# What the program stored itself it knows, and what lies beside it not.
OWN = ('sb x1, 1(x0)', 'lw x5, 0(x0)', 'sw x1, 0(x0)', 'lw x5, 0(x0)')
OWN_CODE = codes(CODE, *OWN)
OWN_SLICE = handed(
    ({0: CODE, 1: 0xaa}, (OWN_CODE[0],)),
    ({}, ((0, b'\x11'), (2, b'\x33\x44'), OWN_CODE[1])),
    ({}, (OWN_CODE[2],)),
    ({}, (OWN_CODE[3],)),
)
# What a device has written over its own store is handed over.
OVER = space(*OWN[2:], x1=0xaa, events=(Dma(1, DATA_PLACE, b'\xab'),))
OVER_CODE = codes(CODE, *OWN[2:])
OVER_SLICE = handed(({0: CODE, 1: 0xaa}, (OVER_CODE[0],)), ({}, ((0, b'\xab'), OVER_CODE[1])))

# Accesses in two parts, over the end of the data's page: what is loaded there begins with the code.
SPLIT = ('lw x5, 1(x0)', 'lw x6, -2(x2)', 'sh x1, -1(x2)', 'lw x7, -4(x2)')
SPLIT_CODE = codes(CODE, *SPLIT)
SPLIT_SLICE = handed(
    ({0: CODE, 1: 0x8303, 2: CODE}, ((1, b'\x22\x33\x44\0'), SPLIT_CODE[0])),
    ({}, ((CODE - 2, b'\0\0'), SPLIT_CODE[1])),
    ({}, (SPLIT_CODE[2],)),
    ({}, ((CODE - 4, b'\0\0'), SPLIT_CODE[3])),
)

# A run goes from the data into the word of the instruction that loads it: eight bytes in one.
JOINED = space('lw x6, -4(x2)', x2=CODE)
JOINED_SLICE = handed(({0: CODE, 2: CODE}, ((CODE - 4, bytes(4) + codes(CODE, 'lw x6, -4(x2)')[0][1]),)))

# A program that loads its own word, and one that changes the word of its next instruction.
ITSELF = space('lw x6, 0(x2)', x2=CODE)
ITSELF_SLICE = handed(({0: CODE, 2: CODE}, tuple(codes(CODE, 'lw x6, 0(x2)'))))
CHANGED = space('sw x1, 4(x2)', 'nop', x1=assemble('addi x3, x0, 7')[0], x2=CODE)
CHANGED_SLICE = handed(({0: CODE, 1: assemble('addi x3, x0, 7')[0], 2: CODE}, tuple(codes(CODE, 'sw x1, 4(x2)'))),
                       steps=2)

# An SC that stores, and one that doesn't, whose outcome is a value; behind both it loads.
RESERVED = ('lr.w x5, (x2)', 'sc.w x6, x1, (x2)', 'sc.w x7, x1, (x2)', 'lw x8, 0(x2)')
RESERVED_CODE = codes(CODE, *RESERVED)
RESERVED_SLICE = handed(
    ({0: CODE, 1: 5}, ((0, b'\x11\x22\x33\x44'), RESERVED_CODE[0])),
    ({}, (RESERVED_CODE[1],), 0),
    ({}, (RESERVED_CODE[2],), 1),
    ({}, (RESERVED_CODE[3],)),
)
# Where a device drops the reservation, the word that stands there then is handed over once it is loaded.
DROPPED = space(*RESERVED[:2], 'lw x8, 0(x2)', x1=5, events=(Dma(1, DATA_PLACE, b'\x99'),))
DROPPED_CODE = codes(CODE, *RESERVED[:2], 'lw x8, 0(x2)')
DROPPED_SLICE = handed(
    ({0: CODE, 1: 5}, ((0, b'\x11\x22\x33\x44'), DROPPED_CODE[0])),
    ({}, (DROPPED_CODE[1],), 1),
    ({}, ((0, b'\x99'), DROPPED_CODE[2])),
)
# An atomic operation sees the word, and leaves what it wrote.
ADDED = ('amoadd.w x5, x1, (x2)', 'amoadd.w x5, x1, (x2)')
ADDED_CODE = codes(CODE, *ADDED)
ADDED_SLICE = handed(({0: CODE, 1: 5}, ((0, b'\x11\x22\x33\x44'), ADDED_CODE[0])), ({}, (ADDED_CODE[1],)))

# Counters: what they give stands in the slice, and not in the group of the step behind it. x0 gets none.
COUNTERS = ('rdtime x5', 'csrrs x6, cycle, x0', 'csrrc x0, instret, x0', 'csrrsi x7, cycleh, 0', 'csrrci x8, timeh, 0',
            'csrrs x9, instreth, x0')
COUNTER_CODE = codes(CODE, *COUNTERS)
COUNTING = space(*COUNTERS, mcounteren=7, scounteren=7, mcycle=(3 << 32) + 5, minstret=(4 << 32) + 8,
                 events=(Value(0, 0x12345678), Value(4, 9)))
COUNTER_SLICE = handed(
    ({0: CODE}, (COUNTER_CODE[0],), 0x12345678), ({}, (COUNTER_CODE[1],), 6), ({}, (COUNTER_CODE[2],), 10),
    ({}, (COUNTER_CODE[3],), 3), ({}, (COUNTER_CODE[4],), 9), ({}, (COUNTER_CODE[5],), 4),
)
SAME_TIME = space('rdtime x5', 'j -4', mcounteren=7, scounteren=7, steps=4, events=(Value(0, 7), Value(2, 7)))
SAME_TIME_CODE = codes(CODE, 'rdtime x5', 'j -4')
SAME_TIME_SLICE = handed(({0: CODE}, (SAME_TIME_CODE[0],), 7), ({}, (SAME_TIME_CODE[1],)), ({}, (), 7), None)

# A word of a device that a program loads and stores is what it reads and writes, as RAM's.
DEVICE = Recording(State(pc=RAM, mode=USER, satp=5, a0=0x0200bff8), {0: page('lw a1, 0(a0)', 'lw a1, 0(a0)')}, end=2,
                   events=(Value(0, 0x100), Value(1, 0x101)))

# Each register is handed over where it isn't 0.
ALL = {0: CODE, **{number: number for number in range(1, 32)}}
FULL = space('nop', **{f'x{number}': number for number in range(1, 32)})

# Steps without a group count: more of them than a byte tells of.
COUNTDOWN = ('addi x5, x0, 100', 'addi x5, x5, -1', 'bne x5, x0, -4', 'lw x6, 0(x0)', 'j 0')
COUNTDOWN_CODE = [({}, (run,)) for run in codes(CODE, *COUNTDOWN)]
COUNTDOWN_SLICE = handed(({0: CODE}, COUNTDOWN_CODE[0][1]), *COUNTDOWN_CODE[1:3], *[None] * 198,
                         ({}, ((0, b'\x11\x22\x33\x44'), *COUNTDOWN_CODE[3][1])), COUNTDOWN_CODE[4], steps=500)

# A program whose groups are more than a block: each step of a page is handed its word.
LONG = 600
MANY = Recording(State(pc=RAM, mode=USER, satp=7), {0: page(*['nop'] * 1024)}, end=LONG)
MANY_SLICE = handed(({0: RAM}, tuple(codes(RAM, 'nop'))), *[({}, (run,)) for run in codes(RAM, *['nop'] * LONG)[1:]])
# Of a refusal the groups that are settled have been put, and whole blocks of them written.
HALF = 400
MANY_ALL = MANY_SLICE.spell()[:-2]
MANY_HALF = MANY_SLICE.but(groups=MANY_SLICE.groups[:HALF], end=HALF).spell()[:-2]

CASES = [
    case('a program that computes, stores, loads and calls', 'process 0x7fff0007', PROGRAM, done, CALLED),
    case('a loop is handed its first word, and no more', 'process 7', looping(100), done, LOOPS),
    case('a program that is called under two roots: the one', 'process 7', SWITCHED, done, BY_SEVEN),
    case('a program that is called under two roots: the other', 'process 3', SWITCHED, done, BY_THREE),
    case('a kernel that writes memory and registers between the steps', 'process 9', SERVED, done, SERVED_SLICE),
    case('bytes that change, and come back', f'process {ROOT}', AGAIN, done, AGAIN_SLICE),
    case('bytes that change while they are not seen', f'process {ROOT}', UNSEEN, done, UNSEEN_SLICE),
    case('what a program stores itself', f'process {ROOT}', space(*OWN, x1=0xaa), done, OWN_SLICE),
    case('what a device writes over a store', f'process {ROOT}', OVER, done, OVER_SLICE),
    case('accesses in two parts', f'process {ROOT}', space(*SPLIT, x1=0x8303, x2=CODE, split=True), done, SPLIT_SLICE),
    case('bytes of a load and of the instruction in one run', f'process {ROOT}', JOINED, done, JOINED_SLICE),
    case('a program that loads its own word', f'process {ROOT}', ITSELF, done, ITSELF_SLICE),
    case('a program that changes its own word', f'process {ROOT}', CHANGED, done, CHANGED_SLICE),
    case('an SC that stores and one that does not', f'process {ROOT}', space(*RESERVED, x1=5), done, RESERVED_SLICE),
    case('an SC whose reservation a device drops', f'process {ROOT}', DROPPED, done, DROPPED_SLICE),
    case('atomic operations', f'process {ROOT}', space(*ADDED, x1=5), done, ADDED_SLICE),
    case('counters', f'process {ROOT}', COUNTING, done, COUNTER_SLICE),
    case('a time that is told twice alike', f'process {ROOT}', SAME_TIME, done, SAME_TIME_SLICE),
    case('a register that is 0 is none', f'process {ROOT}', FULL, done, handed((ALL, tuple(codes(CODE, 'nop'))))),
    case('many steps without a group', f'process {ROOT}', space(*COUNTDOWN, steps=500), done, COUNTDOWN_SLICE),
    case('many groups', 'process 7', MANY, done, MANY_SLICE),
    case('a root that is not there', 'process 8', looping(100), not_there),
    case('a root with other bits behind', 'process 0x7fff0006', PROGRAM, not_there),
    case('the root of a fault', 'process 7', FAULTED, not_there),
    case('the root of the machine itself', 'process 0', looped(5), not_there),
    case('a counter of the first step alone', 'process 7', COUNTED, done,
         handed(({0: RAM}, tuple(codes(RAM, 'rdcycle a0')), 9))),
    case('a step that is broken comes before a root that is missing', 'process 8', BROKEN, broken(50)),
    case('a step that is broken comes behind less than a block', 'process 7', BROKEN, broken(50)),
    case('a step that is broken comes behind the whole blocks', 'process 7', MANY.but(events=(Value(HALF, 7),)),
         broken(HALF), MANY_HALF[:len(MANY_HALF) // BLOCK * BLOCK]),
    case('a byte behind the end comes behind the whole blocks', 'process 7', MANY.spell() + b'\0',
         format_at(len(MANY.spell())), MANY_ALL[:len(MANY_ALL) // BLOCK * BLOCK]),
    case('a record that is cut off settles nothing', 'process 7', MANY.spell()[:-1], format_at(len(MANY.spell()) - 1)),
    case('a bad header has no slice', 'process 7', b'CXR1\1', format_at(5)),
    case('a slice of a slice', 'process 7', CALLED.spell(), format_at(0)),
]
