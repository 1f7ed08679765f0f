"""`calls R` and `relog`: what the program of a root is handed, placed at its calls. Each expected slice is written down
by hand."""
from case import case
from cases.process_slices import (
    AGAIN, AGAIN_SLICE, BY_SEVEN, BY_THREE, CALLED, COUNTER_SLICE, COUNTERS, COUNTING, DROPPED, DROPPED_SLICE, JOINED,
    JOINED_SLICE, KERNEL, LOOPS, OVER, OVER_SLICE, OWN, OWN_SLICE, RESERVED, RESERVED_SLICE, ROOT, SERVED, SERVED_SLICE,
    SPLIT, SPLIT_SLICE, UNSEEN, UNSEEN_SLICE, codes, space,
)
from cases.root_lines import BROKEN, FAULTED, PROGRAM, SWITCHED, looping
from cases.step_lines import BLOCK, looped
from played import CODE
from recordings import MARK_EVERY, RAM, Dma, Recording, State, Value, assemble, page, words
from recordings.calls import ASYNC, CALL, VALUE, CallSlice, Head, Record
from recordings.observations import observations
from recordings.recording import PAGE
from recordings.registers import USER
from recordings.slices import runs_of, sliced
from statuses import broken, done, format_at, not_there
from today import SLICES_BY_CALLS, once

# What a kernel does that comes back behind the call, before and behind what it does to the program.
ENTER = ('csrrw t6, mscratch, t6', 'csrr t6, mepc', 'addi t6, t6, 4', 'csrw mepc, t6')
LEAVE = ('csrrw t6, mscratch, t6', 'mret')
QUIET = len(ENTER + LEAVE)  # how many steps a kernel takes that does nothing else
SEEN = b'\x11\x22\x33\x44\x55\x66\x77\x88'
DATA = RAM + 256


def served(*lines, does=(), data=SEEN, steps, events=(), split=False, **named):
    """A program of user mode without translation, whose data begins at 256(gp), and its kernel in the page behind."""
    content = page(*lines)
    return Recording(State(pc=RAM, mode=USER, satp=9, gp=RAM, mtvec=RAM + PAGE, **named), {
        0: content[:256] + data + content[256 + len(data):], 1: page(*ENTER, *does, *LEAVE)}, ram=2, end=steps,
        events=events, version=2 if split else 1, split=split)


def code(at, *lines):
    """A run of the bytes of all these instructions."""
    return at, words(*assemble(*lines))


def by_calls(start, *records, steps):
    """A call slice: words and runs of the start, and records."""
    return CallSlice(Head(start[0], start[1:]), records, steps)


def call(step, new=None, *runs, number=0):
    return Record(step, CALL, Head(new or {}, runs), number=number)


def between(step, new=None, *runs):
    """What is handed over before a step, not behind a call."""
    return Record(step, ASYNC, Head(new or {}, runs))


def value(step, given):
    return Record(step, VALUE, value=given)


BEGINS = {0: RAM, 3: RAM}

# The example of docs/FORMATS.md: the kernel sets a0 to 7 and the stored byte to 9.
FIVE = ('addi ra, zero, 5', 'sw ra, 256(gp)', 'ecall', 'lw sp, 256(gp)', 'addi a0, zero, 1')
NINE = ('addi t6, zero, 9', 'sw t6, 256(gp)', 'addi a0, zero, 7')
EXAMPLE = served(*FIVE, does=NINE, steps=5 + QUIET + 3)
EXAMPLE_SLICE = by_calls((BEGINS, code(RAM, *FIVE[:3])),
                         call(2, {10: 7}, code(RAM + 12, *FIVE[3:]), (DATA, b'\x09')), steps=5)
EXAMPLE_BYTES = bytes.fromhex(
    '43584331 09000000 00000080 00000080 01 00000080 0c 93005000 23a01110 73000000 01 02 00000000 00040000 07000000 02 '
    '0c000080 08 03a10110 13051000 00010080 01 09 00 03')

# Two calls, each with its number. What is loaded behind the second was known before it.
TWO = ('addi a7, zero, 64', 'ecall', 'addi a7, zero, 93', 'lw a1, 256(gp)', 'ecall', 'lw a2, 256(gp)')
TWO_SLICE = by_calls((BEGINS, code(RAM, *TWO[:2])), call(1, {}, code(RAM + 8, *TWO[2:5]), (DATA, SEEN[:4]), number=64),
                     call(4, {}, code(RAM + 20, TWO[5]), number=93), steps=6)

# What the kernel does behind the last call, that nobody sees.
ENDS = SERVED.but(end=6)
ENDS_SLICE = by_calls((BEGINS, code(RAM, 'ecall')), call(0), steps=1)
SERVED_CALLS = by_calls(
    (BEGINS, code(RAM, 'ecall')),
    call(0, {5: RAM + 4, 10: 1}, code(RAM + 4, 'lw a1, 256(gp)', 'j -8'), (DATA, b'\1\0\0\0')),
    call(3, {10: 2}, (DATA, b'\2')), steps=6)

# Values stay at their steps, and the head in front of them has what is seen behind them.
TIMES = ('ecall', 'rdtime a0', 'lw a1, 256(gp)', 'ecall', 'rdcycle a2')
TIMED = served(*TIMES, steps=5 + 2 * QUIET, events=(Value(1 + QUIET, 0x12345678),), mcounteren=7, scounteren=7)
TIMED_SLICE = by_calls((BEGINS, code(RAM, TIMES[0])), call(0, {}, code(RAM + 4, *TIMES[1:4]), (DATA, SEEN[:4])),
                       value(1, 0x12345678), call(3, {}, code(RAM + 16, TIMES[4])), value(4, 4 + 2 * QUIET), steps=5)

# A head has bytes that are seen two hundred steps behind the call, and by the next call.
LATE = ('ecall', 'addi t0, zero, 100', 'addi t0, t0, -1', 'bne t0, zero, -4', 'lw a1, 256(gp)', 'ecall')
LATE_SLICE = by_calls((BEGINS, code(RAM, LATE[0])), call(0, {}, code(RAM + 4, *LATE[1:]), (DATA, SEEN[:4])), call(203),
                      steps=204)

# The kernel counts its calls in memory. What the first one changed the program sees behind the second.
COUNT = ('lw t6, 256(gp)', 'addi t6, t6, 1', 'sw t6, 256(gp)')
TWICE = ('lw a1, 256(gp)', 'ecall', 'ecall', 'lw a1, 256(gp)')
TWICE_SLICE = by_calls((BEGINS, code(RAM, *TWICE[:2]), (DATA, SEEN[:4])), call(1, {}, code(RAM + 8, TWICE[2])),
                       call(2, {}, code(RAM + 12, TWICE[3]), (DATA, b'\x13')), steps=4)

# A device writes over what was loaded behind the call, or over what was stored there.
LOADED = ('ecall', 'lw a1, 256(gp)', 'lw a2, 256(gp)')
LOADED_SLICE = by_calls((BEGINS, code(RAM, LOADED[0])), call(0, {}, code(RAM + 4, *LOADED[1:]), (DATA, SEEN[:4])),
                        between(2, {}, (DATA + 1, b'\x99')), steps=3)
STORED = ('ecall', 'sw ra, 256(gp)', 'lw a2, 256(gp)')
STORED_SLICE = by_calls((BEGINS, code(RAM, STORED[0])), call(0, {}, code(RAM + 4, *STORED[1:])),
                        between(2, {}, (DATA + 1, b'\x99')), steps=3)
OVER_LOADED = (Dma(2 + QUIET, DATA + 1, b'\x99'),)

# The kernel counts in a0, and comes back behind a word that is none; then the program calls it.
TRAPPED = ('addi ra, zero, 5', '.word 0', 'ecall')
TRAPPED_SLICE = by_calls((BEGINS, code(RAM, TRAPPED[0]), code(RAM + 8, TRAPPED[2])),
                         between(1, {0: RAM + 8, 10: 1}), call(1), steps=2)

# A device makes a call of a word that the program had loaded.
MADE = ('lw t0, 8(gp)', 'nop', 'nop')
MADE_SLICE = by_calls((BEGINS, code(RAM, *MADE)), between(2, {}, (RAM + 8, b'\x73')), call(2), steps=3)

# Misaligned loads behind a call, of which one sees a byte again that a device has changed.
PARTS = ('ecall', 'lw a1, 257(gp)', 'lw a2, 255(gp)')
PARTS_SLICE = by_calls(
    (BEGINS, code(RAM, PARTS[0])), call(0, {}, code(RAM + 4, *PARTS[1:]), (DATA - 1, b'\0' + SEEN[:5])),
    between(2, {}, (DATA + 1, b'\x99')), steps=3)

# A reserved word that is stored to, and one that a device writes over.
WHOLE = SEEN[:4]
RESERVED_CALLS = by_calls(({0: CODE, 1: 5}, (0, WHOLE), code(CODE, *RESERVED)), value(1, 0), value(2, 1), steps=4)
DROPPED_CALLS = by_calls(({0: CODE, 1: 5}, (0, WHOLE), code(CODE, *RESERVED[:2], 'lw x8, 0(x2)')),
                         value(1, 1), between(2, {}, (0, b'\x99')), steps=3)

# A program that is served three hundred times: the kernel counts in a0 and in the word that is loaded.
MANY_TIMES = 300
EACH = 9  # steps from a call to the next
MANY = SERVED.but(end=EACH * MANY_TIMES)


def counted(times):
    """What the kernel hands over at so many calls, the first of which is another."""
    old, new = (number.to_bytes(4, 'little') for number in (times, times + 1))
    return call(3 * times, {10: times + 1}, *runs_of({DATA + at: new[at] for at in range(4) if new[at] != old[at]}))


MANY_SLICE = by_calls((BEGINS, code(RAM, 'ecall')), SERVED_CALLS.records[0],
                      *(counted(times) for times in range(1, MANY_TIMES)), steps=3 * MANY_TIMES)
MANY_PROCESS = sliced(observations(MANY, 9))


def known(calls):
    """The whole blocks of what is known to be right of so many calls: all before the last one."""
    text = MANY_SLICE.but(records=MANY_SLICE.records[:calls - 1]).front()
    return text[:len(text) // BLOCK * BLOCK]


# With this call's record a block is full, and the next call lets it go.
FILLS = next(calls for calls in range(1, MANY_TIMES) if known(calls))

# Recordings, roots and call slices, each with the process slice where it is written down by hand.
BOTH = [
    ('a program whose kernel changes a register and a byte', EXAMPLE, 9, EXAMPLE_SLICE, None),
    ('two calls, each with its number', served(*TWO, steps=6 + 2 * QUIET), 9, TWO_SLICE, None),
    ('a program that ends with a call', PROGRAM, 0x7fff0007,
     by_calls((BEGINS, code(RAM, 'addi ra, zero, 5', 'sw ra, 256(gp)', 'lw sp, 256(gp)', 'ecall')), call(3), steps=4),
     CALLED),
    ('a kernel that changes what nobody sees any more', ENDS, 9, ENDS_SLICE, None),
    ('a program that calls by and by', SERVED, 9, SERVED_CALLS, SERVED_SLICE),
    ('a program that calls under two roots: the one', SWITCHED, 7,
     by_calls(({0: RAM, 10: 3, 11: 7}, code(RAM, 'ecall')), call(0, {0: RAM, 11: 3}), call(1), steps=2), BY_SEVEN),
    ('a program that calls under two roots: the other', SWITCHED, 3,
     by_calls(({0: RAM, 10: 7, 11: 7}, code(RAM, 'ecall')), call(0), steps=1), BY_THREE),
    ('a program without a call', looping(100), 7, by_calls(({0: RAM}, code(RAM, 'j 0')), steps=100), LOOPS),
    ('values behind calls', TIMED, 9, TIMED_SLICE, None),
    ('bytes that are seen long behind the call', served(*LATE, steps=204 + QUIET), 9, LATE_SLICE, None),
    ('a byte that one call changes and that is seen behind the next', served(*TWICE, does=COUNT, steps=4 + 2 * (
        QUIET + 3)), 9, TWICE_SLICE, None),
    ('a byte that a device changes behind a call and a load', served(*LOADED, steps=3 + QUIET, events=OVER_LOADED), 9,
     LOADED_SLICE, None),
    ('a byte that a device changes behind a call and a store', served(*STORED, steps=3 + QUIET, events=OVER_LOADED), 9,
     STORED_SLICE, None),
    ('a register that a trap changes before a call', served(
        *TRAPPED, does=('addi a0, a0, 1',), steps=4 + QUIET), 9, TRAPPED_SLICE, None),
    ('a call whose word a device has made', served(*MADE, steps=3, events=(Dma(2, RAM + 8, b'\x73'),)), 9, MADE_SLICE,
     None),
    ('accesses in parts behind a call', served(*PARTS, steps=3 + QUIET, events=OVER_LOADED, split=True), 9, PARTS_SLICE,
     None),
    ('bytes that change, and come back, without a call', AGAIN, ROOT,
     by_calls(({0: CODE}, (0, WHOLE), code(CODE, *['lw x5, 0(x0)'] * 4)), between(1, {}, (1, b'\x99')),
              between(2, {}, (1, b'\x22')), steps=4), AGAIN_SLICE),
    ('bytes that change while they are not seen, without a call', UNSEEN, ROOT,
     by_calls(({0: CODE}, (0, WHOLE), code(CODE, 'lw x5, 0(x0)', 'nop', 'lw x5, 0(x0)')),
              between(2, {}, (0, b'\x90'), (2, b'\x90')), steps=3), UNSEEN_SLICE),
    ('what a program stores itself, without a call', space(*OWN, x1=0xaa), ROOT,
     by_calls(({0: CODE, 1: 0xaa}, (0, b'\x11'), (2, b'\x33\x44'), code(CODE, *OWN)), steps=4), OWN_SLICE),
    ('what a device writes over a store, without a call', OVER, ROOT,
     by_calls(({0: CODE, 1: 0xaa}, code(CODE, *OWN[2:])), between(1, {}, (0, b'\xab')), steps=2), OVER_SLICE),
    ('accesses in two parts, without a call', space(*SPLIT, x1=0x8303, x2=CODE, split=True), ROOT,
     by_calls(({0: CODE, 1: 0x8303, 2: CODE}, (1, b'\x22\x33\x44\0'),
               (CODE - 4, bytes(4) + words(*assemble(*SPLIT)))), steps=4), SPLIT_SLICE),
    ('a run that goes from the data into the code', JOINED, ROOT,
     by_calls(({0: CODE, 2: CODE}, (CODE - 4, bytes(4) + words(*assemble('lw x6, -4(x2)')))), steps=1), JOINED_SLICE),
    ('an SC that stores and one that does not, without a call', space(*RESERVED, x1=5), ROOT, RESERVED_CALLS,
     RESERVED_SLICE),
    ('an SC whose reservation a device drops, without a call', DROPPED, ROOT, DROPPED_CALLS, DROPPED_SLICE),
    ('counters, without a call', COUNTING, ROOT,
     by_calls(({0: CODE}, code(CODE, *COUNTERS)), *(
         value(step, given) for step, given in enumerate((0x12345678, 6, 10, 3, 9, 4))), steps=6), COUNTER_SLICE),
    ('a program that is called three hundred times', MANY, 9, MANY_SLICE, MANY_PROCESS),
]


def many(words_, data, status, calls):
    """What stands written of the program with many calls where so many of them were settled."""
    return case(f'what {words_} has written of {calls} calls', words_, data, status, known(calls))


def stopped(calls):
    """The recording with a value that the call behind so many doesn't ask for."""
    return MANY.but(events=(Value(EACH * calls, 7),))


def stuck(calls):
    """The same of its process slice."""
    at = next(index for index, group in enumerate(MANY_PROCESS.groups) if group.step > 3 * calls)
    return MANY_PROCESS.with_group(at, value=7)


# The same with a mark behind two hundred calls, which settles them.
BY_MARK = 200
MARKED = MANY.but(base=MARK_EVERY - EACH * BY_MARK, end=MARK_EVERY + EACH * (MANY_TIMES - BY_MARK)).marked()

LENGTH, PROCESS = len(MANY.spell()), CALLED.spell()
MAKES = once(SLICES_BY_CALLS, [
    *(case(name, f'calls {root:#x}', data, done, slice_) for name, data, root, slice_, _ in BOTH),
    case('the bytes of the example of a call slice', 'calls 9', EXAMPLE, done, EXAMPLE_BYTES),
    case('the calls of a root that is not there', 'calls 8', looping(100), not_there),
    case('the calls of a root with other bits behind', 'calls 0x7fff0006', PROGRAM, not_there),
    case('the calls of the root of a fault', 'calls 7', FAULTED, not_there),
    case('the calls of the machine itself', 'calls 0', looped(5), not_there),
    case('a step that is broken comes before a root that has no calls', 'calls 8', BROKEN, broken(50)),
    case('a step that is broken comes behind less than a block of calls', 'calls 7', BROKEN, broken(50)),
    many('calls 9', stopped(FILLS - 1), broken(EACH * (FILLS - 1)), FILLS - 1),
    many('calls 9', stopped(FILLS), broken(EACH * FILLS), FILLS),
    many('calls 9', stopped(MANY_TIMES - 1), broken(EACH * (MANY_TIMES - 1)), MANY_TIMES - 1),
    many('calls 9', MANY.spell() + b'\0', format_at(LENGTH), MANY_TIMES),
    many('calls 9', MARKED.spell()[:-1], format_at(len(MARKED.spell()) - 1), BY_MARK),
    case('a program that is called three hundred times, with a mark among them', 'calls 9', MARKED, done, MANY_SLICE),
    case('the calls of a recording that is cut off settle nothing', 'calls 9', MANY.spell()[:-1],
         format_at(LENGTH - 1)),
    case('a bad header has no calls', 'calls 7', b'CXR1\1', format_at(5)),
    case('the calls of a process slice', 'calls 7', CALLED, format_at(0)),
    case('the calls of a call slice', 'calls 7', EXAMPLE_SLICE, format_at(0)),
    case('the calls of nothing', 'calls 7', b'', format_at(0)),
])
RELOGS = once(SLICES_BY_CALLS, [
    *(case(f'relog of {name}', 'relog', sliced(observations(data, root)) if process is None else process,
           done, slice_) for name, data, root, slice_, process in BOTH),
    *(case(f'relog of a process slice cut after {length} bytes', 'relog', PROCESS[:length], format_at(length))
      for length in range(len(PROCESS))),
    case('relog of a process slice with a byte behind its end', 'relog', PROCESS + b'\0',
         format_at(len(PROCESS))),
    case('relog of a process slice that breaks', 'relog', CALLED.with_group(1, words={1: 5}), broken(1)),
    case('relog of a process slice that breaks behind its groups', 'relog', CALLED.but(end=5), broken(4)),
    case('a recording is no process slice', 'relog', EXAMPLE, format_at(0)),
    case('a call slice is no process slice', 'relog', EXAMPLE_SLICE, format_at(0)),
    case('an image is no process slice', 'relog', b'CXI1\1\0\0\0', format_at(0)),
    many('relog', stuck(FILLS - 1), broken(3 * (FILLS - 1) + 1), FILLS),
    many('relog', stuck(FILLS - 2), broken(3 * (FILLS - 2) + 1), FILLS - 1),
    many('relog', MANY_PROCESS.spell() + b'\0', format_at(len(MANY_PROCESS.spell())), MANY_TIMES),
])
CASES = MAKES + RELOGS
