"""`inspect`: the states before steps, and the step or the transfer that was the last to write or to read a byte, or to
trap, below a step. The answers are worked out by hand."""
from case import case
from played import (
    CODE_ENTRY, CODE_PLACE, DATA_ENTRY, DATA_PLACE, HANDLER, PAGES, SPACE, Ram, code, user_code, user_state,
)
from played import ROOT as TABLE
from recordings import MACHINE_TIMER, MIE, MPIE, MPP_MACHINE, PAGE, RAM, Dma, Lines, Recording, Value, page, reset
from recordings.answers import state_line
from statuses import broken, done, format_at, not_there
from today import INSPECTS, once

WORD = RAM + 0x800


def counting(base, steps):
    """A loop of three instructions that counts in x1 and stores it at each round, and ends so many steps later."""
    start = reset(sp=WORD, mcycle=base, minstret=base)
    return Recording(start, {0: page('addi ra, ra, 1', 'sw ra, 0(sp)', 'j -8')}, base=base, end=base + steps).marked()


def state(recording, step):
    """The line of the state before a step of this loop."""
    past = step - recording.base
    return state_line(step, recording.start.after(past, pc=RAM + 4 * (past % 3), ra=(past + 2) // 3))


def last(recording, step, which):
    """The last step below this one at that instruction of the loop, as an answer has it."""
    below = [n for n in range(max(recording.base, step - 3), step) if (n - recording.base) % 3 == which]
    return f'step {below[-1]}' if below else 'none'


def lines(*texts):
    return ''.join(text + '\n' for text in texts).encode()


def all_at(recording, step):
    """A case that asks for all kinds at a step."""
    words = (f'inspect state {step} writer {WORD:#x} {step} reader {RAM:#x} {step} reader {RAM + 7:#x} {step} '
             f'trap {step}')
    return case(f'each query at step {step} of {recording.base} to {recording.end}', words, recording, done, state(
        recording, step) + lines(
            f'writer {WORD:08x} {step} {last(recording, step, 1)}',
            f'reader {RAM:08x} {step} {last(recording, step, 0)}',
            f'reader {RAM + 7:08x} {step} {last(recording, step, 1)}', f'trap {step} none'))


def edges(base, steps, distance, last_checkpoint):
    """Cases at base, at the end, and around the checkpoints, which are so many steps apart."""
    recording, found = counting(base, steps), {base, base + 1, base + 2, base + 3, base + steps - 1, base + steps}
    for number in (1, 2, last_checkpoint):
        found |= {base + number * distance + more for more in (-1, 0, 1)}
    return [all_at(recording, step) for step in sorted(found) if base <= step <= base + steps]


# A byte that is stored to and that a device writes over: before the step, at it, and behind it.
STORED = Recording(reset(ra=5, sp=WORD), {0: page('nop', 'sw ra, 0(sp)', 'nop', 'sw ra, 0(sp)', 'nop', 'j 0')}, end=9,
                   events=(Dma(0, WORD + 1, b'ab'), Dma(2, WORD, b'a'), Dma(2, WORD + 3, b'a'), Dma(3, WORD, b'abcd'),
                           Dma(5, WORD - 2, b'abc'), Dma(6, WORD + 1, b'a')))
WRITERS = [  # an offset in the word, a step, and the answer
    (0, 0, 'none'), (1, 0, 'none'), (1, 1, 'dma 0'), (2, 1, 'dma 0'), (3, 1, 'none'), (0, 2, 'step 1'),
    (1, 2, 'step 1'), (0, 3, 'dma 2'), (1, 3, 'step 1'), (3, 3, 'dma 2'), (0, 4, 'step 3'), (3, 4, 'step 3'),
    (0, 5, 'step 3'),
    (0, 6, 'dma 5'), (1, 6, 'step 3'), (1, 7, 'dma 6'), (0, 9, 'dma 5'), (-1, 9, 'dma 5'), (-3, 9, 'none'),
    (4, 9, 'none'),
]

# What reads and what doesn't: loads of each length, atomic operations, an SC that fails and one that stores.
LOADS = Recording(reset(ra=5, sp=WORD, gp=RAM + PAGE), {0: page(
    'lb t0, 3(sp)', 'lhu t0, 0(sp)', 'lw t0, 0(sp)', 'amoadd.w t1, ra, (gp)', 'sc.w t2, ra, (sp)', 'lr.w t2, (gp)',
    'sc.w t2, ra, (gp)', 'sw ra, 0(sp)', 'lw t0, 1(sp)')}, end=10, ram=2)
READERS = [  # what is asked, a place, a step, and the answer
    ('reader', WORD + 3, 1, 'step 0'), ('reader', WORD + 2, 1, 'none'), ('reader', WORD, 2, 'step 1'),
    ('reader', WORD + 1, 2, 'step 1'), ('reader', WORD + 2, 2, 'none'), ('reader', WORD + 3, 3, 'step 2'),
    ('reader', RAM + PAGE, 4, 'step 3'), ('writer', RAM + PAGE, 4, 'step 3'), ('writer', WORD, 5, 'none'),
    ('reader', WORD, 5, 'step 2'), ('reader', RAM + PAGE + 3, 6, 'step 5'), ('writer', RAM + PAGE + 3, 6, 'step 3'),
    ('writer', RAM + PAGE + 3, 7, 'step 6'), ('reader', RAM + PAGE + 3, 7, 'step 5'), ('writer', WORD + 3, 8, 'step 7'),
    ('reader', WORD, 8, 'step 2'), ('reader', WORD + 1, 9, 'step 2'), ('reader', RAM + 32, 9, 'step 8'),
    ('reader', RAM + 32, 8, 'none'), ('trap', None, 9, 'step 8 trap 4'), ('trap', None, 8, 'none'),
]

# Accesses in two parts, over the end of a page.
END = RAM + PAGE
SPLIT = Recording(reset(ra=5, sp=END), {0: page('sw ra, -1(sp)', 'nop', 'lw t0, -3(sp)', 'nop')}, end=4, ram=2,
                  version=2, split=True)
PARTS = [
    ('writer', END - 1, 4, 'step 0'), ('writer', END, 4, 'step 0'), ('writer', END + 2, 4, 'step 0'),
    ('writer', END + 3, 4, 'none'), ('writer', END - 2, 4, 'none'), ('reader', END - 3, 4, 'step 2'),
    ('reader', END - 1, 4, 'step 2'), ('reader', END, 4, 'step 2'), ('reader', END + 1, 4, 'none'),
    ('reader', END - 4, 4, 'none'), ('reader', END - 1, 2, 'none'),
]


def in_space(words, *lines_, **named):
    """Steps of user mode behind Sv32, with these words of RAM changed."""
    ram = Ram(SPACE | user_code(*lines_) | code('mret', at=HANDLER) | words)
    return Recording(user_state(), ram.pages(range(PAGES)), ram=PAGES, **named)


# The load has its entry before the third step alone: until then it faults. Its bytes are loaded by that step, which
# reads the entries of both tables.
FAULTS = in_space({DATA_ENTRY: 0}, 'lw x5, 0(x0)', end=3, events=(Dma(2, DATA_ENTRY, b'\xdf\x0c\0\x20'),))
WALKS = [
    ('reader', TABLE, 1, 'step 0'), ('reader', TABLE + 3, 3, 'step 2'), ('reader', TABLE, 2, 'step 0'),
    ('reader', TABLE + 4, 3, 'none'), ('reader', DATA_ENTRY + 3, 2, 'step 0'), ('reader', DATA_ENTRY, 3, 'step 2'),
    ('reader', CODE_ENTRY, 3, 'step 2'), ('reader', DATA_PLACE, 2, 'none'), ('reader', DATA_PLACE + 3, 3, 'step 2'),
    ('reader', CODE_PLACE, 2, 'step 0'), ('reader', HANDLER, 3, 'step 1'), ('writer', DATA_ENTRY, 3, 'dma 2'),
    ('writer', DATA_ENTRY, 2, 'none'), ('trap', None, 0, 'none'), ('trap', None, 1, 'step 0 trap 13'),
    ('trap', None, 3, 'step 0 trap 13'),
]

# An interrupt, behind which the handler traps again and again; nothing is fetched by the step that takes it.
TAKEN = Recording(reset(mstatus=MIE, mie=MACHINE_TIMER, mtvec=RAM + 8), {0: page('nop', 'nop', '.word 0')}, end=4,
                  events=(Lines(1, MACHINE_TIMER),))
TRAPS = [
    ('trap', None, 1, 'none'), ('trap', None, 2, 'step 1 interrupt 7'), ('trap', None, 3, 'step 2 trap 2'),
    ('trap', None, 4, 'step 3 trap 2'), ('reader', RAM + 4, 4, 'none'), ('reader', RAM + 8, 4, 'step 3'),
]

# A load of a device's word, and a store to one, are of no byte of RAM.
DEVICES = Recording(reset(sp=0x0200bff8, gp=0x10000000), {0: page('lw t0, 0(sp)', 'sw ra, 0(gp)')}, end=2,
                    events=(Value(0, 7),))


def asked(name, recording, rows):
    """A case for each row, and one that asks all of them."""
    queries, answers = [], []
    for kind, place, step, answer in rows:
        at = [] if place is None else [f'{place:#x}']
        queries.append([kind, *at, str(step)])
        answers.append(' '.join([kind, *([] if place is None else [f'{place:08x}']), str(step), answer]))
    for query, answer in zip(queries, answers):
        yield case(f'{name}: {" ".join(query)}', ['inspect', *query], recording, done, lines(answer))
    yield case(f'{name}: all at once', ['inspect', *sum(queries, [])], recording, done, lines(*answers))


# The state before a step has neither its transfers nor its lines; the line of the step has both.
DUE = Recording(reset(reserved=WORD, mtvec=RAM), {0: page('nop', 'nop', 'nop')}, end=3,
                events=(Dma(1, WORD, b'a'), Lines(1, 0x200)))
STATES = [(0, DUE.start), (1, DUE.start.after(1, pc=RAM + 4)),
          (2, DUE.start.after(2, pc=RAM + 8, reserved=None, lines=0x200)),
          (3, DUE.start.after(3, pc=RAM + 12, reserved=None, lines=0x200))]
BEHIND = TAKEN.start.after(2, retired=1, pc=RAM + 8, mstatus=MPIE | MPP_MACHINE, mepc=RAM + 4, mcause=1 << 31 | 7,
                           lines=MACHINE_TIMER)

SMALL = counting(7, 100)
# Words that ask for what isn't there: the first of them, among others, and the last.
MISSING = [
    'state 108', 'state 6', 'state 0', 'state 18446744073709551615', 'writer 0x80000000 108', 'reader 0x80000000 6',
    'trap 108', 'trap 6', 'writer 0x7fffffff 50', 'writer 0x80001000 50', 'reader 0 50', 'reader 0xffffffff 50',
    'writer 0x10000000 50', 'reader 0x02000000 50', 'state 50 state 108', 'state 108 state 50',
    'trap 50 writer 0x80001000 50 state 50', 'state 50 trap 50 reader 0x80000000 200',
]

CASES = once(INSPECTS, [
    # Checkpoints are 1,024 steps apart, or twice that from 65,536 steps on, and so on.
    *edges(7, 3000, 1024, 2), *edges(100, 65535, 1024, 63), *edges(65530, 65536, 2048, 31), *edges(0, 131072, 4096, 31),
    *asked('stores and transfers', STORED, [('writer', WORD + at, step, answer) for at, step, answer in WRITERS]),
    *asked('loads, stores and atomic operations', LOADS, READERS),
    *asked('accesses in two parts', SPLIT, PARTS),
    *asked('walks of page tables', FAULTS, WALKS),
    *asked('interrupts and traps', TAKEN, TRAPS),
    *(case(f'the state before step {step}, with transfers and lines', f'inspect state {step}', DUE, done,
           state_line(step, start)) for step, start in STATES),
    case('the state behind an interrupt', 'inspect state 2', TAKEN, done, state_line(2, BEHIND)),
    case('a word of a device is no byte of RAM', f'inspect reader {RAM:#x} 2 writer {RAM:#x} 2', DEVICES, done,
         lines(f'reader {RAM:08x} 2 step 0', f'writer {RAM:08x} 2 none')),
    case('one query many times', ['inspect', *['state', '50'] * 40], SMALL, done, state(SMALL, 50) * 40),
    case('queries in another order than that of the steps', 'inspect state 107 state 7 state 50 state 107', SMALL, done,
         state(SMALL, 107) + state(SMALL, 7) + state(SMALL, 50) + state(SMALL, 107)),
    case('the last byte of RAM', f'inspect writer {RAM + PAGE - 1:#x} 0x6b', SMALL, done,
         lines(f'writer {RAM + PAGE - 1:08x} 107 none')),
    *(case(f'what is not there: {words}', f'inspect {words}', SMALL, not_there) for words in MISSING),
    case('a bad field comes before a step that is not there', 'inspect state 1000', SMALL.spell()[:-1],
         format_at(len(SMALL.spell()) - 1)),
    case('a bad field comes before the answer', 'inspect state 7', SMALL.spell() + b'\0',
         format_at(len(SMALL.spell()))),
    case('a step that is broken comes before one that is not there', 'inspect state 1000 state 7',
         SMALL.but(events=(Value(60, 7),)), broken(60)),
    case('a step that is broken comes before the answer', 'inspect state 7', SMALL.but(events=(Value(60, 7),)),
         broken(60)),
    case('a bad header has no states', 'inspect state 0', b'CXR1\1', format_at(5)),
    case('a slice has no states', 'inspect state 0', b'CXP1\1', format_at(0)),
    case('a window has the states of its steps', 'inspect state 1 state 2', DUE.but(
        start=STATES[1][1], base=1), done, state_line(1, STATES[1][1]) + state_line(2, STATES[2][1])),
])
