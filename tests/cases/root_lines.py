"""`trace root` and `roots`: what a program shows, as its steps are settled, and the roots that occur."""
from case import case
from cases.step_lines import BLOCK, looped
from recordings import MACHINE, RAM, Recording, State, page
from recordings.assembler import assemble
from recordings.recording import PAGE, Value
from recordings.registers import USER
from statuses import broken, done, format_at, not_there


def observed(index, state, word, read='-', value='-', write='-'):
    """The line of an observation: pc and x1 to x31 before the step, and what it took and left."""
    words = ' '.join(f'{number:08x}' for number in state.values[:32])
    return f'obs {index} regs {words} word {word:08x} read {read} value {value} write {write}\n'.encode()


def root(number, steps, first):
    return f'root {number:08x} steps {steps} first {first}\n'.encode()


def looping(steps):
    """So many steps of a jump to itself in user mode."""
    return Recording(State(pc=RAM, mode=USER, satp=7), {0: page('j 0')}, end=steps)


def loop_observed(steps):
    return b''.join(observed(n, looping(1).start, assemble('j 0')[0]) for n in range(steps))


# A program that computes, stores, loads and calls, without translation. Behind the call the machine goes on.
CODE = ('addi ra, zero, 5', 'sw ra, 256(gp)', 'lw sp, 256(gp)', 'ecall')
WORDS = assemble(*CODE)
PROGRAM = Recording(State(pc=RAM, mode=USER, satp=0x7fff0007, gp=RAM, mtvec=RAM + PAGE),
                    {0: page(*CODE), 1: page('j 0')}, base=40, end=46, ram=2)
FIRST = PROGRAM.start
SECOND = FIRST.but(pc=RAM + 4, ra=5)
THIRD = SECOND.but(pc=RAM + 8)
FOURTH = THIRD.but(pc=RAM + 12, sp=5)
SHOWN = (observed(0, FIRST, WORDS[0]) + observed(1, SECOND, WORDS[1], write=f'{RAM + 256:08x}:05000000')
         + observed(2, THIRD, WORDS[2], read=f'{RAM + 256:08x}:05000000') + observed(3, FOURTH, WORDS[3]))

# Each call is answered by another root, and comes again under it: under 7, under 3, and under 7 again.
SWITCHED = Recording(State(pc=RAM, mode=USER, satp=7, a0=3, a1=7, mtvec=RAM + PAGE), {
    0: page('ecall'), 1: page('csrrw a1, satp, a0', 'addi a0, a1, 0', 'mret')}, end=12, ram=2)

# An instruction that user mode may not carry out shows nothing.
FAULTED = Recording(State(pc=RAM, mode=USER, satp=7, mtvec=RAM + PAGE), {0: page('mret'), 1: page('j 0')}, end=3, ram=2)

# A counter is told as a value.
COUNTED = Recording(State(pc=RAM, mode=USER, satp=7, mcounteren=7, scounteren=7, mcycle=9), {
    0: page('rdcycle a0')}, end=1)

BROKEN = looping(100).but(events=(Value(50, 7),))
LOOPED = loop_observed(50)

CASES = [
    case('a program that computes, stores, loads and calls', 'trace root 0x7fff0007', PROGRAM, done, SHOWN),
    case('its root', 'roots', PROGRAM, done, root(0x7fff0007, 4, 40)),
    case('the observations of another root', 'trace root 7', PROGRAM, not_there),
    case('a root with other bits behind', 'trace root 0x7fff0006', PROGRAM, not_there),
    case('the value of a counter', 'trace root 7', COUNTED, done,
         observed(0, COUNTED.start, assemble('rdcycle a0')[0], value='00000009')),
    case('steps of the machine have no root', 'roots', looped(5), done, b''),
    case('steps of the machine show nothing', 'trace root 0', looped(5), not_there),
    case('a fault has no root', 'roots', FAULTED, done, b''),
    case('a fault shows nothing', 'trace root 7', FAULTED, not_there),
    case('roots in the order in which they were first seen', 'roots', SWITCHED, done, root(7, 2, 0) + root(3, 1, 4)),
    case('a hundred observations', 'trace root 7', looping(100), done, loop_observed(100)),
    case('a hundred steps of one root', 'roots', looping(100), done, root(7, 100, 0)),
    case('a step that is broken comes behind the whole blocks of what was shown', 'trace root 7', BROKEN, broken(50),
         LOOPED[:len(LOOPED) // BLOCK * BLOCK]),
    case('a step that is broken leaves no root', 'roots', BROKEN, broken(50)),
    case('a step that is broken comes before a root that is missing', 'trace root 8', BROKEN, broken(50)),
    case('a byte behind the end comes behind the whole blocks', 'trace root 7', looping(100).spell() + b'\0',
         format_at(len(looping(100).spell())), loop_observed(100)[:len(loop_observed(100)) // BLOCK * BLOCK]),
    case('a byte behind the end leaves no root', 'roots', looping(100).spell() + b'\0',
         format_at(len(looping(100).spell()))),
    case('a bad header has no root', 'roots', b'CXR1\1', format_at(5)),
    case('a bad header shows nothing', 'trace root 7', b'CXR1\1', format_at(5)),
    case('a slice has no roots', 'roots', b'CXP1\1', format_at(0)),
]
