"""`trace all` and `replay`: a line for each step, as the steps are settled, and what is written before a refusal."""
from case import case
from recordings import MACHINE, RAM, Recording, State, page
from recordings.assembler import assemble
from recordings.recording import Dma, Lines, Value
from statuses import broken, done, format_at, not_built
from today import SLICES_BY_CALLS

BLOCK = 4096


def touch(place, data):
    """Bytes that were read or written, untranslated."""
    return f'{place:08x}:{place:08x}:{data.hex()}'


def line(step, state, word, ended='retired', read='-', write='-', value='-'):
    """The line of a step that fetched this word, untranslated."""
    words = ' '.join(f'{value:08x}' for value in state.values)
    pc = state['pc']
    return (f'step {step} {ended} state {words} fetch {pc:08x}:{pc:08x}:{word:08x} '
            f'read {read} write {write} value {value}\n').encode()


def looped(steps):
    """So many steps of a jump to itself."""
    return Recording(State(pc=RAM, mode=MACHINE), {0: page('j 0')}, end=steps)


def loop_lines(steps):
    start = looped(steps).start
    return b''.join(line(n, start.after(n, pc=RAM), assemble('j 0')[0]) for n in range(steps))


CODE = ('addi ra, zero, 5', 'sw ra, 256(gp)', 'lw sp, 256(gp)', 'j 0')
WORDS = assemble(*CODE)
PROGRAM = Recording(State(pc=RAM, mode=MACHINE, gp=RAM), {0: page(*CODE)}, end=3)
FIVE = (5).to_bytes(4, 'little')
FIRST = PROGRAM.start
SECOND = FIRST.after(1, pc=RAM + 4, ra=5)
THIRD = SECOND.after(1, pc=RAM + 8)

# A device writes behind the store, and the timer's line comes up with it.
MOVED = PROGRAM.but(events=(Dma(2, RAM + 256, b'\x07'), Lines(2, 128)))
ASKED = Recording(State(pc=RAM, mode=MACHINE), {0: page('rdtime a0', 'j 0')}, end=2, events=(Value(0, 7),))

CASES = [
    case('a step that computes, one that stores, and one that loads', 'trace all', PROGRAM, done,
         line(0, FIRST, WORDS[0]) + line(1, SECOND, WORDS[1], write=touch(RAM + 256, FIVE))
         + line(2, THIRD, WORDS[2], read=touch(RAM + 256, FIVE))),
    case('what a device writes is loaded, and lines stand in the state', 'trace all', MOVED, done,
         line(0, FIRST, WORDS[0]) + line(1, SECOND, WORDS[1], write=touch(RAM + 256, FIVE))
         + line(2, THIRD.but(lines=128), WORDS[2], read=touch(RAM + 256, b'\x07\0\0\0'))),
    case('the value that a step asks for', 'trace all', ASKED, done,
         line(0, ASKED.start, assemble('rdtime a0')[0], value='00000007')
         + line(1, ASKED.start.after(1, pc=RAM + 4, a0=7), assemble('j 0')[0])),
    case('a hundred steps', 'trace all', looped(100), done, loop_lines(100)),
    case('a byte behind the end comes behind the whole blocks of all lines', 'trace all', looped(100).spell() + b'\0',
         format_at(len(looped(100).spell())), loop_lines(100)[:len(loop_lines(100)) // BLOCK * BLOCK]),
    case('a record that is cut off settles nothing', 'trace all', looped(100).spell()[:-1],
         format_at(len(looped(100).spell()) - 1)),
    case('a step that is broken comes behind the whole blocks of those before it', 'trace all',
         looped(100).but(events=(Value(50, 7),)), broken(50), loop_lines(50)[:len(loop_lines(50)) // BLOCK * BLOCK]),
    case('a bad header has no lines', 'trace all', b'CXR1\1', format_at(5)),
    case('a hundred steps are replayed', 'replay', looped(100), done, loop_lines(100)),
    case('a value that is asked for is replayed', 'replay', ASKED, done,
         line(0, ASKED.start, assemble('rdtime a0')[0], value='00000007')
         + line(1, ASKED.start.after(1, pc=RAM + 4, a0=7), assemble('j 0')[0])),
    case('a replay that is broken comes behind the whole blocks', 'replay', looped(100).but(events=(Value(50, 7),)),
         broken(50), loop_lines(50)[:len(loop_lines(50)) // BLOCK * BLOCK]),
    case('the magic of a call slice, with more behind it', 'replay', b'CXC1\1\0\0\0',
         format_at(8) if SLICES_BY_CALLS else not_built(0)),
    case('a slice that is traced', 'trace all', b'CXP1\1', format_at(0)),
    case('a magic of nothing', 'replay', b'CXS1', format_at(0)),
    case('a magic that is cut off', 'replay', b'CXP', format_at(3)),
    case('no input', 'replay', b'', format_at(0)),
]
