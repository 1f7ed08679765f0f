"""`trace window`: the lines of the steps of a window, as `trace all` has them, and nothing before all was judged."""
from case import case
from cases.step_lines import (
    ASKED, FIRST, FIVE, MOVED, PROGRAM, SECOND, THIRD, WORDS, line, loop_lines, looped, touch,
)
from cases.two_steps import LAST, second_step, two_steps
from recordings import MARK_EVERY, RAM, Value
from recordings.assembler import assemble
from statuses import broken, done, format_at, not_there

ADDED = line(0, FIRST, WORDS[0])
STORED = line(1, SECOND, WORDS[1], write=touch(RAM + 256, FIVE))
LOADED = line(2, THIRD, WORDS[2], read=touch(RAM + 256, FIVE))
ADDITION, JUMP = assemble('addi ra, zero, 5', 'j 0')
BOTH = two_steps()
ALONE = second_step()
LONG = looped(2 * MARK_EVERY + 2).marked()


def loop_line(step):
    return line(step, LONG.start.after(step, pc=RAM), JUMP)


CASES = [
    case('the first of three steps', 'trace window 0 1', PROGRAM, done, ADDED),
    case('the step in the middle', 'trace window 1 2', PROGRAM, done, STORED),
    case('the last step loads what one before the window stored', 'trace window 2 3', PROGRAM, done, LOADED),
    case('two steps up to the end', 'trace window 0x1 3', PROGRAM, done, STORED + LOADED),
    case('all steps', 'trace window 0 0x3', PROGRAM, done, ADDED + STORED + LOADED),
    case('what a device writes before the first step', 'trace window 2 3', MOVED, done,
         line(2, THIRD.but(lines=128), WORDS[2], read=touch(RAM + 256, b'\x07\0\0\0'))),
    case('what a device writes behind the window', 'trace window 1 2', MOVED, done, STORED),
    case('the value that the first step asks for', 'trace window 0 1', ASKED, done,
         line(0, ASKED.start, assemble('rdtime a0')[0], value='00000007')),
    case('the value that a step before the window asked for', 'trace window 1 2', ASKED, done,
         line(1, ASKED.start.after(1, pc=RAM + 4, a0=7), JUMP)),
    case('many steps between two records', 'trace window 40 90', looped(100), done,
         b''.join(loop_lines(100).splitlines(keepends=True)[40:90])),
    case('a window from a mark to the step behind the next', f'trace window {MARK_EVERY} {MARK_EVERY + 2}', LONG, done,
         loop_line(MARK_EVERY) + loop_line(MARK_EVERY + 1)),
    case('a window about a mark', f'trace window {2 * MARK_EVERY - 1} {2 * MARK_EVERY + 2}', LONG, done,
         b''.join(loop_line(step) for step in range(2 * MARK_EVERY - 1, 2 * MARK_EVERY + 2))),
    case('a recording that begins at a later step', 'trace window 1 2', ALONE, done, line(1, ALONE.start, JUMP)),
    case('the last step that there can be', 'trace window 281474976710655 0x1000000000000', LAST, done,
         line((1 << 48) - 1, LAST.start, ADDITION)),
    case('a recording of version 2', 'trace window 0 1', PROGRAM.but(version=2), done, ADDED),
    case('a window past the end', 'trace window 0 3', BOTH, not_there),
    case('a window that ends before it begins', 'trace window 1 0', BOTH, not_there),
    case('a window of no step', 'trace window 1 1', BOTH, not_there),
    case('a window from below base', 'trace window 0 2', ALONE, not_there),
    case('a window of the largest numbers', 'trace window 0xffffffffffffffff 18446744073709551615', BOTH, not_there),
    case('a byte behind the end comes before the lines', 'trace window 0 100', looped(100).spell() + b'\0',
         format_at(len(looped(100).spell()))),
    case('a record that is cut off', 'trace window 0 100', looped(100).spell()[:-1],
         format_at(len(looped(100).spell()) - 1)),
    case('a step that is broken behind the window', 'trace window 0 40', looped(100).but(events=(Value(50, 7),)),
         broken(50)),
    case('a bad place comes before a window that is not there', 'trace window 0 1000',
         looped(100).but(events=(Value(50, 7),)), broken(50)),
    case('a bad header', 'trace window 0 1', b'CXR1\1', format_at(5)),
    case('the magic of a slice', 'trace window 0 1', b'CXP1\1', format_at(0)),
    case('no input', 'trace window 0 1', b'', format_at(0)),
]
