"""A recording of two instructions: the windows that it has, and those that it doesn't have."""
from case import case, cut
from recordings import MACHINE, RAM, SUPERVISOR, USER, Recording, State, page
from statuses import done, not_there

CODE = page('addi ra, zero, 5', 'j 0')
MODES = {'machine': MACHINE, 'supervisor': SUPERVISOR, 'user': USER}


def two_steps(mode=MACHINE):
    """A jump to itself behind an addition."""
    return Recording(State(pc=RAM, mode=mode), {0: CODE}, end=2)


def second_step(mode=MACHINE):
    """The second step alone."""
    both = two_steps(mode)
    return both.but(start=both.start.after(1, pc=RAM + 4, ra=5), base=1)


BOTH = two_steps()
# The last step that there can be. Its number takes seven bytes.
LAST = BOTH.but(base=(1 << 48) - 1, end=1 << 48)

CASES = [
    row
    for name, mode in MODES.items()
    for row in (
        *cut(f'the first of two steps in {name} mode', 'window 0 1', two_steps(mode), two_steps(mode).but(end=1)),
        *cut(f'both steps in {name} mode', 'window 0 2', two_steps(mode), two_steps(mode)),
        *cut(f'the second step in {name} mode', 'window 0x1 2', two_steps(mode), second_step(mode)),
    )
] + [
    case('the last step that there can be', 'window 281474976710655 0x1000000000000', LAST, done, LAST),
    case('a window past the end', 'window 0 3', BOTH, not_there),
    case('a window that ends before it begins', 'window 1 0', BOTH, not_there),
    case('a window of no step', 'window 2 2', BOTH, not_there),
    case('a window of no step within the recording', 'window 1 1', BOTH, not_there),
    case('a window from below base', 'window 0 2', second_step(), not_there),
    case('a window of the largest numbers', 'window 0xffffffffffffffff 18446744073709551615', BOTH, not_there),
]
