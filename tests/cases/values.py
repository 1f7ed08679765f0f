"""Steps that ask for a value of the outside and have none: loads of words of devices, and reads of `time`.

The first such step below the end is named, whichever window is wanted.
"""
from case import case, cut
from recordings import MACHINE, RAM, SUPERVISOR, USER, Recording, State, page, reset
from statuses import broken, format_at, not_there
from today import at_events, without_value

LOAD = Recording(reset(), {0: page('lui t0, 0x10000', 'lw t1, 4(t0)')}, base=7, end=8)
RECORDS = 4336  # where the records stand


def program(*lines, end, **named):
    """A recording of so many steps from reset on, of a program in one page."""
    return Recording(reset(**named), {0: page(*lines)}, end=end)


def asks(name, recording, step):
    return case(f'{name} has no value', 'window 0 1', recording, without_value(step))


# Whether `time` is read in a mode with these registers. Where it isn't, the step traps and asks for nothing.
OPEN = [
    ('user', USER, 0, 0, False),
    ('user', USER, 2, 0, False),
    ('user', USER, 0, 2, False),
    ('user', USER, 5, 5, False),
    ('user', USER, 2, 2, True),
    ('supervisor', SUPERVISOR, 0, 2, False),
    ('supervisor', SUPERVISOR, 2, 0, True),
    ('machine', MACHINE, 0, 0, True),
]


def time_is_read(name, mode, machine, supervisor, is_open):
    start = State(pc=RAM, mode=mode, mcounteren=machine, scounteren=supervisor)
    one = Recording(start, {0: page('rdtime t0')})
    name = f'time in {name} mode with mcounteren {machine} and scounteren {supervisor}'
    return [asks(name, one, 0)] if is_open else cut(f'{name} traps', 'window 0 1', one, one)


CASES = [
    case(f'a device word has no value, for {words}, {what}', words, recording, without_value(8))
    for words in ('window 7 8', 'window 8 9', 'window 7 9', 'window 9 10', 'window 10 11', 'window 0 1', 'window 9 8')
    for what, recording in (
        ('End the last byte', LOAD.but(end=10)),
        ('a byte behind End', LOAD.with_records(b'\0\3\0')),
    )
] + [
    *cut('a load of a device word that is past the end', 'window 7 8', LOAD, LOAD),

    # A record before End, or a bad End, comes before any step that it settles.
    case('Lines that are cut come first', 'window 7 8', LOAD.with_records(b'\2\0'), format_at(RECORDS + 2)),
    case('a Value for the step behind', 'window 7 8', LOAD.with_records(b'\3\2\1\0\0\0\0\1'), at_events(7, broken(8))),
    case('a Value that the step takes', 'window 9 10', LOAD.with_records(b'\3\1\1\0\0\0\0\1'), at_events(7, not_there)),
    case('a bad tag comes first', 'window 7 8', LOAD.with_records(b'\5\0'), format_at(RECORDS)),
    case('an End that is cut comes first', 'window 7 8', LOAD.with_records(b'\0'), format_at(RECORDS + 1)),
    case('an End at base comes first', 'window 7 8', LOAD.with_records(b'\0\0'), format_at(RECORDS + 1)),
    case('an End in a needless byte comes first', 'window 7 8', LOAD.with_records(b'\0\x83\0'), format_at(RECORDS + 1)),
    case('a missing End comes first', 'window 7 8', LOAD.with_records(b''), format_at(RECORDS)),

    asks('rdtime as the only step', program('rdtime t0', end=1), 0),
    asks('rdtimeh as the first step', program('rdtimeh t0', 'nop', 'nop', 'nop', end=4), 0),
    asks('rdtime as the second step', program('nop', 'rdtime t0', 'nop', 'nop', end=2), 1),
    asks('rdtime as the last step', program('nop', 'nop', 'nop', 'rdtime t0', end=4), 3),
    asks('rdtimeh before rdtime', program('nop', 'nop', 'rdtimeh t0', 'rdtime t0', end=4), 2),
    asks('a device word before rdtime', program('lui t0, 0x10000', 'lw t1, 4(t0)', 'rdtime t0', 'nop', end=4), 1),
    asks('rdtime before a device word', program('lui t0, 0x10000', 'rdtime t0', 'lw t1, 4(t0)', 'nop', end=4), 1),
    *cut('rdtime past the end', 'window 0 3', program('nop', 'nop', 'nop', 'rdtime t0', end=3),
         program('nop', 'nop', 'nop', 'rdtime t0', end=3)),
] + [row for it in OPEN for row in time_is_read(*it)] + [
    row
    for line in (
        'sw zero, 4(t0)', 'lw t1, 8(t0)', 'lw t1, 5(t0)', 'lbu t1, 4(t0)', 'lr.w t1, (t0)', 'amoadd.w t1, zero, (t0)',
        'csrrs t1, time, t0', 'rdcycle t1',
    )
    for row in cut(f'{line} with a device word in t0 asks for no value', 'window 0 2',
                   program('lui t0, 0x10000', line, end=2), program('lui t0, 0x10000', line, end=2))
]
