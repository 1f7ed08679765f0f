"""Values of the outside: the time, and words of devices."""
from played import (
    CODE, HANDLER, SPACE, Turn, code, left, machine_state, played, retired, touch, trapped, user_code, user_state,
)
from recordings import MACHINE, MPP_MACHINE

TIMES = ['rdtime x5', 'rdtimeh x5']
WORDS = {'rdtime x5': 0xc01022f3, 'rdtimeh x5': 0xc81022f3}
OPEN = user_state(mcounteren=2, scounteren=2)


def time_taken(line):
    return played(f'{line} takes its value', OPEN, SPACE | user_code(line),
                  [retired({'x5': 0x12345678}, lines=0x80, value=0x12345678)])


def time_closed(line):
    """Where user mode has no time the read traps, and leaves a value."""
    return [
        *played(f'{line} without leave', user_state(), SPACE | user_code(line),
                [trapped(2, {'mepc': CODE, 'mtval': WORDS[line]})]),
        left(f'{line} without leave leaves a value', user_state(), SPACE | user_code(line),
             [trapped(2, {}, value=0x12345678)]),
    ]


DEVICE = code('lui x5, 0x10000', 'lw x6, 4(x5)')
PLACE = 0x10000004
HIGH = retired({'x5': 0x10000000})
STATE = machine_state(x5=0x10000000, x6=0x0a0b0c0d)
STORE = code('sw x6, 4(x5)')
STORED = retired(write=(touch(PLACE, b'\x0d\x0c\x0b\x0a'),))

# User mode with the timer's interrupt enabled, at a read of the time; the handler is the word 0.
TIMER = user_state(mie=0x80, mcounteren=2, scounteren=2)
READ = SPACE | user_code('rdtime x5')
TAKEN = Turn('interrupt 7', {'pc': HANDLER, 'mode': MACHINE, 'mepc': CODE, 'mcause': 0x80000007}, fetches=False,
             lines=0x80)

CASES = [row for line in TIMES for row in (*time_taken(line), *time_closed(line))] + [
    *played('the word of a device', machine_state(), DEVICE,
            [HIGH, retired({'x6': 0x0201}, read=(touch(PLACE, b'\x01\x02\0\0'),), lines=0x880, value=0x0201)]),
    left('an instruction that asks for nothing leaves a value', machine_state(), DEVICE,
         [retired(lines=0x800, value=7)]),
    left('the word of a device without a value', machine_state(), DEVICE, [HIGH, retired(lines=0x880)]),
    *played('a store to a device', STATE, STORE, [STORED], split=True),
    left('a store to a device leaves a value', STATE, STORE, [retired(value=7)], split=True),
    *played('an interrupt comes before a read of the time', TIMER, READ, [TAKEN, trapped(
        2, {'mstatus': MPP_MACHINE, 'mepc': HANDLER})]),
    left('an interrupt leaves a value', TIMER, READ, [Turn('interrupt 7', {}, lines=0x80, value=1)]),
    left('a trap leaves a value', TIMER, READ, [TAKEN, trapped(2, {}, value=1)]),
]
