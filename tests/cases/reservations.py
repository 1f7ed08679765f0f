"""Reservations: LR, what drops them, and SC (Unprivileged ISA, 8.2)."""
from played import (
    CODE, DATA, DATA_PLACE, HANDLER, SPACE, TO_DATA, Turn, bytes_of, code, played, retired, touch, user_code,
    user_state,
)
from recordings import MACHINE, USER

RESERVE, CONDITIONAL, LOAD = 'lr.w x5, (x2)', 'sc.w x6, x1, (x2)', 'lw x7, 0(x2)'
START = user_state(x1=5, mie=0x80)
FIRST = 0x44332211


def words(*lines):
    return SPACE | user_code(*lines) | code('mret', at=HANDLER)


def reserves():
    """The LR of the data's first word."""
    return retired({'x5': FIRST, 'reserved': DATA_PLACE}, entries=TO_DATA,
                   read=(touch(DATA_PLACE, bytes_of(FIRST), DATA),))


def stores(**parts):
    """The SC, where the reservation is kept."""
    return retired({'x6': 0, 'reserved': None}, entries=TO_DATA, write=(touch(DATA_PLACE, bytes_of(5), DATA),), **parts)


def fails(**parts):
    """The SC, where it isn't: nothing is written."""
    return retired({'x6': 1, 'reserved': None}, entries=TO_DATA, **parts)


def loads(value, place=DATA_PLACE, address=DATA):
    """The word that stands there then."""
    return retired({'x7': value}, entries=TO_DATA, read=(touch(place, bytes_of(value), address),))


INTERRUPTED = [
    reserves(),
    Turn('interrupt 7', {'pc': HANDLER, 'mode': MACHINE, 'mepc': CODE + 4, 'mcause': 0x80000007, 'reserved': None},
         fetches=False, lines=0x80),
    retired({'pc': CODE + 4, 'mode': USER, 'mstatus': 0x80}, lines=0),
    fails(),
    loads(FIRST),
]

# Bytes of a device that miss the reserved word.
BESIDE = [
    ('in front of it', -1, b'\x09'),
    ('up to it', -4, b'\x09' * 4),
    ('behind it', 4, b'\x09' * 2),
]

# Bytes of a device on the reserved word, and the word behind them.
OVER = [
    ('its first byte', 0, b'\x09', 0x44332209),
    ('its last byte', 3, b'\x09' * 2, 0x09332211),
    ('its first byte from in front of it', -4, b'\x09' * 5, 0x44332209),
    ('all of it', -2, b'\x09' * 8, 0x09090909),
]


def beside(name, offset, data):
    return played(f'bytes of a device {name} keep the reservation', START, words(RESERVE, CONDITIONAL, LOAD),
                  [reserves(), stores(dma=((DATA_PLACE + offset, data),)), loads(5)])


def over(name, offset, data, word):
    return played(f'bytes of a device on {name} drop the reservation', START, words(RESERVE, CONDITIONAL, LOAD),
                  [reserves(), fails(dma=((DATA_PLACE + offset, data),), drops=True), loads(word)])


CASES = [
    *played('an interrupt drops the reservation', START, words(RESERVE, CONDITIONAL, LOAD), INTERRUPTED),
    *played('a kept reservation lets the word be stored', START, words(RESERVE, CONDITIONAL, LOAD),
            [reserves(), stores(), loads(5)]),
    *played('a reservation is of its word alone', START, words(RESERVE, 'addi x2, x2, 4', CONDITIONAL, LOAD),
            [reserves(), retired({'x2': 4}), fails(), loads(0, DATA_PLACE + 4, DATA + 4)]),
] + [row for it in BESIDE for row in beside(*it)] + [row for it in OVER for row in over(*it)]
