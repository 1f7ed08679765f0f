"""Steps by a table: what comes to each, how it ends, what it reads and writes, and what it changes.

`played` makes the cases that show such steps: one of `trace all`, which tells each step and the state before it, and
for each step one of `window`, which has the state and the pages that the step reads as they stand before it. A step
behind the last shows what the last has left: it fetches the word 0, which is no instruction.
"""
from dataclasses import dataclass, field

from case import case
from recordings import MACHINE, PAGE, RAM, USER, Dma, Lines, Recording, State, Value, assemble
from statuses import broken, done

PAGES = 5
HANDLER = RAM + 0x4000

# A space of user mode: its tables stand in the first two pages, its data at address 0 in the fourth page, and its code
# at 0x1000 in the third.
DATA, CODE = 0, 0x1000
DATA_PLACE, CODE_PLACE = RAM + 0x3000, RAM + 0x2000
ROOT, DATA_ENTRY, CODE_ENTRY = RAM, RAM + 0x1000, RAM + 0x1004
READABLE = 0x20000cdf
SPACE = {ROOT: 0x20000401, DATA_ENTRY: READABLE, CODE_ENTRY: 0x200008df, DATA_PLACE: 0x44332211}

TO_CODE = (ROOT, CODE_ENTRY)
TO_DATA = (ROOT, DATA_ENTRY)


@dataclass(frozen=True)
class Turn:
    """A step. Its changes are those of the state but for the counters and the pc that follows."""
    ended: str = 'retired'
    changes: dict = field(default_factory=dict)
    fetches: bool = True
    entries: tuple = ()  # the places of the entries of page tables that are read behind the fetch
    read: tuple = ()  # stretches of bytes, each an address, a place, and the bytes
    write: tuple = ()
    dma: tuple = ()  # what devices write before it, each a place and the bytes
    drops: bool = False  # what they write drops the reservation
    lines: int = None
    value: int = None


def retired(changes=None, **parts):
    return Turn('retired', changes or {}, **parts)


def trapped(cause, changes, **parts):
    """A trap of such a cause to the handler in machine mode."""
    return Turn(f'trap {cause}', {'pc': HANDLER, 'mode': MACHINE, 'mcause': cause} | changes, **parts)


def bytes_of(value, count=4):
    return value.to_bytes(count, 'little')


def touch(place, data, address=None):
    """A stretch of bytes; an address of its own has one that is translated."""
    return (place if address is None else address, place, data)


def machine_state(**named):
    """Machine mode at the start of RAM."""
    return State(pc=RAM, mode=MACHINE, mtvec=HANDLER).but(**named)


def user_state(**named):
    """User mode at the start of the space's code."""
    return State(pc=CODE, mode=USER, mtvec=HANDLER, satp=0x80080000).but(**named)


def code(*lines, at=RAM):
    """Instructions one behind the other."""
    return {at + 4 * index: line for index, line in enumerate(assemble(*lines))}


def user_code(*lines):
    return code(*lines, at=CODE_PLACE)


class Ram:
    """The bytes of the pages of RAM."""

    def __init__(self, words):
        self.bytes = bytearray(PAGES * PAGE)
        for place, value in words.items():
            self.put(place, bytes_of(value))

    def put(self, place, data):
        if place >= RAM:
            self.bytes[place - RAM:place - RAM + len(data)] = data

    def word(self, place):
        return int.from_bytes(self.bytes[place - RAM:place - RAM + 4], 'little')

    def pages(self, numbers):
        """Those of these pages that aren't all 0."""
        whole = {number: bytes(self.bytes[number * PAGE:(number + 1) * PAGE]) for number in numbers}
        return {number: page for number, page in whole.items() if any(page)}


def fetch_of(state):
    """The address and the place of the word that is fetched next, and the entries that are read for it."""
    if state['mode'] == MACHINE or not state['satp']:
        return state['pc'], state['pc'], ()
    return state['pc'], state['pc'] - CODE + CODE_PLACE, TO_CODE


def spell(touches):
    return ','.join(f'{address:08x}:{place:08x}:{data.hex()}' for address, place, data in touches) or '-'


def line_of(step, turn, state, ram):
    """What `trace all` tells of a step from this state."""
    words = ' '.join(f'{value:08x}' for value in state.values)
    address, place, _ = fetch_of(state)
    fetch = f'{address:08x}:{place:08x}:{ram.word(place):08x}' if turn.fetches else '-'
    value = '-' if turn.value is None else f'{turn.value:08x}'
    return (f'step {step} {turn.ended} state {words} fetch {fetch} '
            f'read {spell(turn.read)} write {spell(turn.write)} value {value}\n').encode()


def events_of(step, turn):
    events = [Dma(step, place, data) for place, data in turn.dma]
    events += [] if turn.lines is None else [Lines(step, turn.lines)]
    return events + ([] if turn.value is None else [Value(step, turn.value)])


def pages_of(turn, state):
    """The numbers of the pages of RAM that a step reads."""
    _, place, walked = fetch_of(state)
    places = [*walked, place] if turn.fetches else []
    places += turn.entries
    places += [at for _, begin, data in turn.read for at in (begin, begin + len(data) - 1)]
    return {(at - RAM) // PAGE for at in places if at >= RAM}


def behind(turn, state):
    """The state behind a step."""
    if turn.ended == 'retired':
        return state.after(1, pc=state['pc'] + 4).but(**turn.changes)
    return state.after(1, retired=0).but(**turn.changes)


class Play:
    """A recording as it is played, with the lines and the windows of the steps so far."""

    def __init__(self, state, words, split):
        self.state, self.ram, self.split = state, Ram(words), split
        self.first = self.recording(state, self.ram.pages(range(PAGES)), 0)
        self.lines, self.windows, self.events = b'', [], []

    def recording(self, state, memory, base):
        return Recording(state, memory, base=base, ram=PAGES, split=self.split, version=2 if self.split else 1)

    def turn(self, step, turn):
        events = events_of(step, turn)
        window = self.recording(self.state, self.ram.pages(pages_of(turn, self.state)), step)
        self.windows.append(window.but(end=step + 1, events=tuple(events)))
        self.events += events
        for place, data in turn.dma:
            self.ram.put(place, data)
        state = self.state.but(reserved=None) if turn.drops else self.state
        state = state if turn.lines is None else state.but(lines=turn.lines)
        self.lines += line_of(step, turn, state, self.ram)
        for _, place, data in turn.write:
            self.ram.put(place, data)
        self.state = behind(turn, state)

    def whole(self):
        return self.first.but(end=len(self.windows), events=tuple(self.events))


def played(name, state, words, turns, split=False):
    """The cases of some steps from a state on, with these words in RAM."""
    play = Play(state, words, split)
    for step, turn in enumerate([*turns, Turn('trap 2')]):
        play.turn(step, turn)
    whole = play.whole()
    return [case(f'{name}: the lines', 'trace all', whole, done, play.lines)] + [
        case(f'{name}: what step {step} reads', f'window {step} {step + 1}', whole, done, window)
        for step, window in enumerate(play.windows)
    ]


def left(name, state, words, turns, split=False):
    """A case of steps whose last takes no value and is handed one, or takes one and is handed none."""
    play = Play(state, words, split)
    for step, turn in enumerate(turns):
        play.turn(step, turn)
    return case(name, 'trace all', play.whole(), broken(len(turns) - 1))
