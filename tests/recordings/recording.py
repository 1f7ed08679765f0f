"""A recording as people read it, and its bytes. docs/FORMATS.md is the layout that is spelled here.

    start = State(pc=RAM, mode=MACHINE, ra=5)
    Recording(start, {0: page('addi ra, ra, 1', 'j 0')}, end=2).spell()
"""
from dataclasses import dataclass, field, replace

from .assembler import assemble
from .fields import varint, word, words
from .registers import MACHINE, STATE, WORD

RAM = 0x80000000
PAGE = 4096
MARK_EVERY = 65536
WIDE = {'mcycle': ('mcycle', 'mcycleh'), 'minstret': ('minstret', 'minstreth')}


class State:
    """The hart between two steps. What isn't named is 0; the counters have 64 bits, `reserved` is a place or None."""

    def __init__(self, **named):
        self.values = [0] * len(STATE)
        self._set(named)

    def _set(self, named):
        for name, value in named.items():
            if name == 'reserved':
                self.values[WORD['reserved']] = int(value is not None)
                self.values[WORD['place']] = value or 0
            elif name in WIDE:
                low, high = WIDE[name]
                self.values[WORD[low]] = value % (1 << 32)
                self.values[WORD[high]] = (value >> 32) % (1 << 32)
            else:
                self.values[WORD[name]] = value % (1 << 32)

    def __getitem__(self, name):
        if name == 'reserved':
            return self.values[WORD['place']] if self.values[WORD['reserved']] else None
        if name in WIDE:
            low, high = (self.values[WORD[part]] for part in WIDE[name])
            return low | high << 32
        return self.values[WORD[name]]

    def but(self, **named):
        """This state with those that are named changed."""
        changed = State()
        changed.values = list(self.values)
        changed._set(named)
        return changed

    def after(self, steps=1, retired=None, **named):
        """The state so many steps later, of which so many retired (all, where it isn't said), with changes by name."""
        retired = steps if retired is None else retired
        counted = self.but(mcycle=self['mcycle'] + steps, minstret=self['minstret'] + retired)
        return counted.but(**named)

    def spell(self):
        return words(*self.values)


def reset(**named):
    """The state from which a machine starts, machine mode at the first place of RAM, with changes by name."""
    return State(pc=RAM, mode=MACHINE).but(**named)


def page(*lines, at=0):
    """The content of a page: instructions and words from an offset on, and 0 around them."""
    return (bytes(at) + words(*assemble(*lines))).ljust(PAGE, b'\0')


def spell_pages(memory):
    """How many pages there are, and each with its number; they rise."""
    return varint(len(memory)) + b''.join(varint(number) + memory[number] for number in sorted(memory))


@dataclass(frozen=True)
class Dma:
    """A device writes bytes to RAM before the step."""
    step: int
    place: int
    bytes: bytes
    tag, rank = 1, 1

    def payload(self):
        return word(self.place) + varint(len(self.bytes)) + self.bytes


@dataclass(frozen=True)
class Lines:
    """The interrupt lines become this mask before the step."""
    step: int
    mask: int
    tag, rank = 2, 2

    def payload(self):
        return word(self.mask)


@dataclass(frozen=True)
class Value:
    """What the outside answers to the step, which loads a word of a device or reads `time`."""
    step: int
    value: int
    tag, rank = 3, 3

    def payload(self):
        return word(self.value)


@dataclass(frozen=True)
class Mark:
    """A place where a damaged recording can be cut."""
    step: int
    tag, rank = 4, 0

    def payload(self):
        return b''


@dataclass(frozen=True)
class Recording:
    """A machine before its step `base`, and what the outside handed to it up to but not including its step `end`."""
    start: State
    memory: dict = field(default_factory=dict)  # the pages that aren't all 0, by their numbers
    end: int = 1
    base: int = 0
    ram: int = 1  # pages of RAM
    events: tuple = ()
    version: int = 1
    split: bool = False  # whether misaligned loads and stores are carried out

    def but(self, **named):
        return replace(self, **named)

    def marked(self):
        """This recording with the Marks that its length asks for, and its events in order."""
        first = (self.base // MARK_EVERY + 1) * MARK_EVERY
        marks = [Mark(step) for step in range(first, self.end, MARK_EVERY)]
        others = [event for event in self.events if not isinstance(event, Mark)]
        return self.but(events=tuple(sorted(marks + others, key=lambda event: (event.step, event.rank))))

    def head(self):
        """The bytes before the records."""
        version = b'' if self.version == 1 else bytes([0, self.split])
        return (b'CXR1' + version + varint(self.ram) + varint(self.base) + self.start.spell()
                + spell_pages(self.memory))

    def records(self):
        """The bytes of the records, End among them, in the order in which the events are given."""
        spelled, last = bytearray(), self.base
        for event in self.events:
            spelled += bytes([event.tag]) + varint(event.step - last) + event.payload()
            last = event.step
        return bytes(spelled) + b'\0' + varint(self.end - last)

    def spell(self):
        return self.head() + self.records()

    def with_records(self, records):
        """The bytes of this recording with other records, good ones or bad."""
        return self.head() + records
