"""Reads the bytes of a recording or an image field by field, up to its end or to the first bad place.

It is written from docs/FORMATS.md alone, so that it judges bytes independently of the program. It carries out no step.
"""
from dataclasses import dataclass

from .image import MAGIC, MOST_CONSOLE, MOST_SECTORS, SECTOR, Image
from .recording import MARK_EVERY, PAGE, RAM, Dma, Lines, Mark, Value
from .registers import STATE

MOST_PAGES, MOST_STEPS = 262144, 1 << 48
LINES = 0xa88
# The bits that a word may have; words that aren't named may have all.
MASKS = {
    'pc': ~3, 'mstatus': 0x7e19aa, 'medeleg': 0xb3ff, 'mideleg': 0x222, 'mie': 0xaaa, 'mip': 0x222, 'mtvec': ~2,
    'mcounteren': 7, 'mepc': ~3, 'stvec': ~2, 'scounteren': 7, 'sepc': ~3, 'reserved': 1, 'lines': LINES,
}
NAMES = {0: 'End', 1: 'Dma', 2: 'Lines', 3: 'Value', 4: 'Mark'}
RANKS = {4: 0, 1: 1, 2: 2, 3: 3}


class Bad(Exception):
    """The first bad place of the bytes."""

    def __init__(self, offset):
        super().__init__(f'bad at {offset}')
        self.offset = offset


@dataclass(frozen=True)
class Field:
    offset: int
    name: str
    value: object


@dataclass(frozen=True)
class Entry:
    """A record that was read: where it stands, how long it is, and what it says. That of End is its step."""
    offset: int
    length: int
    event: object


class Reader:
    """The fields that were read so far, in order, and the records and pages among them."""

    def __init__(self, data):
        self.data, self.at, self.fields = data, 0, []
        self.records_at, self.pages_at = None, None
        self.entries, self.memory = [], {}
        self.version, self.split = 1, 0

    def take(self, count):
        if self.at + count > len(self.data):
            raise Bad(len(self.data))
        self.at += count
        return self.data[self.at - count:self.at]

    def judge(self, is_good, at):
        if not is_good:
            raise Bad(at)

    def note(self, at, name, value):
        self.fields.append(Field(at, name, value))
        return value

    def byte(self):
        return self.take(1)[0]

    def word(self):
        return int.from_bytes(self.take(4), 'little')

    def varint(self):
        start, value = self.at, 0
        for index in range(10):
            group = self.byte()
            value |= (group & 0x7f) << 7 * index
            if group < 0x80:
                self.judge(value < 1 << 64 and (group or index == 0), start)
                return value
        raise Bad(start)

    def bounded(self, name, least, most):
        """A varint between two bounds."""
        start = self.at
        value = self.varint()
        self.judge(least <= value <= most, start)
        return self.note(start, name, value)

    def header(self):
        self.judge(self.take(4) == b'CXR1', 0)
        start = self.at
        self.ram = self.varint()
        if self.ram == 0:
            self.note(start, 'version', 2)
            self.flag()
            start = self.at
            self.ram = self.varint()
        self.judge(1 <= self.ram <= MOST_PAGES, start)
        self.note(start, 'pages of RAM', self.ram)
        self.base = self.bounded('base', 0, MOST_STEPS - 1)
        self.state = {}
        for name in STATE:
            start = self.at
            self.state[name] = self.note(start, name, self.word())
            self.judge(self.is_admitted(name), start)

    def flag(self):
        """Version 2 has the flag of the hart."""
        self.version, self.split = 2, self.byte()
        self.judge(self.split in (0, 1), self.at - 1)
        self.note(self.at - 1, 'split', self.split)

    def is_admitted(self, name):
        value = self.state[name]
        if name == 'mode':
            return value in (0, 1, 3)
        if name == 'mstatus' and value >> 11 & 3 == 2:
            return False
        if name == 'place':
            is_in_ram = value % 4 == 0 and 0 <= value - RAM < self.ram * PAGE
            return is_in_ram if self.state['reserved'] else value == 0
        return value & ~MASKS.get(name, ~0) & 0xffffffff == 0

    def pages(self):
        least, self.pages_at = 0, self.at
        for _ in range(self.bounded('pages that follow', 0, self.ram)):
            number = self.bounded('number of a page', least, self.ram - 1)
            least = number + 1
            start = self.at
            content = self.take(PAGE)
            self.judge(any(content), start)
            self.memory[number] = content
            for offset in range(0, PAGE, 4):
                value = int.from_bytes(content[offset:offset + 4], 'little')
                if value:
                    self.note(start + offset, f'the word at {RAM + number * PAGE + offset:08x}', value)

    def records(self):
        self.records_at = self.at
        step, rank, marked, lines = self.base, -1, self.base, self.state['lines']
        count = 0
        while True:
            tag_at = self.at
            tag = self.byte()
            self.judge(tag in NAMES, tag_at)
            delta_at = self.at
            delta = self.varint()
            behind = step + delta
            if delta:
                rank = -1
            passed = (behind - 1) // MARK_EVERY * MARK_EVERY
            self.judge(passed <= max(marked, self.base), delta_at)
            if tag == 0:
                self.judge(self.base < behind <= MOST_STEPS and (count == 0 or delta > 0), delta_at)
                self.note(tag_at, 'End', behind)
                self.entries.append(Entry(tag_at, self.at - tag_at, behind))
                return
            is_multiple = behind % MARK_EVERY == 0 and behind > self.base
            self.judge(behind < MOST_STEPS and RANKS[tag] >= rank, delta_at)
            self.judge(RANKS[tag] > rank or tag == 1, delta_at)
            self.judge(is_multiple if tag == 4 else not is_multiple or marked == behind, delta_at)
            step, rank, count = behind, RANKS[tag], count + 1
            if tag == 4:
                marked = self.note(tag_at, f'Mark at step {step}', step)
            event = self.payload(tag, step, lines)
            lines = event.mask if tag == 2 else lines
            self.entries.append(Entry(tag_at, self.at - tag_at, event))

    def payload(self, tag, step, lines):
        """The record with its payload, where these lines stand."""
        start = self.at
        if tag == 1:
            place = self.word()
            self.judge(0 <= place - RAM < self.ram * PAGE, start)
            length_at = self.at
            length = self.varint()
            self.judge(1 <= length <= PAGE and place - RAM + length <= self.ram * PAGE, length_at)
            content = self.take(length)
            self.note(start, f'Dma before step {step}', (f'{place:08x}', content.hex()))
            return Dma(step, place, content)
        if tag == 2:
            mask = self.word()
            self.judge(mask & ~LINES == 0 and mask != lines, start)
            return Lines(step, self.note(start, f'Lines before step {step}', mask))
        if tag == 3:
            return Value(step, self.note(start, f'Value of step {step}', self.word()))
        return Mark(step)

    def whole(self):
        self.header()
        self.pages()
        self.records()
        self.judge(self.at == len(self.data), self.at)

    def image(self):
        magic = self.take(4)
        self.judge(magic in MAGIC.values(), 0)
        if magic == MAGIC[2]:
            self.flag()
        self.ram = self.bounded('pages of RAM', 1, MOST_PAGES)
        self.pages()
        self.disk = self.take(SECTOR * self.bounded('sectors', 0, MOST_SECTORS))
        self.console = self.take(self.bounded('bytes of the console', 0, MOST_CONSOLE))
        self.judge(self.at == len(self.data), self.at)

    def made_image(self):
        """The image, once it was read whole."""
        return Image(self.memory, self.ram, self.disk, self.console, self.version, bool(self.split))


def judged(reader, part):
    """The fields of the bytes, and the offset of the first bad place, or None where there is none."""
    try:
        part(reader)
    except Bad as bad:
        return reader, bad.offset
    return reader, None


def read(data):
    """The fields of a recording, and the offset of its first bad place, or None where there is none."""
    return judged(Reader(data), Reader.whole)


def read_image(data):
    """The fields of an image, and the offset of its first bad place, or None where there is none."""
    return judged(Reader(data), Reader.image)


def show(value):
    """A value in few characters."""
    text = f'{value:08x}' if isinstance(value, int) else str(value)
    return text if len(text) <= 80 else f'{text[:80]}..'


def differences(got, want, most=6):
    """What the bytes of a recording have otherwise than those that are wanted, in lines to read."""
    lines = [f'{len(got)} bytes, not {len(want)}'] if len(got) != len(want) else []
    (here, bad), (there, _) = read(got), read(want)
    if bad is not None and got:
        lines.append(f'it is no recording: bad at {bad}')
    found, wanted = ({field.name: field.value for field in it.fields} for it in (here, there))
    for name in [*wanted, *(name for name in found if name not in wanted)]:
        if found.get(name) != wanted.get(name) and got:
            lines.append(f'{name}: {show(found.get(name))}, not {show(wanted.get(name))}')
    if not lines:
        at = next((i for i, pair in enumerate(zip(got, want)) if pair[0] != pair[1]), min(len(got), len(want)))
        lines.append(f'from byte {at} on: {got[at:at + 8].hex()}, not {want[at:at + 8].hex()}')
    return lines[:most] + ([f'and {len(lines) - most} more'] if len(lines) > most else [])
