"""What the steps of a recording show, as `trace all` writes them, of what a system does: interrupts, faults, calls, and
what its processes do in user mode."""
from dataclasses import dataclass

from recordings import PAGE
from recordings.recording import Dma
from recordings.registers import STATE, USER, WORD

FIRST_STATE = 4  # where the words of a state begin in a line, behind 'step N E state' with E in one word
# Instructions as masks and what a word has under them.
LR, SC, TIME = (0xf9f0707f, 0x1000202f), (0xf800707f, 0x1800202f), (0xfffff07f, 0xc0102073)


def is_word_of(word, row):
    mask, bits = row
    return word is not None and word & mask == bits


@dataclass(frozen=True)
class Piece:
    """An access: where it is for the program, where in RAM, and its bytes."""
    va: int
    pa: int
    bytes: bytes


def pieces(field):
    """The pieces of an access, as a line has them."""
    split = [] if field == '-' else [piece.split(':') for piece in field.split(',')]
    return [Piece(int(va, 16), int(pa, 16), bytes.fromhex(content)) for va, pa, content in split]


@dataclass(frozen=True)
class Step:
    """A step as its line shows it."""
    number: int
    ended: str
    pc: int
    mode: int
    root: int
    word: int  # or None, where none was fetched
    read: list
    written: list
    value: int  # or None


def step(line):
    fields = line.decode().replace('trap ', 'trap-', 1).replace('interrupt ', 'interrupt-', 1).split()
    state = fields[FIRST_STATE:FIRST_STATE + len(STATE)]
    _, fetched, _, read, _, written, _, value = fields[FIRST_STATE + len(STATE):]
    word = None if fetched == '-' else int(fetched.split(':')[2], 16)
    return Step(
        int(fields[1]), fields[2], int(state[0], 16), int(state[WORD['mode']], 16), int(state[WORD['satp']], 16), word,
        pieces(read), pieces(written), None if value == '-' else int(value, 16),
    )


class Steps:
    """The steps of a recording, those of user mode among them, and the transfers to RAM."""

    def __init__(self, lines, reader):
        self.all = [step(line) for line in lines]
        self.user = [each for each in self.all if each.mode == USER]
        self.retired = [each for each in self.user if each.ended == 'retired']
        self.transfers = [entry.event for entry in reader.entries if isinstance(entry.event, Dma)]

    def ended(self, *ends):
        return [each for each in self.user if each.ended in ends]


def goes_on_after_fault(steps):
    """A load or store of a process met no page, and the same instruction retired later: the page had come."""
    faults = {(each.root, each.pc) for each in steps.ended('trap-13', 'trap-15')}
    return any((each.root, each.pc) in faults for each in steps.retired)


def reads_transfer(steps):
    """A process read bytes that a device had moved to RAM."""
    moved = {each.place + index for each in steps.transfers for index in range(len(each.bytes))}
    return any(piece.pa in moved for each in steps.retired for piece in each.read)


def has_two_pages(steps):
    """A process reached a place by addresses in two pages."""
    seen = {}
    for each in steps.retired:
        for piece in each.read + each.written:
            seen.setdefault((each.root, piece.pa // PAGE), set()).add(piece.va // PAGE)
    return any(len(pages) > 1 for pages in seen.values())


def stores_reserved(steps):
    """A process reserved a word, and stored to it by the SC behind that."""
    reserved = {}
    for each in steps.retired:
        if is_word_of(each.word, LR):
            reserved[each.root] = each.read[0].pa
        if is_word_of(each.word, SC) and each.written and each.written[0].pa == reserved.get(each.root):
            return True
    return False


def reads_time(steps):
    """A process read the time."""
    return any(is_word_of(each.word, TIME) and each.value is not None for each in steps.retired)


KINDS = {
    'a timer interrupt': lambda steps: bool(steps.ended('interrupt-7')),
    'an interrupt of the block device': lambda steps: bool(steps.ended('interrupt-11')),
    'a system call': lambda steps: bool(steps.ended('trap-8')),
    'a page that comes after a fault': goes_on_after_fault,
    'a transfer to a page of a process': reads_transfer,
    'two pages on one frame': has_two_pages,
    'a word that is reserved and stored to': stores_reserved,
    'a read of the time': reads_time,
}
