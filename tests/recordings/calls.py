"""Call slices: what a program was handed, placed at its calls; their bytes, and how those are read. docs/FORMATS.md is
the layout."""
from dataclasses import dataclass, replace

from .fields import varint, word, words
from .observations import addressed
from .reading import MOST_STEPS, judged
from .slices import SliceReader, runs_of

MAGIC = b'CXC1'
ECALL = 0x73
END, CALL, ASYNC, VALUE = range(4)  # the tags
ORDER = {ASYNC: 0, VALUE: 1, CALL: 2}  # of the records of one step
MOST_RUNS = (1 << 32) - 1


@dataclass(frozen=True)
class Head:
    """Words by their numbers, where 0 is pc, and runs of bytes."""
    words: dict
    runs: tuple = ()  # each an address and bytes

    def spell(self):
        spelled = word(sum(1 << number for number in self.words)) + words(*(self.words[n] for n in sorted(self.words)))
        spelled += varint(len(self.runs))
        return spelled + b''.join(word(va) + varint(len(content)) + content for va, content in self.runs)

    def content(self):
        return {va + index: byte for va, run in self.runs for index, byte in enumerate(run)}


@dataclass(frozen=True)
class Record:
    """What is handed at a step: behind a call with its number; before a step; or a value that it takes."""
    step: int
    tag: int
    head: Head = None
    number: int = None  # of a call
    value: int = None

    def spell(self, last):
        """The bytes of the record, which stands behind that of the step `last`, or first, where that is 0."""
        spelled = bytes([self.tag]) + varint(self.step - last)
        if self.tag == VALUE:
            return spelled + word(self.value)
        return spelled + (word(self.number) if self.tag == CALL else b'') + self.head.spell()

    def but(self, **named):
        return replace(self, **named)


@dataclass(frozen=True)
class CallSlice:
    """What is handed before the first step, records by rising steps, and the number of steps."""
    start: Head
    records: tuple
    end: int

    def front(self):
        """The bytes but for those of the end."""
        spelled, last = MAGIC + self.start.spell(), 0
        for record in self.records:
            spelled += record.spell(last)
            last = record.step
        return spelled

    def spell(self):
        last = self.records[-1].step if self.records else 0
        return self.front() + bytes([END]) + varint(self.end - last)

    def but(self, **named):
        return replace(self, **named)

    def with_record(self, index, **named):
        """This slice with a record changed."""
        changed = self.records[index].but(**named)
        return self.but(records=self.records[:index] + (changed,) + self.records[index + 1:])

    def put(self):
        """The bytes that are known to be right before more steps are: those before the last call, or the magic."""
        calls = [index for index, record in enumerate(self.records) if record.tag == CALL]
        return self.but(records=self.records[:calls[-1]]).front() if calls else MAGIC


class Placing:
    """Where items go: what is handed since the last call, and which addresses were accessed since then."""

    def __init__(self, step=None, number=None):
        self.step, self.number = step, number  # of the call, or None at the start
        self.words, self.content, self.accessed = {}, {}, set()

    def head(self):
        return Head(self.words, runs_of(self.content))


def called(observed):
    """The call slice of some observations: each item of a step by where its address was accessed last."""
    stands, known, places, at_steps = (0,) * 32, {}, [Placing()], []
    for step, each in enumerate(observed):
        place, seen = places[-1], each.seen()
        new = {number: now for number, now in enumerate(each.before) if now != stands[number]}
        content = {va: byte for va, byte in seen.items() if known.get(va) != byte}
        if step == 0 or place.step == step - 1:
            place.words, new = new, {}
        place.content |= {va: byte for va, byte in content.items() if va not in place.accessed}
        content = {va: byte for va, byte in content.items() if va in place.accessed}
        if new or content:
            at_steps.append(Record(step, ASYNC, Head(new, runs_of(content))))
        if each.given is not None:
            at_steps.append(Record(step, VALUE, value=each.given))
        place.accessed |= seen.keys() | addressed(each.written).keys()
        known |= seen | addressed(each.written)
        stands = each.behind
        if each.word == ECALL:
            places.append(Placing(step, each.before[17]))
    records = at_steps + [Record(p.step, CALL, p.head(), number=p.number) for p in places[1:]]
    records.sort(key=lambda record: (record.step, ORDER[record.tag]))
    return CallSlice(places[0].head(), tuple(records), len(observed))


class CallReader(SliceReader):
    """The start and the records of a call slice that were read whole, and its end, or None."""

    def __init__(self, data):
        super().__init__(data)
        self.start, self.records = None, []

    def head(self, needs_item=False):
        mask, runs, least = self.note(self.at, 'mask', self.word()), [], 0
        new = {number: self.note(self.at, 'word', self.word()) for number in range(32) if mask >> number & 1}
        for _ in range(self.bounded('count of runs', int(needs_item and not new), MOST_RUNS)):
            start = self.at
            va = self.note(start, 'address', self.word())
            self.judge(va >= least, start)
            runs.append((va, self.take(self.bounded('length of a run', 1, (1 << 32) - va))))
            least = runs[-1][0] + len(runs[-1][1]) + 1
        return Head(new, tuple(runs))

    def step_of(self, tag):
        """The step of a record with this tag: behind the last one's, or the same where the tag's place is behind it."""
        last, place = (self.records[-1].step, ORDER[self.records[-1].tag]) if self.records else (0, -1)
        return last + self.bounded('distance', int(ORDER[tag] <= place), MOST_STEPS - 1 - last)

    def record(self, tag):
        step = self.step_of(tag)
        if tag == VALUE:
            return Record(step, tag, value=self.note(self.at, 'value', self.word()))
        number = self.note(self.at, 'number', self.word()) if tag == CALL else None
        return Record(step, tag, self.head(tag == ASYNC), number=number)

    def whole(self):
        self.judge(self.take(4) == MAGIC, 0)
        self.start = self.head()
        while True:
            start = self.at
            tag = self.byte()
            self.judge(tag <= VALUE, start)
            if tag == END:
                break
            self.records.append(self.record(tag))
        last = self.records[-1].step if self.records else 0
        end = last + self.bounded('distance', 1, MOST_STEPS - last)
        self.judge(self.at == len(self.data), self.at)
        self.end = end


def read_calls(data):
    """The start, the records and the end of a call slice, and the offset of its first bad field, or None."""
    return judged(CallReader(data), CallReader.whole)
