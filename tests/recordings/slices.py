"""Process slices: what a program was handed, their bytes, and how those are read. docs/FORMATS.md is the layout."""
from dataclasses import dataclass, replace

from .fields import varint, word, words
from .observations import addressed
from .reading import MOST_STEPS, Reader, judged

MAGIC = b'CXP1'
MOST_RUNS = MOST_RUN = 8


@dataclass(frozen=True)
class Group:
    """What a step is handed: words by their numbers, where 0 is pc; runs of bytes; and the value that it takes."""
    step: int
    words: dict
    runs: tuple = ()  # each an address and bytes
    value: int = None

    def spell(self, last):
        """The bytes of the group, which stands behind that of the step `last`, or first, where that is 0."""
        mask = sum(1 << number for number in self.words)
        spelled = b'\1' + varint(self.step - last) + word(mask) + words(*(self.words[n] for n in sorted(self.words)))
        spelled += varint(len(self.runs))
        spelled += b''.join(word(va) + varint(len(content)) + content for va, content in self.runs)
        return spelled + (b'\0' if self.value is None else b'\1' + word(self.value))

    def but(self, **named):
        return replace(self, **named)


@dataclass(frozen=True)
class Slice:
    """Groups by rising steps, and the number of steps."""
    groups: tuple
    end: int

    def spell(self):
        spelled, last = MAGIC, 0
        for group in self.groups:
            spelled += group.spell(last)
            last = group.step
        return spelled + b'\0' + varint(self.end - last)

    def but(self, **named):
        return replace(self, **named)

    def with_group(self, index, **named):
        """This slice with a group changed."""
        changed = self.groups[index].but(**named)
        return self.but(groups=self.groups[:index] + (changed,) + self.groups[index + 1:])


def runs_of(content):
    """Bytes by their addresses, as runs between which an address is left out."""
    runs = []
    for va in sorted(content):
        if runs and runs[-1][0] + len(runs[-1][1]) == va:
            runs[-1][1].append(content[va])
        else:
            runs.append((va, [content[va]]))
    return tuple((va, bytes(run)) for va, run in runs)


def sliced(observed):
    """The slice of some observations."""
    stands, known, groups = (0,) * 32, {}, []
    for step, each in enumerate(observed):
        seen = each.seen()
        new = {number: now for number, now in enumerate(each.before) if now != stands[number]}
        content = {va: byte for va, byte in seen.items() if known.get(va) != byte}
        if new or content or each.given is not None:
            groups.append(Group(step, new, runs_of(content), each.given))
        known |= seen | addressed(each.written)
        stands = each.behind
    return Slice(tuple(groups), len(observed))


class SliceReader(Reader):
    """The groups of a slice that were read whole, and its end, or None."""

    def __init__(self, data):
        super().__init__(data)
        self.groups, self.end = [], None

    def step(self, most):
        """A step by its distance from that of the group before it."""
        last, least = (self.groups[-1].step, 1) if self.groups else (0, 0)
        return last + self.bounded('distance', least, most - last)

    def run(self, least):
        start = self.at
        va = self.note(start, 'address', self.word())
        self.judge(va >= least, start)
        return va, self.take(self.bounded('length of a run', 1, min(MOST_RUN, (1 << 32) - va)))

    def group(self):
        step = self.step(MOST_STEPS - 1)
        mask, runs, least = self.note(self.at, 'mask', self.word()), [], 0
        new = {number: self.note(self.at, 'word', self.word()) for number in range(32) if mask >> number & 1}
        for _ in range(self.bounded('count of runs', 0, MOST_RUNS)):
            runs.append(self.run(least))
            least = runs[-1][0] + len(runs[-1][1]) + 1
        start = self.at
        flag = self.byte()
        self.judge(flag == 1 or flag == 0 and (new or runs), start)
        return Group(step, new, tuple(runs), self.note(self.at, 'value', self.word()) if flag else None)

    def whole(self):
        self.judge(self.take(4) == MAGIC, 0)
        while True:
            start = self.at
            tag = self.byte()
            self.judge(tag == 1 or tag == 0 and self.groups, start)
            if tag == 0:
                break
            self.groups.append(self.group())
        end = self.step(MOST_STEPS)
        self.judge(self.at == len(self.data), self.at)
        self.end = end


def read_slice(data):
    """The groups and the end of a slice, and the offset of its first bad field, or None where there is none."""
    return judged(SliceReader(data), SliceReader.whole)
