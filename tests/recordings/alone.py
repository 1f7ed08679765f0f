"""A model of a program that goes alone by its slice: what its steps show, and where it can't go on."""
from .arithmetic import ALL
from .calls import ASYNC, CALL, ECALL, VALUE, Head, read_calls
from .hart import ATOMIC, MISALIGNED, RESERVE, Hart, Trap
from .observations import SHOWN, addressed, observation, words_of
from .recording import State
from .registers import USER
from .slices import Group, read_slice


class Stuck(Exception):
    """A step that breaks a rule."""


class Alone(Hart):
    """A program in user mode, with the bytes that are known to it in place of RAM."""

    def __init__(self):
        super().__init__(State(mode=USER, mcounteren=7, scounteren=7), {}, 0, split=True)
        self.known, self.seen, self.values = {}, set(), []

    def is_in_ram(self, place, length=1):
        return True

    def places(self, va, length, kind):
        if va % length and kind in (RESERVE, ATOMIC):
            raise Trap(MISALIGNED[kind], va)
        return [(va, length)]

    def loaded(self, place, length):
        addresses = [place + index & ALL for index in range(length)]
        if not self.known.keys() >= set(addresses):
            raise Stuck
        self.seen.update(addresses)
        return int.from_bytes(bytes(self.known[va] for va in addresses), 'little')

    def keep(self, place, content):
        for index, byte in enumerate(content):
            self.known[place + index & ALL] = byte

    def taken(self):
        if not self.values:
            raise Stuck
        return self.values.pop()

    def outcome(self, place):
        value = self.taken()
        if value > 1:
            raise Stuck
        return value

    def counter(self, name):
        return self.taken()

    def hand(self, group):
        """Gives the program what a group has; none of it may stand already."""
        stands = words_of(self)
        if any(stands[number] == new for number, new in group.words.items()):
            raise Stuck
        content = {va + index: byte for va, run in group.runs for index, byte in enumerate(run)}
        if any(self.known.get(va) == byte for va, byte in content.items()):
            raise Stuck
        words = [group.words.get(number, word) for number, word in enumerate(stands)]
        self.pc, self.registers = words[0], [0, *words[1:]]
        self.known |= content
        self.values = [] if group.value is None else [group.value]
        return set(content)

    def go(self, group):
        """What the next step shows, with what its group hands to it."""
        handed, self.seen = self.hand(group), set()
        before = words_of(self)
        if self.pc % 4:
            raise Stuck
        ended = self.step(None)
        if ended not in SHOWN or not handed <= self.seen or self.values:
            raise Stuck
        shows = observation(self, before, ended)
        self.pc, self.registers, self.mode = shows.behind[0], [0, *shows.behind[1:]], USER
        return shows


def alone(data, most=None):
    """What an input that should be a slice shows of its settled steps, the first that breaks a rule, or None, and the
    offset of its first bad field, or None. No more than `most` steps are gone."""
    reader, bad = read_slice(data)
    groups, program, shows = {group.step: group for group in reader.groups}, Alone(), []
    settled = reader.groups[-1].step if reader.groups else 0
    settled = settled if reader.end is None else reader.end
    while len(shows) < (settled if most is None else min(settled, most)):
        try:
            shows.append(program.go(groups.get(len(shows), Group(len(shows), {}))))
        except Stuck:
            return shows, len(shows), bad
    return shows, None, bad


class AloneByCalls(Alone):
    """The same by a call slice. Bytes of the last head that weren't accessed yet are owed; words of the last head are
    waiting for the step behind it."""

    def __init__(self, start):
        super().__init__()
        self.take_head(start)

    def take_head(self, head):
        content = head.content()
        self.is_new = all(self.known.get(va) != byte for va, byte in content.items())
        self.known |= content
        self.waiting, self.owed, self.accessed = head.words, set(content), set()

    def is_settled(self):
        return not self.owed and not self.waiting

    def go_on(self, step, records):
        """What the next step shows, with its records by their tags."""
        head = records[ASYNC].head if ASYNC in records else Head({})
        value = records[VALUE].value if VALUE in records else None
        if not self.is_new or self.waiting is not None and head.words or not head.content().keys() <= self.accessed:
            raise Stuck
        shows = self.go(Group(step, head.words if self.waiting is None else self.waiting, head.runs, value))
        accessed = self.seen | addressed(shows.written).keys()
        if self.owed & accessed - self.seen:
            raise Stuck
        self.waiting, self.owed, self.accessed = None, self.owed - accessed, self.accessed | accessed
        self.call(shows, records.get(CALL))
        return shows

    def call(self, shows, record):
        """A call has a record with its number, and nothing is owed behind it."""
        if (shows.word == ECALL) != (record is not None):
            raise Stuck
        if record is not None:
            if record.number != shows.before[17] or self.owed:
                raise Stuck
            self.take_head(record.head)


def called_alone(data, most=None):
    """What `alone` says, of an input that should be a call slice."""
    reader, bad = read_calls(data)
    if reader.start is None:
        return [], None, bad
    by_step, program, shows = {}, AloneByCalls(reader.start), []
    for record in reader.records:
        by_step.setdefault(record.step, {})[record.tag] = record
    settled = reader.records[-1].step if reader.records else 0
    settled = settled if reader.end is None else reader.end
    while len(shows) < (settled if most is None else min(settled, most)):
        try:
            shows.append(program.go_on(len(shows), by_step.get(len(shows), {})))
        except Stuck:
            return shows, len(shows), bad
    is_whole = reader.end is not None and len(shows) == reader.end
    return shows, reader.end if is_whole and not program.is_settled() else None, bad
