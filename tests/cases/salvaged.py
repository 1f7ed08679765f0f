"""`salvage`: of a recording that is cut off or damaged all up to its last good mark, and of a good one all of it."""
from case import case
from cases.call_slices import EXAMPLE_SLICE
from recordings import MACHINE_TIMER, MARK_EVERY, PAGE, RAM, Dma, Lines, Mark, Recording, Value, page, reset
from recordings.fields import varint
from statuses import done, format_at, not_there
from today import SALVAGES, once

BASE, END = MARK_EVERY - 4, 2 * MARK_EVERY + 5
FIRST, SECOND = MARK_EVERY, 2 * MARK_EVERY  # the steps of the two marks
# A program that reads the time once, and then waits. Devices write and lines change before and behind both marks.
EVENTS = (Value(BASE, 1), Lines(BASE + 1, MACHINE_TIMER), Dma(FIRST - 1, RAM + PAGE, b'abc'),
          Dma(FIRST, RAM + PAGE, b'd'), Dma(FIRST, RAM + PAGE + 2, b'e'), Dma(SECOND - 1, RAM + PAGE, b'f'),
          Lines(SECOND, 0), Dma(SECOND + 2, RAM + PAGE, b'g'))
WHOLE = Recording(reset(), {0: page('rdtime t0', 'j 0'), 1: page(1)}, base=BASE, end=END, ram=2,
                  events=EVENTS).marked()
VERSIONS = [('version 1', WHOLE), ('version 2', WHOLE.but(version=2)),
            ('version 2 with the flag', WHOLE.but(version=2, split=True))]
SHORT = WHOLE.but(base=0, end=3, events=(Value(0, 1),))


def upto(recording, step):
    """What is saved up to a mark: the records below its step, and End there."""
    return recording.but(events=tuple(event for event in recording.events if event.step < step), end=step)


def front(recording, count):
    """The bytes up to and with so many records."""
    spelled, last = recording.head(), recording.base
    for event in recording.events[:count]:
        spelled += bytes([event.tag]) + varint(event.step - last) + event.payload()
        last = event.step
    return spelled


def saved(name, data, recording, step):
    """A case of which all up to a mark is saved, or nothing."""
    return case(name, 'salvage', data, not_there if step is None else done,
                None if step is None else upto(recording, step))


def last_mark(recording, count):
    """The step of the last mark among so many records."""
    return max((event.step for event in recording.events[:count] if isinstance(event, Mark)), default=None)


def by_records(name, whole):
    """The recording cut behind each of its records, and within the next one; and with each record's tag damaged."""
    for count in range(len(whole.events) + 1):
        begin, step = front(whole, count), last_mark(whole, count)
        yield saved(f'{name}, cut behind {count} records', begin, whole, step)
        yield saved(f'{name}, cut within the record behind {count} others', whole.spell()[:len(begin) + 1], whole, step)
        rest = whole.spell()[len(begin):]
        yield saved(f'{name}, with the tag behind {count} records flipped', begin + bytes([rest[0] ^ 0x80]) + rest[1:],
                    whole, step)


def by_header(name, whole):
    """The recording cut within its header and its pages."""
    data, ends = whole.spell(), len(whole.head())
    for length in (0, 3, 4, 5, 6, 8, 100, ends - PAGE - 2, ends - PAGE, ends - 1):
        yield case(f'{name}, cut after {length} bytes', 'salvage', data[:length], format_at(length))


def with_events(*more, without=()):
    """The recording with more events, and without some."""
    events = [event for event in EVENTS if event not in without]
    return WHOLE.but(events=(*events, *more)).marked()


def with_mark_at(index, step):
    """The recording with its mark of that index, among all its events, at another step."""
    events = list(WHOLE.events)
    events[index] = Mark(step)
    return WHOLE.but(events=tuple(events)).spell()


MARKS = [index for index, event in enumerate(WHOLE.events) if isinstance(event, Mark)]
# Recordings of which a step can't be carried out, and the mark up to which they are saved.
BREAKS = [
    ('the first step', with_events(without=EVENTS[:1]), None),
    ('a step before the first mark', with_events(Value(BASE + 1, 7)), None),
    ('the last step before the first mark', with_events(Value(FIRST - 1, 7)), None),
    ('the step of the first mark', with_events(Value(FIRST, 7)), FIRST),
    ('a step between the marks', with_events(Value(FIRST + 9, 7)), FIRST),
    ('the last step before the second mark', with_events(Value(SECOND - 1, 7)), FIRST),
    ('the step of the second mark', with_events(Value(SECOND, 7)), SECOND),
    ('the last step', with_events(Value(END - 1, 7)), SECOND),
    ('a step before the first mark, and one behind it', with_events(Value(BASE + 1, 7), Value(FIRST + 9, 7)), None),
    ('a step between the marks, and one behind them', with_events(Value(FIRST + 9, 7), Value(SECOND + 1, 7)), FIRST),
]


def bit(at, which=0):
    """The recording with a bit flipped."""
    data = bytearray(WHOLE.spell())
    data[at] ^= 1 << which
    return bytes(data)


HEAD = len(WHOLE.head())
AT_DMA = len(front(WHOLE, 2))  # the first transfer
AT_LINES = len(front(WHOLE, 1))
LATER = len(front(WHOLE, MARKS[1] + 1))  # the first record behind the second mark
FLIPPED = [
    ('a word of the first lines', bit(AT_LINES + 2), None),
    ('the place of the first transfer', bit(AT_DMA + 5, 7), None),
    ('the distance of the first transfer', bit(AT_DMA + 1, 4), None),
    ('the distance of the first mark', bit(len(front(WHOLE, MARKS[0])) + 1, 1), None),
    ('the distance of the second mark', bit(len(front(WHOLE, MARKS[1])) + 1, 1), FIRST),
    ('the mask of the lines behind the second mark', bit(LATER + 2), SECOND),
    ('the end', bit(len(WHOLE.spell()) - 1, 7), SECOND),
]

CASES = once(SALVAGES, [
    *(case(f'{name}, whole', 'salvage', whole, done, whole) for name, whole in VERSIONS),
    *(row for name, whole in VERSIONS for row in by_records(name, whole)),
    *(row for name, whole in VERSIONS for row in by_header(name, whole)),
    *(saved(f'{name}, with a byte behind the end', whole.spell() + b'\0', whole, SECOND) for name, whole in VERSIONS),
    *(saved(f'{name} can not be carried out', data, data, step) for name, data, step in BREAKS),
    *(saved(f'a bit flipped in {name}', data, WHOLE, step) for name, data, step in FLIPPED),
    case('a bit flipped in the data of a page', 'salvage', bit(HEAD - 9), done, bit(HEAD - 9)),
    case('a bit flipped in pc', 'salvage', bit(8), format_at(8)),
    case('a bit flipped in the mode', 'salvage', bit(8 + 4 * 32, 6), format_at(8 + 4 * 32)),
    saved('a first mark at a step that has none', with_mark_at(MARKS[0], FIRST - 1), WHOLE, None),
    saved('a second mark at a step that has none', with_mark_at(MARKS[1], SECOND - 1), WHOLE, FIRST),
    saved('a recording whose second mark is missing', WHOLE.but(
        events=WHOLE.events[:MARKS[1]] + WHOLE.events[MARKS[1] + 1:]), WHOLE, FIRST),
    saved('a recording whose marks are missing', WHOLE.but(events=EVENTS), WHOLE, None),
    case('a short recording', 'salvage', SHORT, done, SHORT),
    saved('a short recording that is cut off', SHORT.spell()[:-1], SHORT, None),
    saved('a short recording of which a step can not be carried out', SHORT.but(events=()), SHORT, None),
    saved('a short recording with a byte behind its end', SHORT.spell() + b'\0', SHORT, None),
    case('a recording that ends where a mark would stand', 'salvage', upto(WHOLE, SECOND), done, upto(WHOLE, SECOND)),
    case('what was saved is saved whole', 'salvage', upto(WHOLE, FIRST), done, upto(WHOLE, FIRST)),
    saved('what was saved, cut off', upto(WHOLE, SECOND).spell()[:-1], WHOLE, FIRST),
    case('a header without records', 'salvage', WHOLE.head(), not_there),
    case('a process slice is not saved', 'salvage', b'CXP1\1', format_at(0)),
    case('a call slice is not saved', 'salvage', EXAMPLE_SLICE, format_at(0)),
    case('an image is not saved', 'salvage', b'CXI1\1\0\0\0', format_at(0)),
])
