"""`replay` of call slices: the lines of what they show, and each rule of the format and of a step, broken.

The lines are those of a model of the machine that the slice was cut from.
"""
from case import case
from cases.call_slices import (
    BEGINS, BOTH, DATA, EXAMPLE_BYTES, EXAMPLE_SLICE, FIVE, LOADED_SLICE, MADE_SLICE, MANY, MANY_SLICE,
    RESERVED_CALLS, TIMED_SLICE, TRAPPED_SLICE, between, by_calls, call, code, value,
)
from cases.step_lines import BLOCK
from played import CODE
from recordings import RAM, assemble, words
from recordings.alone import called_alone
from recordings.calls import Head
from recordings.fields import varint, word
from recordings.observations import lines, observations
from statuses import broken, done, format_at
from today import SLICES_BY_CALLS, once


def shown(recording, root):
    return lines(observations(recording, root))


def blocks(text):
    return text[:len(text) // BLOCK * BLOCK]


def changed(at, content):
    """The example with bytes changed from an offset on."""
    return EXAMPLE_BYTES[:at] + content + EXAMPLE_BYTES[at + len(content):]


# What is changed in the example, where the bytes are changed, to what, and the answer. No block of lines is full.
CHANGES = [
    ('another last letter', 3, b'2', format_at(0)),
    ('a word of the start that is what stands', 12, word(0), broken(0)),
    ('pc between two instructions', 8, b'\2', broken(0)),
    ('pc where no word is known', 8, b'\x10', broken(0)),
    ('another number of runs', 16, b'\2', format_at(34)),
    ('a run without bytes', 21, b'\0', format_at(21)),
    ('a word that is no instruction', 22, b'\x92', broken(0)),
    ('a tag that is none', 34, b'\4', format_at(34)),
    ('the tag of an Async in place of a call', 34, b'\2', format_at(40)),
    ('a call before its step', 35, b'\1', broken(1)),
    ('a call behind its step', 35, b'\3', broken(2)),
    ('another number of a call', 36, b'\1', broken(2)),
    ('a word behind a call that is what stands', 44, word(0), broken(3)),
    ('pc behind a call that is what stands', 40, word(1) + word(RAM + 12), broken(3)),
    ('a run behind a call that is not above the one before', 62, word(RAM + 11), format_at(62)),
    ('a run behind a call that follows the one before at once', 62, word(RAM + 20), format_at(62)),
    ('a byte behind a call that is what stands', 67, b'\5', broken(3)),
    ('a byte behind a call that no step accesses', 62, word(DATA + 4), broken(5)),
    ('a second call in place of the end', 68, b'\1\3', format_at(70)),
    ('an end at the last record', 69, b'\0', format_at(69)),
    ('a step behind the last whose word is not known', 69, b'\4', broken(5)),
    ('a step less, whose word nobody sees', 69, b'\2', broken(4)),
]


def with_head(new, *runs, index=0, number=0):
    """The example with another head of its call."""
    return EXAMPLE_SLICE.with_record(index, head=Head(new, runs), number=number)


def with_start(new, *runs):
    return EXAMPLE_SLICE.but(start=Head(new, runs))


def more(slice_, *records):
    """A slice with more records; of those of one step an Async comes first, then a Value, then a Call."""
    order = {2: 0, 3: 1, 1: 2}
    return slice_.but(records=tuple(sorted([*slice_.records, *records], key=lambda it: (it.step, order[it.tag]))))


BEGIN, BEHIND, NINE = code(RAM, *FIVE[:3]), code(RAM + 12, *FIVE[3:]), (DATA, b'\x09')
# A call behind which a word is stored before it is loaded.
STORES = by_calls((BEGINS, code(RAM, 'ecall')), call(0, {}, code(RAM + 4, 'sw ra, 256(gp)', 'lw sp, 256(gp)')), steps=3)
# Two calls, one behind the other.
TWO_CALLS = by_calls((BEGINS, code(RAM, 'ecall')), call(0, {}, code(RAM + 4, 'ecall', 'nop')), call(1), steps=2)
LOOP = by_calls(({0: RAM}, code(RAM, 'j 0')), steps=9)

# Slices of which a step breaks a rule.
BREAKS = [
    ('a call without its record', EXAMPLE_SLICE.but(records=()), 2),
    ('the call of a slice that ends with it and has no record of it', by_calls((BEGINS, BEGIN), steps=3), 2),
    ('a record of a call at a step that is none', more(EXAMPLE_SLICE, call(4)), 4),
    ('a number that is not that of the call', with_head({10: 7}, BEHIND, NINE, number=64), 2),
    ('a byte of the start that is first stored to', with_start(BEGINS, BEGIN, (DATA + 1, b'\7')), 1),
    ('a byte of a head that is first stored to', STORES.with_record(0, head=Head({}, (
        STORES.records[0].head.runs[0], (DATA + 2, b'\7')))), 1),
    ('a byte of the start that no step accesses before the call', with_start(BEGINS, BEGIN, (DATA + 9, b'\7')), 2),
    ('a byte of the start that is accessed behind the call alone', by_calls(
        (BEGINS, (RAM, BEGIN[1] + BEHIND[1])), call(2, {10: 7}, NINE), steps=5), 2),
    ('a byte of a head that no step accesses before the next call', by_calls(
        (BEGINS, code(RAM, 'ecall')), call(0, {}, code(RAM + 4, 'ecall', 'nop')), call(1), steps=3), 1),
    ('a byte of a head that no step accesses up to the end', with_head({10: 7}, BEHIND, (DATA, b'\x09'), (
        DATA + 9, b'\7')), 5),
    ('a byte of the start that no step accesses up to the end', LOOP.but(start=Head({0: RAM}, (
        code(RAM, 'j 0'), (RAM + 8, b'\7')))), 9),
    ('bytes behind a call of the last step', TWO_CALLS.with_record(0, head=Head({}, (
        code(RAM + 4, 'ecall'),))).with_record(1, head=Head({}, (code(RAM + 8, 'nop'),))), 2),
    ('a word behind a call of the last step', TWO_CALLS.with_record(0, head=Head({}, (
        code(RAM + 4, 'ecall'),))).with_record(1, head=Head({10: 7})), 2),
    ('a byte of an Async in place of the head', more(with_head({10: 7}, BEHIND), between(3, {}, NINE)), 3),
    ('a byte of an Async that no step accessed since the call', more(with_head(
        {10: 7}, code(RAM + 12, FIVE[3]), NINE), between(4, {}, code(RAM + 16, FIVE[4]))), 4),
    ('a byte of an Async that was accessed before the call alone', TIMED_SLICE.with_record(0, head=Head({}, (
        code(RAM + 4, 'rdtime a0', 'lw a1, 256(gp)', 'ecall'),))).but(records=TIMED_SLICE.records[:1] + (
            value(1, 5), between(2, {}, (DATA, b'\1\2\3\4')), call(3)), end=4), 2),
    ('a byte of an Async that the step does not see', more(LOADED_SLICE.but(records=LOADED_SLICE.records[:1]), between(
        2, {}, (RAM + 4, b'\7'))), 2),
    ('a byte of an Async that is what stands', LOADED_SLICE.with_record(1, head=Head({}, ((DATA, b'\x11'),))), 2),
    ('a word of an Async at the first step', more(with_start({3: RAM}, BEGIN), between(0, {0: RAM})), 0),
    ('a byte of an Async at the first step', more(with_start(BEGINS, code(RAM + 4, *FIVE[1:3])), between(
        0, {}, code(RAM, FIVE[0]))), 0),
    ('a word of an Async behind a call', more(with_head({}, BEHIND, NINE), between(3, {10: 7})), 3),
    ('a word of an Async that is what stands', more(EXAMPLE_SLICE, between(4, {10: 7})), 4),
    ('a word of an Async at a call that is what stands', TRAPPED_SLICE.with_record(0, head=Head({0: RAM + 8, 10: 0})),
     1),
    ('an Async that changes the number of its call', MADE_SLICE.with_record(0, head=Head({17: 1}, (
        (RAM + 8, b'\x73'),))), 2),
    ('a value that a load does not ask for', more(EXAMPLE_SLICE, value(3, 0)), 3),
    ('a value that a call does not ask for', more(EXAMPLE_SLICE, value(2, 0)), 2),
    ('a time without its value', TIMED_SLICE.but(records=TIMED_SLICE.records[:1] + TIMED_SLICE.records[2:]), 1),
    ('an SC that gives 2', RESERVED_CALLS.with_record(0, value=2), 1),
    ('an SC without its value', RESERVED_CALLS.but(records=RESERVED_CALLS.records[1:]), 1),
    ('a byte that nobody hands over', with_head({10: 7}, BEHIND, (DATA + 9, b'\7')), 5),
    ('an instruction that nobody hands over', with_head({10: 7}, code(RAM + 12, FIVE[3]), NINE), 4),
    ('a step that goes on where nothing is known', LOOP.but(start=Head({0: RAM}, (code(RAM, 'nop'),))), 1),
]

# Slices that are well: more than any recording here shows.
WELL = [
    ('an Async and a value at one step', by_calls(
        ({0: CODE}, code(CODE, 'rdtime x5', 'j -4')), value(0, 7), between(2, {6: 1}), value(2, 9), steps=3)),
    ('a load over the last address, of one run and another', by_calls(
        ({0: CODE}, (0, b'\3\4'), code(CODE, 'lw x5, -2(x0)'), (0xfffffffe, b'\1\2')), steps=1)),
    ('an instruction at the last address', by_calls(({0: 0xfffffffc}, (0xfffffffc, words(*assemble('nop')))), steps=1)),
    ('an Async that sets the number of its call', MADE_SLICE.with_record(0, head=Head({17: 1}, (
        (RAM + 8, b'\x73'),))).with_record(1, number=1)),
    ('two calls, one behind the other', TWO_CALLS.with_record(0, head=Head({}, (code(RAM + 4, 'ecall'),)))),
    ('a head that changes each word', by_calls(
        ({0: RAM}, code(RAM, 'ecall')), call(0, {0: RAM, **{number: number for number in range(1, 32)}}), call(
            1, {0: CODE}, code(CODE, 'nop'), number=17), steps=3)),
    ('a store before a load behind a call', STORES),
]


def well(slice_):
    """The lines of all steps, by a model of a program that goes alone."""
    shows, stuck, bad = called_alone(slice_.spell())
    assert len(shows) == slice_.end and stuck is None and bad is None
    return lines(shows)


HEAD = EXAMPLE_SLICE.but(records=()).front()  # the magic and the head of the start
ITEM, NONE = word(2) + word(9) + b'\0', word(0) + b'\0'  # a head with a word, and one without an item
ONE, TWO = word(0) + b'\1', word(0) + b'\2'  # heads with a run, and with two
# What stands behind the head of the start, and where it is bad. It settles two steps at most, and no block is full.
FIELDS = [
    ('no record', b'', 0),
    ('a count of no step', b'\0\0', 1),
    ('more than 2^48 steps', b'\0' + varint((1 << 48) + 1), 1),
    ('a number of steps in a longer spelling', b'\0\x81\0', 1),
    ('a byte behind the end', b'\0\1\0', 2),
    ('a tag of 255', b'\xff\1', 0),
    ('a call at step 2^48', b'\1' + varint(1 << 48), 1),
    ('a distance of more than a step has', b'\2' + varint((1 << 64) - 1), 1),
    ('a distance in a longer spelling', b'\3\x81\0', 1),
    ('a value that is cut off', b'\3\1\1\2\3', 5),
    ('a call without its number', b'\1\2\0\0\0', 5),
    ('an Async without an item', b'\2\1' + NONE, 6),
    ('an Async whose run is cut off', b'\2\1' + ONE + word(8) + b'\3xx', 14),
    ('a second Async of a step', b'\2\1' + ITEM + b'\2\0' + ITEM, 12),
    ('an Async behind a value', b'\3\1' + word(7) + b'\2\0' + ITEM, 7),
    ('a second value of a step', b'\3\1' + word(7) + b'\3\0' + word(7), 7),
    ('an Async behind a call', b'\1\2' + word(0) + NONE + b'\2\0' + ITEM, 12),
    ('a value behind a call', b'\1\2' + word(0) + NONE + b'\3\0' + word(7), 12),
    ('a second call of a step', b'\1\2' + word(0) + NONE + b'\1\0' + word(0) + NONE, 12),
    ('an end at a call', b'\1\2' + word(0) + NONE + b'\0\0', 12),
    ('2^32 runs', b'\1\2' + word(0) + word(0) + varint(1 << 32), 10),
    ('a promise of runs that are not there', b'\1\2' + word(0) + word(0) + varint((1 << 32) - 1), 15),
    ('a count of runs in a longer spelling', b'\1\2' + word(0) + word(0) + b'\x80\0', 10),
    ('runs that touch', b'\2\1' + TWO + word(8) + b'\1x' + word(9) + b'\1x', 13),
    ('runs that overlap', b'\2\1' + TWO + word(8) + b'\2xx' + word(9) + b'\1x', 14),
    ('runs that fall', b'\2\1' + TWO + word(8) + b'\1x' + word(7) + b'\1x', 13),
    ('a run behind the last address', b'\2\1' + TWO + word(0xffffffff) + b'\1x' + word(0), 13),
    ('a run that goes past the last address', b'\2\1' + ONE + word(0xffffffff) + b'\2xx', 11),
    ('a run that goes past it by far', b'\2\1' + ONE + word(1) + varint(1 << 32), 11),
    ('a run of all addresses that is not there', b'\2\1' + ONE + word(0) + varint(1 << 32), 16),
    ('an empty run', b'\2\1' + ONE + word(8) + b'\0', 11),
    ('a length in a longer spelling', b'\2\1' + ONE + word(8) + b'\x81\0x', 11),
]
# The same in the head of the start: these bytes behind the magic, and where they are bad.
STARTS = [
    ('a mask that is cut off', b'\1\0\0', 7),
    ('a word that is cut off', word(1) + b'\0\0\0', 11),
    ('2^32 runs of the start', word(0) + varint(1 << 32), 8),
    ('runs of the start that touch', TWO + word(8) + b'\1x' + word(9) + b'\1x', 15),
    ('an empty run of the start', ONE + word(8) + b'\0', 13),
    ('a start without an item, and an end of no step', NONE + b'\0\0', 10),
]

MANY_LINES, MANY_BYTES, LONG = lines(observations(MANY, 9)), MANY_SLICE.spell(), 450
LATER = MANY_SLICE.records[LONG // 3].step  # the step of a call, which this record belongs to


def cut_of(records):
    """The slice of many calls, cut off within the record behind so many, and how many steps those settle."""
    whole = MANY_SLICE.but(records=MANY_SLICE.records[:records]).front()
    return whole + b'\1\3\0', len(whole) + 3, MANY_SLICE.records[records - 1].step


def cuts():
    data, length, settled = cut_of(LONG // 3)
    return case('a call slice that is cut within a record comes behind the whole blocks', 'replay', data,
                format_at(length), blocks(b''.join(MANY_LINES.splitlines(keepends=True)[:settled])))


def front(steps):
    """The whole blocks of the lines of so many steps."""
    return blocks(b''.join(MANY_LINES.splitlines(keepends=True)[:steps]))


CASES = once(SLICES_BY_CALLS, [
    *(case(f'{name} is replayed', 'replay', slice_, done, shown(data, root)) for name, data, root, slice_, _ in BOTH),
    *(case(f'{name} is gone through by calls', 'replay', data, done, well(data)) for name, data in WELL),
    *(case(f'{name} in a call slice', 'replay', changed(at, content), status)
      for name, at, content, status in CHANGES),
    *(case(f'{name} breaks a call slice', 'replay', data, broken(step)) for name, data, step in BREAKS),
    *(case(f'{name} is bad behind a start', 'replay', HEAD + records, format_at(len(HEAD) + at))
      for name, records, at in FIELDS),
    *(case(f'{name} is bad', 'replay', b'CXC1' + content, format_at(at)) for name, content, at in STARTS),
    *(case(f'a call slice cut after {length} bytes', 'replay', EXAMPLE_BYTES[:length], format_at(length))
      for length in range(4, len(EXAMPLE_BYTES))),
    case('a byte behind the end of a call slice', 'replay', EXAMPLE_BYTES + b'\0', format_at(len(EXAMPLE_BYTES))),
    case('a byte behind the end comes before a step of the end\'s in a call slice', 'replay',
         changed(69, b'\4') + b'\0', format_at(len(EXAMPLE_BYTES))),
    case('a byte behind the end of a call slice comes behind the whole blocks', 'replay', MANY_BYTES + b'\0',
         format_at(len(MANY_BYTES)), front(MANY_SLICE.records[-1].step)),
    case('a cut call slice comes behind the whole blocks', 'replay', MANY_BYTES[:-1], format_at(len(MANY_BYTES) - 1),
         front(MANY_SLICE.records[-1].step)),
    cuts(),
    case('a call that breaks comes behind the whole blocks', 'replay', MANY_SLICE.with_record(LONG // 3, number=1),
         broken(LATER), front(LATER)),
    case('a call that breaks comes before a bad field behind it', 'replay',
         MANY_SLICE.with_record(LONG // 3, number=1).spell()[:-1], broken(LATER), front(LATER)),
    case('a bad field of a call comes before its step', 'replay', changed(36, b'\1')[:60], format_at(60)),
])
CASES += [
    case('a call slice is no recording', 'trace all', EXAMPLE_SLICE, format_at(0)),
    case('a call slice has no window', 'window 0 1', EXAMPLE_SLICE, format_at(0)),
    case('a call slice has no process', 'process 9', EXAMPLE_SLICE, format_at(0)),
    case('a call slice has no roots', 'roots', EXAMPLE_SLICE, format_at(0)),
    case('a call slice is not upgraded', 'upgrade', EXAMPLE_SLICE, format_at(0)),
]
