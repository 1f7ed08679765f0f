"""`replay` of process slices: the lines of what they show, and each rule of the format and of a step, broken.

The lines are those of a model of the machine that the slice was cut from.
"""
from case import case
from cases.process_slices import (
    ADDED, ADDED_SLICE, AGAIN, AGAIN_SLICE, CALLED, CHANGED, CHANGED_SLICE, COUNTDOWN, COUNTDOWN_SLICE, COUNTER_SLICE,
    COUNTING, DEVICE, ITSELF, ITSELF_SLICE, JOINED, JOINED_SLICE, LOOPS, MANY, MANY_SLICE, OVER, OVER_SLICE, OWN,
    OWN_SLICE, RESERVED, RESERVED_SLICE, ROOT, SERVED, SERVED_SLICE, SPLIT, SPLIT_SLICE, codes, handed, space,
)
from cases.root_lines import SHOWN, looping
from cases.step_lines import BLOCK
from played import CODE
from recordings import RAM
from recordings.alone import alone
from recordings.fields import varint, word
from recordings.observations import lines, observations
from recordings.slices import sliced
from statuses import broken, done, format_at


def shown(recording, root=ROOT):
    return lines(observations(recording, root))


def blocks(text):
    return text[:len(text) // BLOCK * BLOCK]


# Slices, and the recordings and roots that they were cut from.
GOOD = [
    ('a loop', LOOPS, looping(100), 7),
    ('a program that its kernel serves', SERVED_SLICE, SERVED, 9),
    ('bytes that change, and come back', AGAIN_SLICE, AGAIN, ROOT),
    ('what a program stores itself', OWN_SLICE, space(*OWN, x1=0xaa), ROOT),
    ('what a device writes over a store', OVER_SLICE, OVER, ROOT),
    ('accesses in two parts', SPLIT_SLICE, space(*SPLIT, x1=0x8303, x2=CODE, split=True), ROOT),
    ('a run of a load and of the instruction', JOINED_SLICE, JOINED, ROOT),
    ('a program that loads its own word', ITSELF_SLICE, ITSELF, ROOT),
    ('a program that changes its own word', CHANGED_SLICE, CHANGED, ROOT),
    ('an SC that stores and one that does not', RESERVED_SLICE, space(*RESERVED, x1=5), ROOT),
    ('atomic operations', ADDED_SLICE, space(*ADDED, x1=5), ROOT),
    ('counters', COUNTER_SLICE, COUNTING, ROOT),
    ('many steps without a group', COUNTDOWN_SLICE, space(*COUNTDOWN, steps=500), ROOT),
    ('many groups', MANY_SLICE, MANY, 7),
    ('a word of a device', sliced(observations(DEVICE, 5)), DEVICE, 5),
]

BYTES = CALLED.spell()


def changed(at, content):
    """The slice of the program that computes, stores, loads and calls, with bytes changed from an offset on."""
    return BYTES[:at] + content + BYTES[at + len(content):]


# What is changed in that slice, where the bytes are changed, to what, and the answer. No block of lines is full.
CHANGES = [
    ('another last letter', 3, b'2', format_at(0)),
    ('an end that comes first', 4, b'\0', format_at(4)),
    ('a tag that is none comes first', 4, b'\2', format_at(4)),
    ('a first step that is not the first', 5, b'\1', broken(0)),
    ('a register that is what stands', 14, word(0), broken(0)),
    ('pc between two instructions', 10, b'\2', broken(0)),
    ('pc where no word is known', 10, b'\4', broken(0)),
    ('no run, and an end behind it that is none', 18, b'\0', format_at(21)),
    ('nine runs', 18, b'\x09', format_at(18)),
    ('a run without bytes', 23, b'\0', format_at(23)),
    ('a run of nine bytes', 23, b'\x09', format_at(23)),
    ('an address that the step does not see', 19, b'\xfc', broken(0)),
    ('a word that is no instruction', 24, b'\x92', broken(0)),
    ('a flag that is none', 28, b'\2', format_at(28)),
    ('a step that comes again', 30, b'\0', format_at(30)),
    ('a step that is left out', 30, b'\2', broken(1)),
    ('bytes that go past the last address', 36, b'\xfe\xff\xff\xff', format_at(40)),
    ('a second end', 80, b'\2', format_at(80)),
    ('an end at the last group', 81, b'\0', format_at(81)),
    ('a step behind the last group whose word is not known', 81, b'\2', broken(4)),
]


def with_words(words, index=1):
    """That slice with these words handed to a step."""
    return CALLED.with_group(index, words=words)


def with_runs(*runs, index=1):
    """That slice with these runs handed to a step, beside its word."""
    own = CALLED.groups[index].runs
    return CALLED.with_group(index, runs=tuple(sorted([*own, *runs])))


def one(line, *runs, words=None, value=None):
    """A slice of one step, of this instruction, with these runs before and behind its word."""
    return handed(({0: CODE, **(words or {})}, tuple(sorted([*codes(CODE, line), *runs])), value))


DATA = (0x100, b'\1\2\3\4')

# Slices of which a step breaks a rule.
BREAKS = [
    ('a register of a later step that is what stands', with_words({1: 5}), 1),
    ('pc of a later step that is what stands', with_words({0: RAM + 4}), 1),
    ('a byte that is known', with_runs((RAM + 256, b'\5'), index=2), 2),
    ('a byte of the step\'s own store', with_runs((RAM + 256, b'\6')), 1),
    ('a byte in front of what is loaded', with_runs((RAM + 255, b'\6'), index=2), 2),
    ('a byte behind what is loaded', with_runs((RAM + 260, b'\6'), index=2), 2),
    ('a byte of the instruction behind', CALLED.with_group(2, runs=((RAM + 8, b'\x03\xa1\x01\x10\x73'),)), 2),
    ('a value that a sum does not ask for', CALLED.with_group(0, value=0), 0),
    ('a value that a store does not ask for', CALLED.with_group(1, value=0), 1),
    ('a value that a call does not ask for', CALLED.with_group(3, value=0), 3),
    ('a group of which no byte is the word', CALLED.with_group(1, runs=((RAM + 4, b'\x23\xa0\x11'),)), 1),
    ('a load whose bytes are missing', one('lw x5, 0x100(x0)'), 0),
    ('a load whose last byte is missing', one('lw x5, 0x100(x0)', (0x100, b'\1\2\3')), 0),
    ('an LR whose address is between two words', one('lr.w x5, (x2)', (0x102, b'\1\2\3\4'), words={2: 0x102}), 0),
    ('an SC whose address is between two words', one('sc.w x5, x0, (x2)', words={2: 0x102}, value=1), 0),
    ('an AMO whose address is between two words', one('amoadd.w x5, x0, (x2)', (0x101, b'\1\2\3\4'), words={2: 0x101}),
     0),
    ('an LR with a value', one('lr.w x5, (x2)', DATA, words={2: 0x100}, value=0), 0),
    ('an SC without a value', one('sc.w x5, x0, (x2)', words={2: 0x100}), 0),
    ('an SC that gives 2', one('sc.w x5, x0, (x2)', words={2: 0x100}, value=2), 0),
    ('an SC that sees its word', one('sc.w x5, x0, (x2)', DATA, words={2: 0x100}, value=0), 0),
    ('a counter without a value', one('rdcycle x5'), 0),
    ('the time without a value', one('rdtime x5'), 0),
    ('a branch to no instruction', one('beq x0, x0, 6'), 0),
    ('a jump to no instruction', one('jal x1, 2'), 0),
    ('a jump by a register to no instruction', one('jalr x1, 2(x0)'), 0),
    ('a breakpoint', one('ebreak'), 0),
    ('a return of the machine', one('mret'), 0),
    ('a return of the supervisor', one('sret'), 0),
    ('a fence of translations', one('sfence.vma'), 0),
    ('a counter that is written', one('csrrw x5, cycle, x0', value=0), 0),
    ('a counter whose bits are set', one('csrrs x5, cycle, x1', value=0), 0),
    ('a counter whose bits are set by a number', one('csrrsi x5, cycle, 1', value=0), 0),
    ('a register of the machine', one('csrrs x5, mstatus, x0', value=0), 0),
    ('a counter of the machine', one('csrrs x5, mcycle, x0', value=0), 0),
    ('a counter of an event', one('csrrs x5, 0xc03, x0', value=0), 0),
    ('a word of zeros', one('.word 0'), 0),
    ('a step that goes on behind a call', handed(({0: CODE}, tuple(codes(CODE, 'ecall'))), steps=2), 1),
]

# One step that is well: its instruction, bytes, words and a value.
WELL = [
    ('a wait for an interrupt', one('wfi')),
    ('a fence', one('fence')),
    ('a fence of instructions', one('fence.i')),
    ('a load between two words', one('lw x5, 0x102(x0)', (0x102, b'\1\2\3\4'))),
    ('a load over the last address', one('lw x5, -2(x0)', (0xfffffffe, b'\1\2'), (0, b'\3\4'))),
    ('an instruction at the last address', handed(({0: 0xfffffffc}, tuple(codes(0xfffffffc, 'nop'))))),
    ('the time of a hart', one('rdtime x5', value=0xffffffff)),
    ('an SC that gives 0', one('sc.w x5, x1, (x2)', words={1: 6, 2: 0x100}, value=0)),
    ('an SC that gives 1', one('sc.w x5, x1, (x2)', words={1: 6, 2: 0x100}, value=1)),
    ('a counter into no register', one('csrrs x0, instret, x0', value=3)),
]


def well(slice_):
    """The line of one step, by a model of a program that goes alone."""
    shows, stuck, bad = alone(slice_.spell())
    assert len(shows) == 1 and stuck is None and bad is None
    return lines(shows)


HEAD = CALLED.but(groups=CALLED.groups[:1]).spell()[:-2]  # the magic and the first group


def behind_head(name, group, at):
    """The first group, then these bytes, of which the field at this offset is bad. The first step is shown, in less
    than a block."""
    return case(name, 'replay', HEAD + group, format_at(len(HEAD) + at))


MASKED, UNMASKED = word(2) + word(9), word(0)
RUN, TWO_RUNS = b'\1\1' + UNMASKED + b'\1', b'\1\1' + UNMASKED + b'\2'
FIELDS = [
    ('a group without an item', b'\1\1' + UNMASKED + b'\0\0', 7),
    ('a step of 2^48', b'\1' + varint(1 << 48), 1),
    ('a distance of more than a step has', b'\1' + varint((1 << 64) - 1), 1),
    ('a distance in a longer spelling', b'\1\x81\0', 1),
    ('a count of runs in a longer spelling', b'\1\1' + MASKED + b'\x80\0', 10),
    ('a run that follows the one before it at once', TWO_RUNS + word(8) + b'\1x' + word(9) + b'\1x\0', 13),
    ('a run that begins in the one before it', TWO_RUNS + word(8) + b'\2xx' + word(9) + b'\1x\0', 14),
    ('a run that begins below the one before it', TWO_RUNS + word(8) + b'\1x' + word(7) + b'\1x\0', 13),
    ('a run behind the last address', TWO_RUNS + word(0xffffffff) + b'\1x' + word(0), 13),
    ('a run that goes past the last address', RUN + word(0xffffffff) + b'\2xx\0', 11),
    ('a length in a longer spelling', RUN + word(8) + b'\x81\0x\0', 11),
    ('a flag of 255', b'\1\1' + MASKED + b'\0\xff', 11),
    ('more than 2^48 steps', b'\0' + varint((1 << 48) + 1), 1),
    ('a number of steps in a longer spelling', b'\0\x81\0', 1),
    ('a group in place of the end, of a later tag', b'\3', 0),
    ('a byte behind the end', b'\0\1\0', 2),
]

CASES = [
    case('the slice of a program that computes, stores, loads and calls', 'replay', CALLED, done, SHOWN),
    *(case(f'{name} is replayed', 'replay', data, done, shown(*of)) for name, data, *of in GOOD),
    *(case(f'{name} is gone through', 'replay', data, done, well(data)) for name, data in WELL),
    *(case(f'{name} in a slice', 'replay', changed(at, content), status) for name, at, content, status in CHANGES),
    *(case(f'{name} breaks a slice', 'replay', data, broken(step)) for name, data, step in BREAKS),
    *(behind_head(f'{name} is bad', group, at) for name, group, at in FIELDS),
    *(case(f'a slice cut after {length} bytes', 'replay', BYTES[:length], format_at(length))
      for length in range(len(BYTES)) if length not in (0, 1, 2, 3)),
    case('a byte behind the end of a slice', 'replay', BYTES + b'\0', format_at(len(BYTES))),
    case('a byte behind the end comes before a step of the end\'s', 'replay', changed(81, b'\2') + b'\0',
         format_at(len(BYTES))),
    case('a byte behind the end comes behind the whole blocks', 'replay', MANY_SLICE.spell() + b'\0',
         format_at(len(MANY_SLICE.spell())), blocks(lines(observations(MANY, 7)[:-1]))),
    case('a cut slice comes behind the whole blocks', 'replay', MANY_SLICE.spell()[:-1],
         format_at(len(MANY_SLICE.spell()) - 1), blocks(lines(observations(MANY, 7)[:-1]))),
    case('a step that breaks comes behind the whole blocks', 'replay', MANY_SLICE.with_group(400, value=1), broken(400),
         blocks(lines(observations(MANY, 7)[:400]))),
    case('a step that breaks comes before a bad field behind it', 'replay',
         MANY_SLICE.with_group(400, value=1).spell()[:-1], broken(400), blocks(lines(observations(MANY, 7)[:400]))),
    case('a bad field comes before a step of its own group', 'replay', changed(28, b'\2')[:29], format_at(28)),
    case('a slice is no recording', 'trace all', CALLED, format_at(0)),
    case('the magic of a slice alone', 'replay', b'CXP1', format_at(4)),
]
