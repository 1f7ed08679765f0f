"""Recordings of live machines by seeds: every word of the devices in its states, and the order within a step.

By seed 0 the clock is n + 1 in step n, a byte may arrive before the steps 0, 61, 122 and so on, and a command of the
block device may end before the steps 0, 37, 74 and so on.
"""
from case import case
from machines import li, store
from recordings import (
    MACHINE_EXTERNAL, MACHINE_SOFTWARE, MACHINE_TIMER, MARK_EVERY, PAGE, RAM, SUPERVISOR_EXTERNAL, Dma, Lines,
    Recording, Value, page, reset,
)
from recordings.devices import (
    BLOCK_ADDRESS, BLOCK_COMMAND, BLOCK_COUNT, BLOCK_SECTOR, BLOCK_STATE, COMPARE, COMPARE_HIGH, CONSOLE, CONSOLE_STATE,
    MACHINE_MASK, PENDING, POWER, SOFTWARE, SUPERVISOR_MASK, TIME, TIME_HIGH,
)
from recordings.fields import varint
from recordings.image import SECTOR, Image
from statuses import done, format_at
from today import RECORDS, not_recorded

FULL = 0xffffffff
DISK = bytes(number // 4 % 256 for number in range(4 * SECTOR))
BUFFER = RAM + PAGE  # a page of RAM that is 0 at first
STEPS_OF_STORE = 5  # of `store`: two for the place, two for the value, and the store


def load(place):
    return [*li('a0', place), 'lw a1, 0(a0)']


def made(lines, console=b'', disk=b'', ram=2, **named):
    """An image whose program is these lines, and a jump to itself behind them."""
    return Image({0: page(*lines, 'end: j end')}, ram, disk, console, **named)


def recorded(name, image, steps, *events, end=None, seed=0):
    """The recording of so many steps has these events, and it ends there, or earlier."""
    want = Recording(reset(), image.memory, end=end or steps, ram=image.ram, events=events,
                     version=image.version, split=image.split).marked()
    status, output = (done, want.spell()) if RECORDS else (not_recorded, b'')
    return case(name, f'record {steps} {seed}', image.spell(), status, output)


def loads(name, place, value, console=b'', disk=b''):
    """A load of a word at reset, in step 2."""
    return recorded(f'{name} at reset', made(load(place), console, disk), 3, Value(2, value))


def keeps(name, place, value, kept, *events):
    """A store of a word in step 4, and a load of it in step 7."""
    return recorded(f'{name} after a store of {value:08x}', made([*store(place, value), *load(place)]), 8, *events,
                    Value(7, kept))


def command(sector, address, count, number):
    """A command is stored in step 19."""
    return [*store(BLOCK_SECTOR, sector), *store(BLOCK_ADDRESS, address), *store(BLOCK_COUNT, count),
            *store(BLOCK_COMMAND, number)]


def refused(name, *words):
    """A command, after which the state is refused, on a machine with 16 sectors and 8 pages."""
    image = made([*command(*words), *load(BLOCK_STATE)], disk=4 * DISK, ram=8)
    return recorded(f'a command is refused: {name}', image, 60, Value(22, 3))


def sectors(first, count):
    return DISK[first * SECTOR:(first + count) * SECTOR]


def no_image(name, data, offset):
    return case(f'an image: {name}', 'record 5 0', data, format_at(offset) if RECORDS else not_recorded)


def waits(steps):
    """As many steps in which nothing happens."""
    return ['nop'] * steps


SMALL = made([])
BLOCK_WORDS = {BLOCK_SECTOR: 'SECTOR', BLOCK_ADDRESS: 'ADDR', BLOCK_COUNT: 'COUNT', BLOCK_COMMAND: 'CMD'}

CASES = [
    recorded('no event', SMALL, 3),
    recorded('the mark of a step that is followed by another', SMALL, MARK_EVERY + 1),
    recorded('no mark where the recording ends', SMALL, MARK_EVERY),

    # Loads of every word.
    loads('POWER', POWER, 0),
    loads('MSIP', SOFTWARE, 0),
    loads('TCMP, low', COMPARE, FULL),
    loads('TCMP, high', COMPARE_HIGH, FULL),
    loads('TIME, low', TIME, 3),
    loads('TIME, high', TIME_HIGH, 0),
    loads('IRQ_M', MACHINE_MASK, 0),
    loads('IRQ_S', SUPERVISOR_MASK, 0),
    loads('IRQ_PENDING', PENDING, 0),
    loads('IRQ_PENDING where a byte waits', PENDING, 1, b'A'),
    loads('CON_DATA where none waits', CONSOLE, 0),
    loads('CON_DATA where a byte waits', CONSOLE, 0x41, b'A'),
    loads('CON_DATA where the byte is 255', CONSOLE, 0xff, b'\xff'),
    loads('CON_STATE where none waits', CONSOLE_STATE, 0),
    loads('CON_STATE where a byte waits', CONSOLE_STATE, 1, b'A'),
    *(loads(name, place, 0, disk=DISK) for place, name in BLOCK_WORDS.items()),
    loads('STATE', BLOCK_STATE, 0),

    # Stores of every word.
    recorded('a store to POWER is the last step', made(store(POWER, 0)), 1000, end=STEPS_OF_STORE),
    recorded('the last step of all stores to POWER', made(store(POWER, 7)), STEPS_OF_STORE),
    recorded('the step that would store to POWER is not reached', made(store(POWER, 7)), STEPS_OF_STORE - 1),
    keeps('MSIP', SOFTWARE, FULL, 1, Lines(5, MACHINE_SOFTWARE)),
    keeps('MSIP', SOFTWARE, FULL - 1, 0),
    keeps('TCMP, low', COMPARE, 0x12345678, 0x12345678),
    keeps('TCMP, high', COMPARE_HIGH, 0x12345678, 0x12345678),
    keeps('TIME, low', TIME, FULL, 8),
    keeps('TIME, high', TIME_HIGH, FULL, 0),
    keeps('IRQ_M', MACHINE_MASK, FULL, 3),
    keeps('IRQ_S', SUPERVISOR_MASK, FULL, 3),
    keeps('IRQ_S', SUPERVISOR_MASK, 2, 2),
    keeps('IRQ_PENDING', PENDING, FULL, 0),
    keeps('CON_DATA', CONSOLE, 0x41, 0),
    keeps('CON_STATE', CONSOLE_STATE, FULL, 0),
    *(keeps(name, place, 0x12345678, 0x12345678) for place, name in BLOCK_WORDS.items()),
    keeps('STATE of an idle device', BLOCK_STATE, FULL, 0),

    # The clock, and the timer's line.
    recorded('the time', made(['rdtime a0', 'rdtimeh a1', 'rdtime a0']), 3, Value(0, 1), Value(1, 0), Value(2, 3)),
    recorded('a tick of seed 1', made(['rdtime a0', 'rdtime a0']), 2, Value(0, 2), Value(1, 4), seed=1),
    recorded('a tick of seed 2', made(['rdtime a0', 'rdtime a0']), 2, Value(0, 3), Value(1, 6), seed=2),
    recorded('a tick of the greatest seed', made(['rdtime a0']), 1, Value(0, 1), seed=(1 << 64) - 1),
    recorded('the line rises with the clock, and falls with a later alarm',
             made([*store(COMPARE_HIGH, 0), *store(COMPARE, 15), *store(COMPARE, 40)]), 60,
             Lines(14, MACHINE_TIMER), Lines(15, 0), Lines(39, MACHINE_TIMER)),
    recorded('the line rises behind the store of a past alarm', made([*store(COMPARE_HIGH, 0), *store(COMPARE, 3)]), 12,
             Lines(10, MACHINE_TIMER)),
    recorded('an alarm with the greatest high half does not ring', made(store(COMPARE, 0)), 50),

    # The console.
    recorded('a byte waits until the slot is empty, and the next one for its turn',
             made([*waits(70), *load(CONSOLE), *load(CONSOLE), *waits(50), *load(CONSOLE)], b'AB'), 140,
             Value(72, 0x41), Value(75, 0), Value(128, 0x42)),
    recorded('a load in the turn of a byte gets it', made([*waits(59), *load(CONSOLE)], b'A', disk=DISK), 70,
             Value(61, 0x41)),
    recorded('a byte that may arrive where the slot is emptied by that very step waits for the next turn',
             made([*waits(59), *load(CONSOLE), *load(CONSOLE), *waits(60), *load(CONSOLE)], b'AB'), 130,
             Value(61, 0x41), Value(64, 0), Value(127, 0x42)),
    recorded('no byte comes behind the last one', made([*load(CONSOLE), *waits(60), *load(CONSOLE_STATE)], b'A'), 80,
             Value(2, 0x41), Value(65, 0)),
    recorded('IRQ_S lets the console interrupt supervisor mode, until the byte is taken',
             made([*store(SUPERVISOR_MASK, 1), *load(CONSOLE)], b'A'), 12,
             Lines(5, SUPERVISOR_EXTERNAL), Value(7, 0x41), Lines(8, 0)),
    recorded('IRQ_M lets the console interrupt machine mode', made(store(MACHINE_MASK, 1), b'A'), 12,
             Lines(5, MACHINE_EXTERNAL)),
    recorded('both masks', made([*store(MACHINE_MASK, 3), *store(SUPERVISOR_MASK, 1)], b'A'), 12,
             Lines(5, MACHINE_EXTERNAL), Lines(10, MACHINE_EXTERNAL | SUPERVISOR_EXTERNAL)),
    recorded('a mask without the bit', made(store(MACHINE_MASK, 2), b'A'), 12),

    # The block device.
    recorded('a sector goes to RAM', made(command(1, BUFFER, 1, 1), disk=DISK), 60, Dma(37, BUFFER, sectors(1, 1))),
    recorded('eight sectors go to RAM, which is the most', made(command(1, BUFFER, 8, 1), disk=4 * DISK, ram=3), 60,
             Dma(37, BUFFER, (3 * DISK)[SECTOR:9 * SECTOR])),
    recorded('four sectors go to RAM', made(command(0, BUFFER, 4, 1), disk=DISK), 60, Dma(37, BUFFER, sectors(0, 4))),
    recorded('the last sector goes to the end of RAM', made(command(3, BUFFER + 7 * SECTOR, 1, 1), disk=DISK), 60,
             Dma(37, BUFFER + 7 * SECTOR, sectors(3, 1))),
    recorded('seed 5 ends it earlier', made(command(1, BUFFER, 1, 1), disk=DISK), 60, Dma(32, BUFFER, sectors(1, 1)),
             seed=5),
    recorded('a sector of RAM goes to the disk as it stands at the end, and back',
             made([*command(2, RAM, 1, 2), *store(BUFFER, 7), *waits(20), *command(2, BUFFER, 1, 1)], disk=DISK), 80,
             Dma(74, BUFFER, made([*command(2, RAM, 1, 2), *store(BUFFER, 7), *waits(20), *command(2, BUFFER, 1, 1)]
                                  ).memory[0][:SECTOR])),
    recorded('what is fetched in the turn of a transfer is what was moved',
             made([*command(0, RAM, 1, 1), 'j 0'], disk=page('rdtime a0', 'j -4', at=80)[:SECTOR]), 40,
             Dma(37, RAM, page('rdtime a0', 'j -4', at=80)[:SECTOR]), Value(37, 38), Value(39, 40)),
    recorded('the states: busy, done, and idle by a store',
             made([*command(1, BUFFER, 1, 1), *load(BLOCK_STATE), *waits(13), *load(BLOCK_STATE), *load(PENDING),
                   *store(BLOCK_STATE, 9), *load(BLOCK_STATE), *load(PENDING)], disk=DISK), 60,
             Value(22, 1), Dma(37, BUFFER, sectors(1, 1)), Value(38, 2), Value(41, 2), Value(49, 0), Value(52, 0)),
    recorded('a refused command interrupts until a store to STATE',
             made([*store(MACHINE_MASK, 2), *store(BLOCK_COMMAND, 3), *load(PENDING), *store(BLOCK_STATE, 0)]), 30,
             Lines(10, MACHINE_EXTERNAL), Value(12, 2), Lines(18, 0)),
    recorded('the end of a command interrupts supervisor mode, and a new command ends that',
             made([*store(SUPERVISOR_MASK, 2), *command(1, BUFFER, 1, 1), *waits(20), *store(BLOCK_COMMAND, 1)],
                  disk=DISK), 80,
             Dma(37, BUFFER, sectors(1, 1)), Lines(37, SUPERVISOR_EXTERNAL), Lines(50, 0),
             Dma(74, BUFFER, sectors(1, 1)), Lines(74, SUPERVISOR_EXTERNAL)),
    recorded('a command that is stored in the turn of an end begins',
             made([*command(1, BUFFER, 1, 1), *waits(13), *li('s6', BLOCK_COMMAND), *li('s7', 1), 'sw s7, 0(s6)'],
                  disk=DISK), 80, Dma(37, BUFFER, sectors(1, 1)), Dma(74, BUFFER, sectors(1, 1))),
    *(recorded(f'a busy device does not keep {name}',
               made([*command(1, BUFFER, 1, 1), *store(place, 2), *load(place)], disk=DISK), 60,
               Value(27, kept), Dma(37, BUFFER, sectors(1, 1)))
      for place, name, kept in [(BLOCK_SECTOR, 'SECTOR', 1), (BLOCK_ADDRESS, 'ADDR', BUFFER),
                                (BLOCK_COUNT, 'COUNT', 1), (BLOCK_COMMAND, 'CMD', 1), (BLOCK_STATE, 'STATE', 1)]),
    refused('0', 0, BUFFER, 1, 0),
    refused('3', 0, BUFFER, 1, 3),
    refused('no sector', 0, BUFFER, 0, 1),
    refused('nine sectors', 0, BUFFER, 9, 1),
    refused('a sector behind the disk', 16, BUFFER, 1, 1),
    refused('sectors that go past the disk', 15, BUFFER, 2, 2),
    refused('the greatest sector', FULL, BUFFER, 1, 1),
    refused('a place that is no multiple of 512', 0, BUFFER + 256, 1, 1),
    refused('a place below RAM', 0, RAM - SECTOR, 1, 1),
    refused('a place behind RAM', 0, RAM + 8 * PAGE, 1, 1),
    refused('bytes that go past RAM', 0, RAM + 8 * PAGE - SECTOR, 2, 1),
    refused('the greatest place', 0, FULL - SECTOR + 1, 1, 1),

    # What doesn't reach a device.
    recorded('a byte does not reach POWER', made([*li('a0', POWER), 'sb a0, 0(a0)']), 5),
    recorded('a byte does not take one of the console', made([*li('a0', CONSOLE), 'lbu a1, 0(a0)'], b'A'), 5),
    recorded('an atomic operation does not reach a device',
             made([*li('a0', CONSOLE), 'amoadd.w a1, a1, (a0)'], b'A'), 5),
    recorded('a reserved load does not reach a device', made([*li('a0', CONSOLE), 'lr.w a1, (a0)'], b'A'), 5),
    recorded('a step that is interrupted does not reach a device',
             made(['csrrwi zero, mie, 8', *li('t0', RAM + 16 * 4), 'csrrw zero, mtvec, t0', 'csrrsi zero, mstatus, 8',
                   *li('a0', CONSOLE), *store(SOFTWARE, 1), 'lw a1, 0(a0)', 'nop', 'nop', 'nop', 'lw a2, 0(a0)'], b'A'),
             14, Lines(12, MACHINE_SOFTWARE), Value(13, 0x41)),

    # Images.
    recorded('version 2 without its flag', made(['rdtime a0'], version=2), 1, Value(0, 1)),
    recorded('version 2 with its flag carries out a misaligned load',
             made([*li('a0', RAM + 0x101), 'lw a1, 0(a0)', 'nop', *store(POWER, 0)], version=2, split=True), 100,
             end=9),
    recorded('RAM of no page but one', Image({}, 1), 4),
    no_image('another magic', b'CXI3' + SMALL.spell()[4:], 0),
    no_image('a recording', Recording(reset(), {0: page(1)}).spell(), 0),
    no_image('a flag of 2', b'CXI2\2' + SMALL.spell()[4:], 4),
    no_image('version 1 has no flag', b'CXI1\0' + SMALL.spell()[4:], 4),
    no_image('too much RAM', b'CXI1' + varint(262145) + b'\0\0\0', 4),
    no_image('more pages than RAM has', b'CXI1\1\2', 5),
    no_image('a page beyond RAM', b'CXI1\1\1\1' + page(1) + b'\0\0', 6),
    no_image('a page of zeros', b'CXI1\1\1\0' + bytes(PAGE) + b'\0\0', 7),
    no_image('too many sectors', b'CXI1\1\0' + varint(131073), 6),
    no_image('a sector that is cut off', b'CXI1\1\0\1' + bytes(511), 518),
    no_image('too much console input', b'CXI1\1\0\0' + varint((1 << 20) + 1), 7),
    no_image('console input that is cut off', b'CXI1\1\0\0\2a', 9),
    no_image('a byte behind it', b'CXI1\1\0\0\0a', 8),
    no_image('no byte', b'', 0),
]
