"""Images made at random: programs that use the devices, in each mode, behind Sv32 or not, and handlers for their traps.

`pick` is a random.Random everywhere. The first page has the start and the handlers, the next two the program, and the
rest of RAM data, page tables among it.
"""
import programs
from recordings import PAGE, RAM, assemble, page, words
from recordings.devices import (BLOCK_ADDRESS, BLOCK_COMMAND, BLOCK_COUNT, BLOCK_SECTOR, BLOCK_STATE, COMPARE,
                                COMPARE_HIGH, CONSOLE, CONSOLE_STATE, MACHINE_MASK, PENDING, POWER, SOFTWARE,
                                SUPERVISOR_MASK, TIME, TIME_HIGH)
from recordings.image import SECTOR, Image
from recordings.registers import CONTROL, MACHINE, MIE, SUM, SUPERVISOR

CODE, DATA = RAM + PAGE, RAM + 3 * PAGE
ROOT, TABLE, RAM_PAGES = 6, 7, 8  # the pages of the page tables, and how many there are
MACHINE_HANDLER, SUPERVISOR_HANDLER = 0x200, 0x600  # in the first page
WORDS = [MACHINE_MASK, SUPERVISOR_MASK, PENDING, SOFTWARE, COMPARE, COMPARE_HIGH, TIME, TIME_HIGH, CONSOLE,
         CONSOLE_STATE, BLOCK_SECTOR, BLOCK_ADDRESS, BLOCK_COUNT, BLOCK_COMMAND, BLOCK_STATE]
# Registers that programs may change at will, and those whose change would hide all else.
CONTROLS = [number for name, number in CONTROL.items() if name not in ('mtvec', 'stvec', 'satp', 'mepc', 'sepc')]
LEAF = 0xcf  # V, R, W, X, A and D of an entry
FULL = 0xffffffff


def li(register, value):
    """A register gets any word."""
    low = (value & 0xfff) - (value & 0x800) * 2
    return [f'lui {register}, {(value - low & FULL) >> 12}', f'addi {register}, {register}, {low}']


def store(place, value):
    return [*li('s6', place), *li('s7', value), 'sw s7, 0(s6)']


def command(pick):
    """The block device gets a command, most of which it can carry out."""
    address = pick.choice([DATA + SECTOR * pick.randrange(24), RAM + SECTOR * pick.randrange(64), pick.getrandbits(32)])
    return [
        *store(BLOCK_SECTOR, pick.choice([0, 1, 2, 3, 8, FULL])), *store(BLOCK_ADDRESS, address),
        *store(BLOCK_COUNT, pick.choice([1, 1, 2, 3, 8, 0, 9])), *store(BLOCK_COMMAND, pick.choice([1, 1, 2, 2, 0, 3])),
    ]


def use_of_devices(pick):
    """A few lines that have to do with the devices or the outside."""
    register = pick.choice(programs.FREE)
    place = pick.choice(WORDS)
    shape = pick.randrange(14)
    if shape < 3:
        return [*li('s6', place), f'lw {register}, 0(s6)']
    if shape == 3:
        return store(place, pick.choice([0, 1, 2, 3, FULL, pick.getrandbits(32)]))
    if shape == 4:
        return store(pick.choice([MACHINE_MASK, SUPERVISOR_MASK]), pick.randrange(4))
    if shape == 5:
        return [*store(COMPARE_HIGH, 0), *store(COMPARE, pick.randrange(3000))]
    if shape in (6, 7):
        return command(pick)
    if shape == 8:
        return [f'{pick.choice(["rdtime", "rdtimeh", "rdcycle"])} {register}']
    if shape == 9:
        operation = pick.choice(['csrrw', 'csrrs', 'csrrc'])
        source = pick.choice(['zero', register])
        return [f'{operation} {pick.choice(programs.FREE)}, {pick.choice(CONTROLS)}, {source}']
    if shape == 10:
        return [f'{pick.choice(["csrrsi", "csrrci", "csrrwi"])} {register}, mstatus, {pick.choice([8, 2, 10])}']
    if shape == 11:
        return [pick.choice(['ecall', 'ebreak', 'wfi', 'sfence.vma', 'mret', 'sret', '.word 0xffffffff', 'fence.i'])]
    if shape == 12:  # refused: a device is there for whole words alone
        line = pick.choice([f'lb {register}, 0(s6)', f'sb {register}, 0(s6)', f'lhu {register}, 2(s6)',
                            f'amoadd.w {register}, {register}, (s6)', f'lr.w {register}, (s6)', f'lw {register}, 2(s6)',
                            f'sc.w {register}, {register}, (s6)', f'lw {register}, 0x100(s6)'])
        return [*li('s6', pick.choice([place, POWER])), line]
    return [*li('s6', POWER), pick.choice([f'lw {register}, 0(s6)'] * 9 + [f'sw {register}, 0(s6)'])]


def handler(pick, letter):
    """Where traps of a mode go: it may serve a device, makes the line fall, and goes on behind an exception."""
    lines = [f'csrr s8, {letter}cause', f'blt s8, zero, {letter}i']
    lines += [f'csrr s8, {letter}epc', 'addi s8, s8, 4', f'csrw {letter}epc, s8', f'j {letter}x', f'{letter}i:']
    if letter == 'm':
        lines += [*li('s9', TIME), 'lw s8, 0(s9)', f'addi s8, s8, {pick.randrange(20, 900)}', *li('s9', COMPARE),
                  'sw s8, 0(s9)', *li('s9', SOFTWARE), 'sw zero, 0(s9)']
    serves = [
        [*li('s9', CONSOLE), 'lw s8, 0(s9)'], [*li('s9', BLOCK_STATE), 'sw zero, 0(s9)'],
        [*li('s9', PENDING), 'lw s8, 0(s9)'], [*li('s9', MACHINE_MASK if letter == 'm' else SUPERVISOR_MASK),
                                               'sw zero, 0(s9)'],
    ]
    for lines_of_one in pick.sample(serves, pick.randrange(5)):
        lines += lines_of_one
    lines += [f'csrw {letter}ip, zero'] if pick.random() < 0.7 else []
    return [*lines, f'{letter}x:', f'{letter}ret']


def start(pick, mode):
    """Sets the machine up and goes to the program in this mode."""
    status = mode << 11 | MIE << 4 | pick.choice([0, SUM]) | pick.choice([0, 2])
    named = {
        'mtvec': RAM + MACHINE_HANDLER, 'stvec': RAM + SUPERVISOR_HANDLER, 'mepc': CODE + 4 * pick.randrange(8),
        'mie': pick.choice([0xaaa, pick.getrandbits(12)]), 'mideleg': pick.choice([0, 0x222, pick.getrandbits(12)]),
        'medeleg': pick.choice([0, 0xb3ff, pick.getrandbits(16)]), 'mcounteren': pick.choice([7, 7, 0, 2]),
        'scounteren': pick.choice([7, 7, 0, 5]), 'satp': pick.choice([0, 1 << 31 | RAM // PAGE + ROOT]),
        'mstatus': status,
    }
    lines = store(COMPARE, pick.randrange(1000)) + store(COMPARE_HIGH, 0)
    for name, value in named.items():
        lines += [*li('s8', value), f'csrw {name}, s8']
    for register, value in (('s3', DATA), ('s4', 2 * PAGE - 4), ('s5', DATA)):
        lines += li(register, value)
    return [*lines, 'mret']


def first_page(pick, mode):
    content = bytearray(PAGE)
    for at, lines in ((0, start(pick, mode)), (MACHINE_HANDLER, handler(pick, 'm')),
                      (SUPERVISOR_HANDLER, handler(pick, 's'))):
        spelled = words(*assemble(*lines))
        content[at:at + len(spelled)] = spelled
    return bytes(content)


def tables(pick, mode):
    """A root by which each place has its own address, and the table of RAM's pages below it.

    The handlers are the supervisor's. Now and then a leaf admits less.
    """
    owned = 0 if mode == SUPERVISOR or pick.random() < 0.1 else 0x10
    leaves = {place >> 22: place >> 12 << 10 | LEAF | owned for place in (0, SOFTWARE, MACHINE_MASK, CONSOLE)}
    leaves[RAM >> 22] = (RAM // PAGE + TABLE) << 10 | 1
    pages = {number: (RAM // PAGE + number) << 10 | LEAF | (owned if number else 0) for number in range(RAM_PAGES + 1)}
    weakened = pick.choice([None, None, leaves, pages])
    if weakened:
        weakened[pick.choice(list(weakened)[1:])] &= ~(1 << pick.choice([0, 1, 2, 4, 6, 7]))
    return {ROOT: entries(leaves), TABLE: entries(pages)}


def entries(of):
    """The page of a table with these entries."""
    return b''.join(words(of.get(index, 0)) for index in range(1024))


def code(pick):
    """The two pages of a loop of pieces."""
    lines, count = [], pick.randrange(5, 70)
    for number in range(count):
        made = use_of_devices(pick) if pick.random() < 0.5 else programs.piece(pick, f'p{min(number + 2, count)}')
        lines += [f'p{number}:', *made]
    return words(*assemble(*['nop'] * 8, *lines, f'p{count}:', 'j p0')).ljust(2 * PAGE, b'\0')


def image(pick):
    """An image, whose program uses the devices."""
    mode = pick.choice([0, SUPERVISOR, MACHINE])
    content = code(pick)
    memory = {0: first_page(pick, mode), 1: content[:PAGE], 2: content[PAGE:], **tables(pick, mode)}
    for number in (3, 4, 5):
        memory[number] = pick.choice([bytes(PAGE), pick.randbytes(PAGE), page(1, at=4 * pick.randrange(1024))])
    version = pick.choice([1, 2])
    return Image(
        {number: content for number, content in memory.items() if any(content)}, pick.choice([RAM_PAGES, 9, 300]),
        disk=pick.randbytes(SECTOR * pick.choice([0, 1, 16, 16])), console=pick.randbytes(pick.choice([0, 3, 60])),
        version=version, split=version == 2 and pick.random() < 0.6,
    )
