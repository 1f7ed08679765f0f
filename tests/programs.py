"""Recordings made at random: programs that compute, branch, load and store. Those in machine mode take no trap, and
those in user mode call a kernel."""
from recordings import PAGE, RAM, Dma, Lines, Recording, State, page
from recordings.assembler import IMMEDIATE, REGISTERS
from recordings.registers import MACHINE, MIE, MPP_MACHINE, MPP_SUPERVISOR, MPRV, USER, WORD
from recordings.reading import MASKS

# Registers that programs compute with. s3 holds the first place of the data, s4 the mask of a word in it, and s5 the
# place of such a word, all the time.
FREE = 'ra sp gp tp t0 t1 t2 s0 s1 a0 a1 a2 a3 a4 a5 a6 a7 s2 t3 t4 t5 t6'.split()
DATA, DATA_PAGES = 2, 4  # the first page of the data, and how many there are
KERNEL = DATA + DATA_PAGES  # the page of what is called
LOADS = [('lb', 1), ('lbu', 1), ('lh', 2), ('lhu', 2), ('lw', 4)]
STORES = [('sb', 1), ('sh', 2), ('sw', 4)]
ATOMICS = ['amoswap', 'amoadd', 'amoxor', 'amoand', 'amoor', 'amomin', 'amomax', 'amominu', 'amomaxu', 'sc']


def piece(pick, next_label):
    """A few lines that belong together. Branches go to the piece behind the next one."""
    one, two, three = (pick.choice(FREE) for _ in range(3))
    shape = pick.randrange(10)
    if shape < 3:
        return [f'{pick.choice(list(REGISTERS))} {one}, {two}, {three}']
    if shape == 3:
        return [f'{pick.choice(list(IMMEDIATE))} {one}, {two}, {pick.randrange(-2048, 2048)}']
    if shape == 4:
        return [pick.choice([f'lui {one}, {pick.randrange(1 << 20)}', f'auipc {one}, {pick.randrange(1 << 20)}',
                             f'{pick.choice(["slli", "srli", "srai"])} {one}, {two}, {pick.randrange(32)}'])]
    if shape == 5:
        return [f'{pick.choice(["beq", "bne", "blt", "bge", "bltu", "bgeu"])} {one}, {two}, {next_label}']
    if shape == 6:
        return [f'and s5, {one}, s4', 'add s5, s5, s3']
    if shape == 7:
        name, length = pick.choice(LOADS)
        return [f'{name} {one}, {pick.randrange(0, 4, length)}(s5)']
    if shape == 8:
        name, length = pick.choice(STORES)
        return [f'{name} {one}, {pick.randrange(0, 4, length)}(s5)']
    return [pick.choice([f'lr.w {one}, (s5)', f'{pick.choice(ATOMICS)}.w {one}, {two}, (s5)'])]


def code(pick, calls):
    """The two pages of a loop of random pieces, which may go over the border between them, with calls or without."""
    lines, count = [], pick.randrange(3, 60)
    for number in range(count):
        lines += [f'p{number}:', *piece(pick, f'p{min(number + 2, count)}')]
        lines += ['ecall'] if calls and pick.random() < 0.2 else []
    lines += [f'p{count}:', 'j p0']
    at = pick.choice([0, 4 * pick.randrange(900), PAGE - 4 * pick.randrange(1, 40)])
    whole = page('nop') + page('nop')
    spelled = page(*lines)[:4 * len(lines)]
    return at, (whole[:at] + spelled + whole[at + len(spelled):])[:2 * PAGE]


def start_state(pick, at):
    """A state of machine mode that keeps all rules and takes no interrupt. Registers that don't matter are random."""
    state = State(**{f'x{number}': pick.getrandbits(32) for number in range(1, 32)})
    named = {
        name: pick.getrandbits(32) & MASKS.get(name, ~0)
        for name in WORD if name[0] in 'ms' and name not in ('mode', 'mstatus') and WORD[name] > 32
    }
    status = pick.getrandbits(32) & MASKS['mstatus'] & ~(MIE | MPRV | MPP_MACHINE)
    last = PAGE * DATA_PAGES - 4
    return state.but(**named).but(
        pc=RAM + at, mode=MACHINE, mstatus=status | pick.choice([0, MPP_SUPERVISOR, MPP_MACHINE]),
        lines=pick.getrandbits(32) & MASKS['lines'],
        mcycle=pick.choice([0, (1 << 64) - 20, pick.getrandbits(64)]), minstret=pick.getrandbits(64),
        reserved=pick.choice([None, RAM + DATA * PAGE]),
        s3=RAM + DATA * PAGE, s4=last, s5=RAM + DATA * PAGE + (pick.getrandbits(32) & last),
    )


def events(pick, start, base, end):
    """Transfers to the data, and changes of the lines."""
    made, lines = [], start['lines']
    for step in sorted(pick.sample(range(base, end), min(end - base, pick.randrange(6)))):
        if pick.random() < 0.7:
            at = pick.randrange(DATA * PAGE, (DATA + DATA_PAGES) * PAGE - 64)
            made.append(Dma(step, RAM + at, pick.randbytes(pick.randrange(1, 64))))
        if pick.random() < 0.5:
            mask = pick.getrandbits(32) & MASKS['lines']
            if mask != lines:
                made.append(Lines(step, mask))
                lines = mask
    return tuple(made)


def recording(pick, with_events, with_version_2, calls=False):
    """A recording of up to 400 steps. `pick` is a random.Random."""
    at, content = code(pick, calls)
    start = start_state(pick, at)
    base = pick.choice([0, 7, pick.randrange(1 << 40)])
    end = base + pick.choice([1, 2, pick.randrange(1, 400)])
    memory = {0: content[:PAGE], 1: content[PAGE:]}
    for number in range(DATA, DATA + DATA_PAGES + 1):
        memory[number] = pick.choice([bytes(PAGE), pick.randbytes(PAGE), page(1, at=4 * pick.randrange(1024))])
    version = pick.choice([1, 2]) if with_version_2 else 1
    return Recording(
        start, {number: content for number, content in memory.items() if any(content)}, base=base, end=end,
        ram=pick.choice([7, 8, 200]), events=events(pick, start, base, end) if with_events else (), version=version,
        split=version == 2 and pick.random() < 0.5,
    ).marked()


def of_user(pick):
    """The same in user mode, without translation, and longer. At each call the kernel changes the root, a register and
    a word of the data."""
    made = recording(pick, True, True, calls=True)
    one, other = pick.sample([0, 7, pick.getrandbits(31), 0x7fffffff], 2)
    start = made.start.but(mode=USER, satp=one, sscratch=other, mie=0, medeleg=0, mtvec=RAM + KERNEL * PAGE)
    return made.but(start=start, end=made.end + 100, memory=made.memory | {KERNEL: page(
        'csrr s6, mepc', 'addi s6, s6, 4', 'csrw mepc, s6',
        'csrr s7, satp', 'csrrw s7, sscratch, s7', 'csrw satp, s7', 'sw s7, 0(s5)', 'mret')}).marked()
