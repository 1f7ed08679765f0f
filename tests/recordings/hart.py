"""A model of the whole hart: RV32IMA in three modes, behind Sv32, with traps and interrupts.

It is written from the RISC-V Unprivileged ISA 20191213 and the Privileged Architecture 1.12, with the choices of
docs/DECISIONS.md and no look at the program: it serves to say what has to come, not to be fast.
"""
from .arithmetic import ALL, combine, compute, is_taken, multiply, signed
from .control import Control
from .devices import WORDS
from .recording import PAGE, RAM, State
from .registers import (CONTROL, MACHINE, MIE, MPIE, MPP_MACHINE, MPRV, MXR, SIE, SPIE, SPP, SUM, SUPERVISOR, TSR, TVM,
                        TW, USER)

# Causes of exceptions. Those of an access are for a fetch, a load and a store.
TARGET, ILLEGAL, BREAKPOINT = 0, 2, 3
FETCH, LOAD, RESERVE, STORE, ATOMIC = range(5)
ACCESS_FAULT = {FETCH: 1, LOAD: 5, RESERVE: 5, STORE: 7, ATOMIC: 7}
PAGE_FAULT = {FETCH: 12, LOAD: 13, RESERVE: 13, STORE: 15, ATOMIC: 15}
MISALIGNED = {LOAD: 4, RESERVE: 4, STORE: 6, ATOMIC: 6}
# Bits of an entry of a page table.
V, R, W, X, U, A, D = (1 << bit for bit in (0, 1, 2, 3, 4, 6, 7))
COUNTERS = {CONTROL[name]: name for name in ('cycle', 'time', 'instret', 'cycleh', 'timeh', 'instreth')}
# Interrupts, the first before the others.
ORDER = (11, 3, 7, 9, 1, 5)


class Trap(Exception):
    """An exception, with its cause and what goes to mtval or stval."""

    def __init__(self, cause, value):
        super().__init__(f'trap {cause}')
        self.cause, self.value = cause, value


class Hart:
    """A hart and its RAM, step by step."""

    def __init__(self, state, memory, ram, split=False):
        """A hart in this state. `memory` has the pages that aren't all 0, by their numbers; RAM has `ram` pages."""
        self.memory = bytearray(ram * PAGE)
        for number, content in memory.items():
            self.memory[number * PAGE:(number + 1) * PAGE] = content
        self.registers, self.pc, self.mode = [0] + state.values[1:32], state['pc'], state['mode']
        self.control = Control(state)
        self.reserved, self.lines, self.split = state['reserved'], state['lines'], split
        self.reads = set()  # the pages that were read
        self.stored = None  # the word of a device that this step stored to, and the value
        self.ask = None
        self.forget()

    def forget(self):
        """Of the step, so far: the word, what it read and wrote, each an address and bytes, what it was given, and the
        places in RAM that it looked at and stored to, each with a length."""
        self.word = self.read = self.written = self.given = None
        self.looks, self.stores = [], []

    def state(self):
        named = {f'x{number}': self.registers[number] for number in range(1, 32)}
        return State(pc=self.pc, mode=self.mode, reserved=self.reserved, lines=self.lines, **named,
                     **self.control.values)

    def page(self, number):
        return bytes(self.memory[number * PAGE:(number + 1) * PAGE])

    # One step.

    def transfer(self, place, content):
        """A device writes bytes to RAM."""
        self.keep(place, content)
        if self.reserved is not None and -len(content) < place - self.reserved < 4:
            self.reserved = None

    def step(self, ask):
        """Carries out one step, and says how it ended. `ask` gives the value of a word's place, of time or timeh."""
        self.ask, self.stored, retired = ask, None, False
        self.forget()
        interrupt = self.due_interrupt()
        if interrupt is not None:
            number, mode = interrupt
            self.enter(mode, number, True, 0)
            ended = f'interrupt {number}'
        else:
            try:
                self.word = self.fetch()
                self.carry_out(self.word)
                ended, retired = 'retired', True
            except Trap as trap:
                is_delegated = self.mode != MACHINE and self.control['medeleg'] >> trap.cause & 1
                self.enter(SUPERVISOR if is_delegated else MACHINE, trap.cause, False, trap.value)
                ended = f'trap {trap.cause}'
        self.control.count(retired)
        return ended

    def due_interrupt(self):
        """The interrupt to be taken, and the mode that it goes to."""
        pending = (self.control['mip'] | self.lines) & self.control['mie']
        if not pending:
            return None
        status, delegated = self.control['mstatus'], self.control['mideleg']
        if self.mode < MACHINE or status & MIE:
            for number in ORDER:
                if (pending & ~delegated) >> number & 1:
                    return number, MACHINE
        if self.mode == USER or self.mode == SUPERVISOR and status & SIE:
            for number in ORDER:
                if (pending & delegated) >> number & 1:
                    return number, SUPERVISOR
        return None

    def enter(self, mode, cause, is_interrupt, value):
        """A trap or an interrupt goes to this mode."""
        control, status = self.control, self.control['mstatus']
        letter = 'm' if mode == MACHINE else 's'
        control[letter + 'epc'], control[letter + 'tval'] = self.pc, value
        control[letter + 'cause'] = cause | is_interrupt << 31
        if mode == MACHINE:
            was_on, status = status & MIE, status & ~(MIE | MPIE | MPP_MACHINE)
            status |= (MPIE if was_on else 0) | self.mode << 11
        else:
            was_on, status = status & SIE, status & ~(SIE | SPIE | SPP)
            status |= (SPIE if was_on else 0) | (SPP if self.mode else 0)
        control['mstatus'] = status
        vector = control[letter + 'tvec']
        self.pc = ((vector & ~3) + (4 * cause if is_interrupt and vector & 1 else 0)) & ALL
        self.mode, self.reserved = mode, None

    def leave(self, is_machine):
        """MRET or SRET."""
        control, status = self.control, self.control['mstatus']
        if is_machine:
            self.mode = status >> 11 & 3
            status = status & ~(MIE | MPIE | MPP_MACHINE) | MPIE | (MIE if status & MPIE else 0)
        else:
            self.mode = SUPERVISOR if status & SPP else USER
            status = status & ~(SIE | SPIE | SPP) | SPIE | (SIE if status & SPIE else 0)
        control['mstatus'] = status if self.mode == MACHINE else status & ~MPRV
        self.pc = control['mepc' if is_machine else 'sepc']

    # Memory.

    def translate(self, va, kind):
        """The place of an address by the walk of Sv32 (Privileged 4.3.2)."""
        mode, status = self.mode, self.control['mstatus']
        if mode == MACHINE and status & MPRV and kind != FETCH:
            mode = status >> 11 & 3
        satp = self.control['satp']
        if mode == MACHINE or not satp >> 31:
            return va
        table = (satp & 0x3fffff) * PAGE
        for level, index in ((1, va >> 22), (0, va >> 12 & 0x3ff)):
            at = table + 4 * index
            if not RAM <= at < RAM + len(self.memory):
                raise Trap(ACCESS_FAULT[kind], va)
            self.look(at, 4)
            entry = int.from_bytes(self.memory[at - RAM:at - RAM + 4], 'little')
            if not entry & V or entry & W and not entry & R:
                raise Trap(PAGE_FAULT[kind], va)
            if entry & (R | X):
                return self.leaf(entry, level, va, kind, mode, status)
            if entry & (A | D | U) or level == 0:
                raise Trap(PAGE_FAULT[kind], va)
            table = (entry >> 10) * PAGE

    def leaf(self, entry, level, va, kind, mode, status):
        """The place that a leaf gives, where it admits the access."""
        if kind == FETCH:
            is_admitted = entry & X
        elif kind in (LOAD, RESERVE):
            is_admitted = entry & R or entry & X and status & MXR
        else:
            is_admitted = entry & W and entry & D
        if mode == USER:
            is_owned = entry & U
        else:
            is_owned = not entry & U or kind != FETCH and status & SUM
        is_whole = level == 0 or entry >> 10 & 0x3ff == 0
        if not (is_admitted and is_owned and is_whole and entry & A):
            raise Trap(PAGE_FAULT[kind], va)
        number = entry >> 10
        return number * PAGE + va % PAGE if level == 0 else (number >> 10 << 22) + va % (1 << 22)

    def is_in_ram(self, place, length=1):
        return RAM <= place and place + length <= RAM + len(self.memory)

    def places(self, va, length, kind):
        """The places of an access with their lengths: two where it goes over the end of a page, else one."""
        if va % length == 0:
            return [(self.translate(va, kind), length)]
        if not self.split or kind in (RESERVE, ATOMIC):
            raise Trap(MISALIGNED[kind], va)
        first = min(length, PAGE - va % PAGE)
        parts = []
        for start, count in ((va, first), ((va + first) & ALL, length - first)):
            if count:
                place = self.translate(start, kind)
                if not self.is_in_ram(place):
                    raise Trap(ACCESS_FAULT[kind], start)
                parts.append((place, count))
        return parts

    def fetch(self):
        place = self.translate(self.pc, FETCH)
        if not self.is_in_ram(place, 4):
            raise Trap(ACCESS_FAULT[FETCH], self.pc)
        return self.loaded(place, 4)

    def look(self, place, length):
        """Bytes that the step reads."""
        self.reads.add((place - RAM) // PAGE)
        self.looks.append((place, length))

    def loaded(self, place, length):
        at = place - RAM
        self.look(place, length)
        return int.from_bytes(self.memory[at:at + length], 'little')

    def load(self, va, length, kind=LOAD):
        """The number at an address, which a device may give."""
        number = self.number_at(va, length, kind)
        self.read = (va, number.to_bytes(length, 'little'))
        return number

    def number_at(self, va, length, kind):
        parts = self.places(va, length, kind)
        place = parts[0][0]
        if len(parts) == 2:
            (low, count), (high, rest) = parts
            return self.loaded(low, count) | self.loaded(high, rest) << 8 * count
        if self.is_in_ram(place, length):
            return self.loaded(place, length)
        if kind == LOAD and length == 4 and place in WORDS:
            return self.ask(place)
        raise Trap(ACCESS_FAULT[kind], va)

    def store(self, va, length, value):
        parts = self.places(va, length, STORE)
        content = (value % (1 << 8 * length)).to_bytes(length, 'little')
        self.written = (va, content)
        if not self.is_in_ram(parts[0][0]):
            if length != 4 or parts[0][0] not in WORDS:
                raise Trap(ACCESS_FAULT[STORE], va)
            self.stored = (parts[0][0], value)
            return
        for place, count in parts:
            self.keep(place, content[:count])
            content = content[count:]

    def keep(self, place, content):
        """Bytes that RAM has from now on."""
        at = place - RAM
        self.memory[at:at + len(content)] = content
        self.stores.append((place, len(content)))

    # Instructions.

    def put(self, rd, value):
        if rd:
            self.registers[rd] = value & ALL

    def carry_out(self, word):
        a, b = self.registers[word >> 15 & 31], self.registers[word >> 20 & 31]
        opcode, funct3, rd = word & 0x7f, word >> 12 & 7, word >> 7 & 31
        immediate, top = signed(word >> 20, 12), word >> 25
        next_pc = self.pc + 4 & ALL
        if opcode == 0x13 and (funct3 not in (1, 5) or top in (0, 0x20 if funct3 == 5 else 0)):
            self.put(rd, compute((funct3, funct3 == 5 and top == 0x20), a, immediate & ALL))
        elif opcode == 0x33 and (top == 0 or top == 0x20 and funct3 in (0, 5)):
            self.put(rd, compute((funct3, top == 0x20), a, b))
        elif opcode == 0x33 and top == 1:
            self.put(rd, multiply(funct3, a, b))
        elif opcode == 0x03 and funct3 in (0, 1, 2, 4, 5):
            length = 1 << funct3 % 4
            loaded = self.load(a + immediate & ALL, length)
            self.put(rd, loaded if funct3 >= 4 else signed(loaded, 8 * length))
        elif opcode == 0x23 and funct3 < 3:
            self.store(a + signed(top << 5 | rd, 12) & ALL, 1 << funct3, b)
        elif opcode == 0x63 and funct3 not in (2, 3):
            next_pc = self.branch(word, is_taken(funct3, a, b))
        elif opcode == 0x6f:
            next_pc = self.jump(word, rd)
        elif opcode == 0x67 and funct3 == 0:
            next_pc = self.linked(rd, a + immediate & ~1)
        elif opcode == 0x37:
            self.put(rd, word & ~0xfff)
        elif opcode == 0x17:
            self.put(rd, self.pc + (word & ~0xfff))
        elif opcode == 0x2f and funct3 == 2:
            self.put(rd, self.atomic(word, a, b))
        elif opcode == 0x73 and funct3 % 4:
            self.put(rd, self.change_control(word, a))
        elif opcode == 0x73 and funct3 == 0:
            next_pc = self.system(word, next_pc)
        elif opcode != 0x0f or funct3 > 1:
            raise Trap(ILLEGAL, word)
        self.pc = next_pc

    def aligned(self, target):
        """The target of a jump, which has to be a multiple of 4."""
        target &= ALL
        if target % 4:
            raise Trap(TARGET, target)
        return target

    def linked(self, rd, target):
        target = self.aligned(target)
        self.put(rd, self.pc + 4)
        return target

    def branch(self, word, is_taken):
        bits = word >> 31 << 12 | (word >> 7 & 1) << 11 | (word >> 25 & 0x3f) << 5 | (word >> 8 & 0xf) << 1
        return self.aligned(self.pc + signed(bits, 13)) if is_taken else self.pc + 4 & ALL

    def jump(self, word, rd):
        bits = word >> 31 << 20 | (word >> 12 & 0xff) << 12 | (word >> 20 & 1) << 11 | (word >> 21 & 0x3ff) << 1
        return self.linked(rd, self.pc + signed(bits, 21))

    def atomic(self, word, a, b):
        """Loads and stores of a reserved word, and atomic operations: what they put into their register."""
        funct5 = word >> 27
        is_reserve = funct5 == 2
        if is_reserve and word >> 20 & 31 or funct5 not in (0, 1, 2, 3, 4, 8, 12, 16, 20, 24, 28):
            raise Trap(ILLEGAL, word)
        kind = RESERVE if is_reserve else ATOMIC
        place = self.places(a, 4, kind)[0][0]
        if not self.is_in_ram(place, 4):
            raise Trap(ACCESS_FAULT[kind], a)
        if funct5 == 3:
            self.given, self.reserved = self.outcome(place), None
            if self.given == 0:
                self.put_word(a, place, b)
            return self.given
        old = self.loaded(place, 4)
        self.read = (a, old.to_bytes(4, 'little'))
        if is_reserve:
            self.reserved = place
        else:
            self.put_word(a, place, combine(funct5, old, b))
        return old

    def put_word(self, va, place, value):
        """What an SC or an atomic operation stores."""
        self.written = (va, value.to_bytes(4, 'little'))
        self.keep(place, self.written[1])

    def outcome(self, place):
        """What an SC puts into its register: 0 where it stores."""
        return int(self.reserved != place)

    def change_control(self, word, a):
        """An instruction on a control register: what it puts into its register."""
        number, funct3, rd, source = word >> 20, word >> 12 & 7, word >> 7 & 31, word >> 15 & 31
        operand = source if funct3 & 4 else a
        writes = funct3 % 4 == 1 or source != 0
        if not self.control.is_legal(number, self.mode, writes):
            raise Trap(ILLEGAL, word)
        if number in COUNTERS:
            self.given = self.counter(COUNTERS[number])
            return self.given
        old = self.control.read(number, self.lines)
        if writes:
            base = self.control.operand(number, old)
            value = {1: operand, 2: base | operand, 3: base & ~operand}[funct3 % 4]
            self.control.write(number, value & ALL)
        return old if rd else 0

    def counter(self, name):
        """What a counter gives that all modes may see."""
        return self.ask(name) if name in ('time', 'timeh') else self.control.read(CONTROL[name], self.lines)

    def system(self, word, next_pc):
        """Calls, returns and fences: the next pc."""
        status = self.control['mstatus']
        if word == 0x73:
            raise Trap({USER: 8, SUPERVISOR: 9, MACHINE: 11}[self.mode], 0)
        if word == 0x100073:
            raise Trap(BREAKPOINT, self.pc)
        if word == 0x30200073 and self.mode == MACHINE:
            self.leave(True)
            return self.pc
        if word == 0x10200073 and (self.mode == MACHINE or self.mode == SUPERVISOR and not status & TSR):
            self.leave(False)
            return self.pc
        if word == 0x10500073 and (self.mode == MACHINE or not status & TW):
            return next_pc
        is_fence = word & 0xfe007fff == 0x12000073
        if is_fence and (self.mode == MACHINE or self.mode == SUPERVISOR and not status & TVM):
            return next_pc
        raise Trap(ILLEGAL, word)
