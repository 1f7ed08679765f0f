"""Control registers: what their reads give and what their writes keep, by the Privileged Architecture 1.12.

What the standard leaves open is chosen as docs/DECISIONS.md says.
"""
from .reading import MASKS
from .recording import WIDE
from .registers import CONTROL, MACHINE, MPP_MACHINE, STATE, SUPERVISOR, TVM, WORD

SSTATUS = 0xc0122  # the bits of mstatus that are seen in sstatus
SUPERVISOR_SOFTWARE = 2  # the one bit of sip that supervisor mode writes
MISA = 0x40141101
NAME = {number: name for name, number in CONTROL.items()}
WIDE_HALF = {half: (whole, at) for whole, halves in WIDE.items() for at, half in ((0, halves[0]), (32, halves[1]))}
READ_ONLY = {'cycle': 'mcycle', 'cycleh': 'mcycleh', 'instret': 'minstret', 'instreth': 'minstreth'}
# Registers that read 0 and keep nothing: events, their counters, the protection of places, and the hart's numbers.
EMPTY = {
    0x10a, 0x30a, 0x31a, 0x310, 0x320, *range(0x323, 0x340), *range(0x3a0, 0x3a4), *range(0x3b0, 0x3c0),
    *range(0xb03, 0xb20), *range(0xb83, 0xba0), *range(0xc03, 0xc20), *range(0xc83, 0xca0), *range(0xf11, 0xf16),
}


class Control:
    """The control registers of a hart, by the names of a state's words; the counters are whole numbers."""

    def __init__(self, state):
        self.values = {name: state[name] for name in STATE[WORD['mstatus']:WORD['satp'] + 1]}
        self.values.update({name: state[name] for name in WIDE})
        self.wrote = None  # the counter that this step wrote

    def __getitem__(self, name):
        return self.values[name]

    def __setitem__(self, name, value):
        self.values[name] = value

    def is_legal(self, number, mode, writes):
        """Whether an instruction of this mode may name the register."""
        if number not in EMPTY and number not in NAME or number >> 8 & 3 > mode or writes and number >> 10 == 3:
            return False
        if number == CONTROL['satp'] and mode == SUPERVISOR and self['mstatus'] & TVM:
            return False
        if number & ~0x9f == 0xc00 and number & 0x60 == 0:
            bit = 1 << number % 32
            return (mode == MACHINE or bool(self['mcounteren'] & bit)) and (mode != 0 or bool(self['scounteren'] & bit))
        return True

    def read(self, number, lines):
        """What a read gives; `time` isn't asked here."""
        name = READ_ONLY.get(NAME.get(number), NAME.get(number))
        if number in EMPTY:
            return 0
        if name in WIDE_HALF:
            whole, at = WIDE_HALF[name]
            return self[whole] >> at & 0xffffffff
        delegated = self['mideleg']
        derived = {
            'misa': MISA, 'sstatus': self['mstatus'] & SSTATUS, 'sie': self['mie'] & delegated,
            'mip': self['mip'] | lines, 'sip': (self['mip'] | lines) & delegated,
        }
        return derived[name] if name in derived else self[name]

    def operand(self, number, read):
        """What the bits of an instruction are set and cleared in: of mip without the lines."""
        return self['mip'] if number == CONTROL['mip'] else read

    def write(self, number, value):
        name = NAME.get(number)
        if name in WIDE_HALF:
            self.wrote, at = WIDE_HALF[name]
            other = self[self.wrote] & 0xffffffff << 32 - at
            self[self.wrote] = other | value << at
        elif name == 'sstatus':
            self.write(CONTROL['mstatus'], self['mstatus'] & ~SSTATUS | value & SSTATUS)
        elif name == 'sie':
            self['mie'] = self['mie'] & ~self['mideleg'] | value & self['mideleg'] & MASKS['mie']
        elif name == 'sip':
            kept = self['mideleg'] & SUPERVISOR_SOFTWARE
            self['mip'] = self['mip'] & ~kept | value & kept
        elif name == 'mstatus':
            kept = value & MASKS['mstatus']
            if kept & MPP_MACHINE == 2 << 11:
                kept = kept & ~MPP_MACHINE | self['mstatus'] & MPP_MACHINE
            self['mstatus'] = kept
        elif name in self.values:
            self[name] = value & MASKS.get(name, ~0)

    def count(self, retired):
        """A step has passed: the counters that it didn't write go on."""
        for name, passed in (('mcycle', 1), ('minstret', int(retired))):
            if self.wrote != name:
                self[name] = (self[name] + passed) % (1 << 64)
        self.wrote = None
