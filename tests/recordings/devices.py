"""A model of the devices, written from docs/DEVICES.md with no look at the program: what their words give and keep."""
from .image import SECTOR
from .recording import PAGE, RAM

POWER = 0x00100000
SOFTWARE = 0x02000000
COMPARE, COMPARE_HIGH = 0x02004000, 0x02004004
TIME, TIME_HIGH = 0x0200bff8, 0x0200bffc
MACHINE_MASK, SUPERVISOR_MASK, PENDING = 0x0c000000, 0x0c000004, 0x0c000008
CONSOLE, CONSOLE_STATE = 0x10000000, 0x10000004
BLOCK_SECTOR, BLOCK_ADDRESS, BLOCK_COUNT, BLOCK_COMMAND, BLOCK_STATE = range(0x10001000, 0x10001014, 4)
WORDS = {
    POWER, SOFTWARE, COMPARE, COMPARE_HIGH, TIME, TIME_HIGH, MACHINE_MASK, SUPERVISOR_MASK, PENDING, CONSOLE,
    CONSOLE_STATE, BLOCK_SECTOR, BLOCK_ADDRESS, BLOCK_COUNT, BLOCK_COMMAND, BLOCK_STATE,
}
IDLE, BUSY, DONE, REFUSED = range(4)
TO_RAM, TO_DISK = 1, 2
MOST_SECTORS_AT_ONCE = 8
# What the interrupt controller waits for.
BYTE_WAITS, BLOCK_ENDED = 1, 2


def halved(whole, half, value):
    """A number of 64 bits with its low or high half changed."""
    return whole & 0xffffffff << 32 * (1 - half) | value << 32 * half


class Block:
    """The block device and its disk."""

    def __init__(self, disk):
        self.disk = bytearray(disk)
        self.words = dict.fromkeys((BLOCK_SECTOR, BLOCK_ADDRESS, BLOCK_COUNT, BLOCK_COMMAND), 0)
        self.state = IDLE

    def load(self, place):
        return self.state if place == BLOCK_STATE else self.words[place]

    def store(self, place, value, ram):
        """A busy device takes nothing. Any value makes one that has ended idle."""
        if self.state == BUSY:
            return
        if place == BLOCK_STATE:
            self.state = IDLE
            return
        self.words[place] = value
        if place == BLOCK_COMMAND:
            self.state = BUSY if self.can_do(value, ram) else REFUSED

    def can_do(self, command, ram):
        """Whether a machine with so many pages of RAM and this disk can carry out the command."""
        sector, address, count = (self.words[place] for place in (BLOCK_SECTOR, BLOCK_ADDRESS, BLOCK_COUNT))
        return (command in (TO_RAM, TO_DISK) and 1 <= count <= MOST_SECTORS_AT_ONCE
                and (sector + count) * SECTOR <= len(self.disk) and address % SECTOR == 0
                and RAM <= address and address + count * SECTOR <= RAM + ram * PAGE)

    def complete(self, memory):
        """Ends the command. Gives the place and the bytes that go to RAM, or None."""
        first, address = self.words[BLOCK_SECTOR] * SECTOR, self.words[BLOCK_ADDRESS]
        length = self.words[BLOCK_COUNT] * SECTOR
        self.state = DONE
        if self.words[BLOCK_COMMAND] == TO_RAM:
            return address, bytes(self.disk[first:first + length])
        self.disk[first:first + length] = memory[address - RAM:address - RAM + length]
        return None


class Devices:
    """All devices of a machine, as a table of words."""

    def __init__(self, console, disk, ram):
        self.clock, self.compare, self.software, self.off = 0, (1 << 64) - 1, 0, False
        self.masks = {MACHINE_MASK: 0, SUPERVISOR_MASK: 0}
        self.slot, self.console, self.output = None, list(reversed(console)), bytearray()
        self.block, self.ram = Block(disk), ram

    def arrive(self):
        """The next byte of the console's input goes into the slot, where that is empty."""
        if self.slot is None and self.console:
            self.slot = self.console.pop()

    def pending(self):
        return (BYTE_WAITS if self.slot is not None else 0) | (
            BLOCK_ENDED if self.block.state in (DONE, REFUSED) else 0)

    def lines(self):
        """The interrupt lines: machine software 3, machine timer 7, supervisor external 9, machine external 11."""
        up = {
            3: self.software, 7: self.clock >= self.compare, 9: self.pending() & self.masks[SUPERVISOR_MASK],
            11: self.pending() & self.masks[MACHINE_MASK],
        }
        return sum(1 << bit for bit, is_up in up.items() if is_up)

    def load(self, place):
        """What a load of the word gives. That of the console's byte takes it."""
        if place == CONSOLE:
            byte, self.slot = self.slot or 0, None
            return byte
        if place >= BLOCK_SECTOR:
            return self.block.load(place)
        values = {
            POWER: 0, SOFTWARE: self.software, COMPARE: self.compare % (1 << 32), COMPARE_HIGH: self.compare >> 32,
            TIME: self.clock % (1 << 32), TIME_HIGH: self.clock >> 32, **self.masks, PENDING: self.pending(),
            CONSOLE_STATE: int(self.slot is not None),
        }
        return values[place]

    def store(self, place, value):
        if place == POWER:
            self.off = True
        elif place == SOFTWARE:
            self.software = value & 1
        elif place in (COMPARE, COMPARE_HIGH):
            self.compare = halved(self.compare, int(place == COMPARE_HIGH), value)
        elif place in self.masks:
            self.masks[place] = value & 3
        elif place == CONSOLE:
            self.output.append(value & 0xff)
        elif place >= BLOCK_SECTOR:
            self.block.store(place, value, self.ram)
