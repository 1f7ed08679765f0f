"""An image: a machine before its first step, from which a recording can be made, and its bytes.

    Image({0: page('addi ra, ra, 1', 'j 0')}, console=b'hello').spell()

An image begins with the letters CXI1; or, in version 2, with CXI2 and the flag of the hart. Then it has the pages of
RAM, the pages that aren't all 0, the sectors of the disk, and the bytes that arrive at the console.
"""
from dataclasses import dataclass, field, replace

from .fields import varint
from .recording import spell_pages

SECTOR = 512
MOST_SECTORS, MOST_CONSOLE = 131072, 1 << 20
MAGIC = {1: b'CXI1', 2: b'CXI2'}


@dataclass(frozen=True)
class Image:
    memory: dict = field(default_factory=dict)  # the pages that aren't all 0, by their numbers
    ram: int = 1  # pages of RAM
    disk: bytes = b''  # whole sectors
    console: bytes = b''
    version: int = 1
    split: bool = False  # whether misaligned loads and stores are carried out

    def but(self, **named):
        return replace(self, **named)

    def spell(self):
        flag = b'' if self.version == 1 else bytes([self.split])
        return b''.join([
            MAGIC[self.version], flag, varint(self.ram), spell_pages(self.memory),
            varint(len(self.disk) // SECTOR), self.disk, varint(len(self.console)), self.console,
        ])
