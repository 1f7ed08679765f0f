"""What the steps of a recording show of the programs of its roots, and the lines that tell it."""
from dataclasses import dataclass

from .arithmetic import ALL
from .model import Model
from .registers import USER

SHOWN = ('retired', 'trap 8')  # a step that retired, or called the environment from user mode


@dataclass(frozen=True)
class Observation:
    """A step as its program sees it. Words are pc and x1 to x31; an access is an address and its bytes."""
    before: tuple
    word: int
    read: tuple  # or None, as the next two
    given: int
    written: tuple
    behind: tuple  # the words that the step leaves

    def seen(self):
        """The bytes that it saw, by their addresses."""
        return addressed((self.before[0], self.word.to_bytes(4, 'little'))) | addressed(self.read)

    def line(self, index):
        words = ' '.join(f'{word:08x}' for word in self.before)
        value = '-' if self.given is None else f'{self.given:08x}'
        return (f'obs {index} regs {words} word {self.word:08x} read {spelled(self.read)} value {value} '
                f'write {spelled(self.written)}\n').encode()


def addressed(access):
    """The bytes of an access by their addresses, which go on at 0 behind the last."""
    return {} if access is None else {access[0] + index & ALL: byte for index, byte in enumerate(access[1])}


def spelled(access):
    return '-' if access is None else f'{access[0]:08x}:{access[1].hex()}'


def words_of(hart):
    return (hart.pc, *hart.registers[1:])


def observation(hart, before, ended):
    """What a hart's last step shows. A call leaves pc + 4, and the other registers as they were."""
    behind = words_of(hart) if ended == 'retired' else (before[0] + 4 & ALL, *before[1:])
    return Observation(before, hart.word, hart.read, hart.given, hart.written, behind)


def shown(recording):
    """By each root, in the order in which they were first seen, the first step of it and its observations."""
    model, roots = Model(recording), {}
    hart = model.hart
    while model.at < recording.end:
        step, mode, root, before = model.at, hart.mode, hart.control['satp'], words_of(hart)
        ended = model.step()
        if mode == USER and ended in SHOWN:
            roots.setdefault(root, (step, []))[1].append(observation(hart, before, ended))
    return roots


def observations(recording, root):
    return shown(recording)[root][1]


def lines(observed):
    return b''.join(each.line(index) for index, each in enumerate(observed))


def root_lines(roots):
    """What `roots` tells of them."""
    return b''.join(f'root {root:08x} steps {len(observed)} first {first}\n'.encode()
                    for root, (first, observed) in roots.items())
