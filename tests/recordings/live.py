"""A model of the live machine and the recorder: an image, what the outside answers, and the recording of it.

    record(image, seeded(5), 1000).spell()
"""
from dataclasses import dataclass

from .devices import BUSY, Devices
from .hart import Hart
from .recording import Dma, Lines, Recording, Value, reset


@dataclass(frozen=True)
class Outside:
    """What happened outside since the turn before."""
    ticks: int = 0  # by how much the clock goes on
    console: bool = False  # whether a byte of the console's input may arrive
    block: bool = False  # whether the block device ends what it does


def seeded(seed):
    """The answers of a seed, without an end."""
    n = 0
    while True:
        yield Outside(1 + seed % 3, (n + seed) % 61 == 0, (n + seed) % 37 == 0)
        n += 1


class Live:
    """A machine with its devices, from reset on."""

    def __init__(self, image):
        self.hart = Hart(reset(), image.memory, image.ram, image.split)
        self.devices = Devices(image.console, image.disk, image.ram)
        self.at = 0

    def ask(self, what):
        """The value of a word of a device, or of the clock."""
        clock = self.devices.clock
        return {'time': clock % (1 << 32), 'timeh': clock >> 32}[what] if what in ('time', 'timeh') else (
            self.devices.load(what))

    def met(self, outside):
        """The devices take what happened outside. Gives the transfer that it brings, or None."""
        devices = self.devices
        devices.clock = (devices.clock + outside.ticks) % (1 << 64)
        if outside.console:
            devices.arrive()
        if outside.block and devices.block.state == BUSY:
            return devices.block.complete(self.hart.memory)
        return None

    def turn(self, outside, look=False):
        """One step after what happened outside: how it ended, its events, and the state before it where one looks."""
        events, values = [], []
        moved = self.met(outside)
        if moved is not None:
            events.append(Dma(self.at, *moved))
            self.hart.transfer(*moved)
        if self.devices.lines() != self.hart.lines:
            self.hart.lines = self.devices.lines()
            events.append(Lines(self.at, self.hart.lines))

        def ask(what):
            values.append(self.ask(what))
            return values[-1]

        before = self.hart.state() if look else None
        ended = self.hart.step(ask)
        events += [Value(self.at, value) for value in values]
        if self.hart.stored is not None:
            self.devices.store(*self.hart.stored)
        self.at += 1
        return ended, events, before


def record(image, outsides, steps, each=None):
    """The recording of at most so many steps, and the machine behind it.

    Where it is given, `each` is called for every step with how it ended and the state before it. The last step is that
    which turns the machine off, or for which the outside has no answer any more.
    """
    live, events = Live(image), []
    for _, outside in zip(range(steps), outsides):
        ended, made, before = live.turn(outside, each is not None)
        events += made
        if each:
            each(ended, before)
        if live.devices.off:
            break
    recording = Recording(reset(), image.memory, end=live.at, ram=image.ram, events=tuple(events),
                          version=image.version, split=image.split)
    return recording.marked(), live
