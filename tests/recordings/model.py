"""What the steps of a recording do, and what a window of it has, by the model of the hart."""
from .hart import Hart
from .recording import Dma, Lines, Mark, Value


class Unasked(Exception):
    """A step whose value is missing, or has a value that it doesn't ask for."""


class Model:
    """The machine of a recording, step by step."""

    def __init__(self, recording):
        self.recording, self.at = recording, recording.base
        self.hart = Hart(recording.start, recording.memory, recording.ram, recording.split)
        self.events = {}
        for event in recording.events:
            self.events.setdefault(event.step, []).append(event)

    def step(self):
        """Carries out one step with its events, and says how it ended."""
        values = []
        for event in self.events.get(self.at, ()):
            if isinstance(event, Dma):
                self.hart.transfer(event.place, event.bytes)
            elif isinstance(event, Lines):
                self.hart.lines = event.mask
            elif isinstance(event, Value):
                values.append(event.value)
        try:
            ended = self.hart.step(lambda what: values.pop())
        except IndexError:
            raise Unasked(f'step {self.at} has no value') from None
        if values:
            raise Unasked(f'step {self.at} has a value that it does not ask for')
        self.at += 1
        return ended

    def pages(self, numbers):
        """Those of these pages that aren't all 0."""
        contents = {number: self.hart.page(number) for number in numbers}
        return {number: content for number, content in contents.items() if any(content)}


def window(recording, first, end):
    """The window of the steps from `first` up to but not including `end`, which has to be there."""
    model = Model(recording)
    while model.at < first:
        model.step()
    hart = model.hart
    start, hart.reads, before = hart.state(), set(), bytes(hart.memory)
    while model.at < end:
        model.step()
    read = sorted(hart.reads)
    hart.memory = bytearray(before)
    events = tuple(
        event for event in recording.events
        if first <= event.step < end and not (isinstance(event, Mark) and event.step == first)
    )
    return recording.but(start=start, memory=model.pages(read), base=first, end=end, events=events)
