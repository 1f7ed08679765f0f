"""What a recording's run answers to queries: its states, and the step or the transfer that was the last to write or to
read a byte, or the last step that trapped, below a step."""
from dataclasses import dataclass

from .model import Model
from .recording import PAGE, RAM, Dma


@dataclass(frozen=True)
class Query:
    """What is asked: the state before a step, or what was the last of its kind below the step."""
    kind: str  # state, writer, reader or trap
    step: int
    place: int = None  # of the byte, of a writer or a reader

    def words(self):
        return [self.kind, *([] if self.place is None else [f'{self.place:#x}']), str(self.step)]

    def begin(self):
        """How its line begins."""
        return f'{self.kind} {self.step}' if self.place is None else f'{self.kind} {self.place:08x} {self.step}'

    def is_there(self, recording):
        is_in_ram = self.place is None or 0 <= self.place - RAM < recording.ram * PAGE
        return is_in_ram and recording.base <= self.step <= recording.end


def state_line(step, state):
    return (f'state {step} ' + ' '.join(f'{value:08x}' for value in state.values) + '\n').encode()


def covers(stretches, place):
    return any(0 <= place - begin < length for begin, length in stretches)


def event_of(query, step, model, ended, transfers):
    """What a step and its transfers are to a query, a store before a transfer, or None."""
    if query.kind == 'trap':
        return None if ended == 'retired' else f'step {step} {ended}'
    if query.kind == 'reader':
        return f'step {step}' if covers(model.hart.looks, query.place) else None
    if covers(model.hart.stores, query.place):
        return f'step {step}'
    return f'dma {step}' if covers(transfers, query.place) else None


def answered(recording, queries):
    """The lines of some queries, or None where the step or the place of one isn't there. The recording is accepted."""
    if not all(query.is_there(recording) for query in queries):
        return None
    model, found = Model(recording), {query: None for query in queries}
    states = {}
    while True:
        step = model.at
        if any(query.kind == 'state' and query.step == step for query in queries):
            states[step] = state_line(step, model.hart.state())
        if step >= max(query.step for query in queries):
            break
        transfers = [(each.place, len(each.bytes)) for each in model.events.get(step, ()) if isinstance(each, Dma)]
        ended = model.step()
        for query in found:
            if query.kind != 'state' and step < query.step:
                found[query] = event_of(query, step, model, ended, transfers) or found[query]
    return b''.join(
        states[query.step] if query.kind == 'state' else f'{query.begin()} {found[query] or "none"}\n'.encode()
        for query in queries)
