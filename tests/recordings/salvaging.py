"""What can be saved of a cut or damaged recording: all up to its last good mark."""
from .model import Model, Unasked
from .reading import read
from .recording import Mark, Recording, State
from .registers import STATE


def recording_of(reader, end):
    """The recording of the records that were read, with its end before this step."""
    state = State()
    state.values = [reader.state[name] for name in STATE]
    events = tuple(entry.event for entry in reader.entries if not isinstance(entry.event, int))
    return Recording(state, reader.memory, end, reader.base, reader.ram, events, reader.version, bool(reader.split))


def reached(reader, end):
    """The first step below `end` that can't be carried out with what is due to it, or `end`."""
    model = Model(recording_of(reader, end))
    try:
        while model.at < end:
            model.step()
    except Unasked:
        pass
    return model.at


def salvaged(data):
    """What is saved of an input, or None; and the offset of the bad field of its header or its pages, or None.

    An accepted recording is saved whole. Of any other what comes before its last mark is, with End in the mark's place:
    the last of those that were read and below which each step can be carried out.
    """
    reader, bad = read(data)
    if reader.records_at is None:
        return None, bad
    marks = [entry for entry in reader.entries if isinstance(entry.event, Mark)]
    end = reader.entries[-1].event if bad is None else marks[-1].event.step if marks else reader.base
    reach = reached(reader, end)
    if bad is None and reach == end:
        return data, None
    good = [entry for entry in marks if entry.event.step <= reach]
    if not good:
        return None, None
    at, length = good[-1].offset, good[-1].length
    return data[:at] + b'\0' + data[at + 1:at + length], None
