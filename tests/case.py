"""A case: a command, its input, and what has to come of it."""
from dataclasses import dataclass

from recordings.reading import differences
from statuses import Status, done, usage


@dataclass(frozen=True)
class Case:
    name: str  # a sentence
    words: list
    input: bytes
    status: Status
    output: bytes


def spelled(data):
    """The bytes of a recording or a slice; bytes stay as they are, and None is no byte."""
    return b'' if data is None else data if isinstance(data, bytes) else data.spell()


def case(name, words, data, status, output=None):
    """A row of a table of cases. Words that have no spaces in them may be given as one text, and recordings as such."""
    words = words.split() if isinstance(words, str) else list(words)
    return Case(name, words, spelled(data), status, spelled(output))


def cut(name, words, recording, window):
    """Two cases: the window is cut from the recording, and the same words cut all of it from itself."""
    return [
        case(name, words, recording, done, window),
        case(f'{name}, cut again from itself', words, window, done, window),
    ]


def wrongs(case, outcome):
    """What is wrong about the outcome of a case, in lines to read."""
    lines = []
    if outcome.status != case.status:
        lines.append(f'status {outcome.status.number}, "{outcome.status.line}"; '
                     f'not {case.status.number}, "{case.status.line}"')
    if outcome.extra:
        lines.append(f'standard error goes on: {outcome.extra[:60]!r}')
    if outcome.output != case.output:
        lines += [f'output: {line}' for line in differences(outcome.output, case.output)]
    if outcome.status == usage and outcome.was_read:
        lines.append(f'{outcome.was_read} bytes were read')
    is_whole = case.words[:1] != ['salvage'] or case.output == case.input  # else it ends at the first bad place
    if outcome.status == done and is_whole and outcome.was_read != len(case.input):
        lines.append(f'{outcome.was_read} of {len(case.input)} bytes were read')
    return lines
