"""`upgrade`: a recording in version 2, and what is written of it before a refusal."""
from case import case
from cases.step_lines import ASKED, MOVED, PROGRAM, looped
from cases.two_steps import BOTH, second_step
from recordings.recording import Value
from statuses import broken, done, format_at

BLOCK = 4096


def version_2(recording):
    return recording.but(version=2)


def whole_blocks(data):
    return data[:len(data) // BLOCK * BLOCK]


def rises(name, recording):
    """Two cases: it is written in version 2, and what is written is written as it is."""
    return [
        case(name, 'upgrade', recording, done, version_2(recording)),
        case(f'{name}, upgraded again', 'upgrade', version_2(recording), done, version_2(recording)),
    ]


MARKED = looped(200000).marked()

CASES = [
    *rises('two steps', BOTH),
    *rises('a step that is not the first', second_step()),
    *rises('what a device writes, and lines', MOVED),
    *rises('a value that is asked for', ASKED),
    *rises('a program', PROGRAM),
    *rises('marks', MARKED),
    case('a flag stays', 'upgrade', version_2(BOTH).but(split=True), done, version_2(BOTH).but(split=True)),
    case('a byte behind the end comes behind the whole blocks', 'upgrade', BOTH.spell() + b'\0',
         format_at(len(BOTH.spell())), whole_blocks(version_2(BOTH).spell())),
    case('a step that is broken comes behind the whole blocks', 'upgrade', BOTH.but(events=(Value(1, 7),)), broken(1),
         whole_blocks(version_2(BOTH).spell())),
    case('a page that is cut off leaves nothing', 'upgrade', BOTH.spell()[:4000], format_at(4000)),
    case('a bad header leaves nothing', 'upgrade', b'CXR1\1', format_at(5)),
    case('a slice is no recording', 'upgrade', b'CXP1\1', format_at(0)),
]
