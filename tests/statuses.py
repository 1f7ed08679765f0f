"""How a command ends: the exit status, and the line on standard error. docs/USAGE.md lists them."""
import re
from collections import namedtuple

Status = namedtuple('Status', 'number line')

done = Status(0, 'done')
usage = Status(1, 'usage')
not_there = Status(4, 'not there')
read_fault = Status(5, 'read fault')
write_fault = Status(6, 'write fault')
no_memory = Status(8, 'no memory')

LINES = {
    0: 'done', 1: 'usage', 2: r'format at (0|[1-9]\d*)', 3: r'broken at (0|[1-9]\d*)', 4: 'not there', 5: 'read fault',
    6: 'write fault', 7: 'world fault', 8: 'no memory', 9: r'not built at (0|[1-9]\d*)',
}


def format_at(offset):
    return Status(2, f'format at {offset}')


def broken(step):
    return Status(3, f'broken at {step}')


def not_built(step):
    return Status(9, f'not built at {step}')


def is_listed(status):
    """Whether this is a status of the list, with its line."""
    return status.number in LINES and re.fullmatch(LINES[status.number], status.line) is not None
