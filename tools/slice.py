#!/usr/bin/env python3
"""Lists what process slices and call slices hold: what a program was handed, step by step or call by call.

usage: tools/slice.py [--calls] FILE..    - is standard input

Each step that is handed something has a line, with registers by their names, and a line for each run of bytes below it:
its address, how many bytes there are, and the first of them, also as text where they are such. A call has its number,
which is a7 at the call, and what its kernel changed. --calls lists the calls alone, a line each. Numbers of steps and
calls are decimal; addresses, registers, values and bytes are hexadecimal. Where a file is damaged, what stands before
its first bad place is listed, that place is said, and the exit status is 2.
"""
import pathlib
import sys

sys.dont_write_bytecode = True
sys.path.insert(0, str(pathlib.Path(__file__).resolve().parent.parent / 'tests'))
from recordings.calls import ASYNC, CALL, MAGIC as CALLS, VALUE, read_calls  # noqa: E402
from recordings.registers import ABI  # noqa: E402
from recordings.slices import MAGIC as PROCESS, read_slice  # noqa: E402

NAMES = ['pc', *ABI[1:]]
MOST = 24  # bytes of a run that are shown


def words_of(words):
    return ''.join(f' {NAMES[number]} {words[number]:08x}' for number in sorted(words))


def text_of(content):
    """Bytes as text, where all of them are printed or end a line; single ones aren't."""
    is_text = len(content) > 3 and all(32 <= byte < 127 or byte == 10 for byte in content)
    return f' {content.decode()!r}' if is_text else ''


def run_line(va, content):
    shown = content[:MOST]
    return f'  {va:08x} {len(content)} bytes {shown.hex()}{".." if shown != content else ""}{text_of(shown)}'


def process_lines(reader):
    for group in reader.groups:
        value = '' if group.value is None else f' value {group.value:08x}'
        yield f'step {group.step}{words_of(group.words)}{value}'
        yield from (run_line(*run) for run in group.runs)


def record_line(record):
    if record.tag == VALUE:
        return f'step {record.step} value {record.value:08x}'
    what = f' call {record.number}' if record.tag == CALL else ' async'
    return f'step {record.step}{what}{words_of(record.head.words)}'


def calls_lines(reader):
    if reader.start is None:
        return
    yield f'start{words_of(reader.start.words)}'
    yield from (run_line(*run) for run in reader.start.runs)
    for record in reader.records:
        yield record_line(record)
        yield from (run_line(*run) for run in (record.head.runs if record.tag in (CALL, ASYNC) else ()))


def short_lines(reader):
    """The calls alone."""
    for record in reader.records:
        if record.tag == CALL:
            count = sum(len(content) for _, content in record.head.runs)
            yield record_line(record) + f', runs {len(record.head.runs)}, bytes {count}'


def end_line(reader, lists_calls):
    """How many steps there are, and how many records of each kind."""
    if not lists_calls:
        return f'end after {reader.end} steps, {len(reader.groups)} of them with a group'
    counts = ', '.join(f'{name} {sum(record.tag == tag for record in reader.records)}'
                       for name, tag in (('Call', CALL), ('Async', ASYNC), ('Value', VALUE)))
    return f'end after {reader.end} steps: {counts}'


def lines(data, calls_alone):
    """What is said of these bytes, and what is wrong with them in words, or None."""
    is_by_calls = data[:4] == CALLS
    if not is_by_calls and data[:4] != PROCESS:
        return [], 'neither a process slice nor a call slice'
    if calls_alone and not is_by_calls:
        return [], 'no call slice: a process slice has no calls of its own'
    reader, bad = (read_calls if is_by_calls else read_slice)(data)
    kind = 'call slice' if is_by_calls else 'process slice'
    listed = short_lines if calls_alone else calls_lines if is_by_calls else process_lines
    said = [f'{kind} {data[:4].decode()}, {len(data)} bytes', *listed(reader)]
    if bad is None:
        return [*said, end_line(reader, is_by_calls)], None
    return said, f'no {kind}: the first bad place is byte {bad} of {len(data)}'


def content(path):
    return sys.stdin.buffer.read() if path == '-' else pathlib.Path(path).read_bytes()


def main(arguments):
    calls_alone = '--calls' in arguments
    paths = [argument for argument in arguments if argument != '--calls']
    if paths in (['-h'], ['--help']):
        print(__doc__.strip())
        return 0
    if not paths or any(path.startswith('--') for path in paths):
        print('slice.py: usage: tools/slice.py [--calls] FILE..', file=sys.stderr)
        return 2
    status = 0
    for path in paths:
        try:
            said, bad = lines(content(path), calls_alone)
        except OSError as error:
            said, bad = [], error.strerror
        if len(paths) > 1 and said:
            print(f'{path}:')
        for line in said:
            print(line)
        sys.stdout.flush()
        if bad is not None:
            print(f'slice.py: {path}: {bad}', file=sys.stderr)
            status = 2
    return status


if __name__ == '__main__':
    try:
        sys.exit(main(sys.argv[1:]))
    except BrokenPipeError:
        sys.stderr.close()
        sys.exit(1)
