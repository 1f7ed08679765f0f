#!/usr/bin/env python3
"""Lists what recordings and images hold, a line each: header, pages, registers that aren't 0, records and sizes.

usage: tools/recording.py [--records] FILE..    - is standard input

Numbers are decimal; places, masks, values and registers are hexadecimal. --records lists every record of a recording,
a line each, in place of that. Where a file is damaged, its first bad place is said and the exit status is 2.
"""
import pathlib
import sys

sys.dont_write_bytecode = True
sys.path.insert(0, str(pathlib.Path(__file__).resolve().parent.parent / 'tests'))
from recordings import PAGE, Dma, Lines, Mark, Value  # noqa: E402
from recordings.image import MAGIC, SECTOR  # noqa: E402
from recordings.reading import read, read_image  # noqa: E402

KINDS = (Dma, Lines, Value, Mark)


def pages_lines(reader):
    yield f'RAM {reader.ram} pages of {PAGE} bytes'
    numbers = ' '.join(str(number) for number in reader.memory)
    yield f'pages that are not all 0: {len(reader.memory)}' + (f', numbers {numbers}' if numbers else '')


def version_line(reader):
    flag = f', misaligned loads and stores {"are carried out" if reader.split else "trap"}'
    return f'version {reader.version}' + (flag if reader.version == 2 else '')


def kind_lines(entries):
    """Each kind of record, with how many there are and how many bytes they take."""
    for kind in KINDS:
        chosen = [entry for entry in entries if isinstance(entry.event, kind)]
        moved = f', {sum(len(entry.event.bytes) for entry in chosen)} of them moved' if kind is Dma else ''
        yield f'{kind.__name__} {len(chosen)}, {sum(entry.length for entry in chosen)} bytes{moved}'


def recording_lines(reader):
    """What a recording holds."""
    yield version_line(reader)
    yield from pages_lines(reader)
    end = reader.entries[-1]
    yield f'base {reader.base}'
    yield f'end {end.event}, after {end.event - reader.base} steps'
    yield from (f'register {name} {value:08x}' for name, value in reader.state.items() if value)
    yield from kind_lines(reader.entries[:-1])
    yield f'End, {end.length} bytes'
    yield (f'{len(reader.data)} bytes: header {reader.pages_at}, pages {reader.records_at - reader.pages_at}, '
           f'records {len(reader.data) - reader.records_at}')


def image_lines(reader):
    """What an image holds."""
    yield version_line(reader)
    yield from pages_lines(reader)
    yield f'disk {len(reader.disk) // SECTOR} sectors of {SECTOR} bytes'
    yield f'console {len(reader.console)} bytes'
    yield f'{len(reader.data)} bytes'


def record_line(entry):
    event = entry.event
    if isinstance(event, Dma):
        told = f'step {event.step} Dma {event.place:08x} {len(event.bytes)} bytes {event.bytes.hex()}'
    elif isinstance(event, Lines):
        told = f'step {event.step} Lines {event.mask:08x}'
    elif isinstance(event, Value):
        told = f'step {event.step} Value {event.value:08x}'
    elif isinstance(event, Mark):
        told = f'step {event.step} Mark'
    else:
        told = f'step {event} End'
    return f'{told}, at byte {entry.offset}'


def is_image(data):
    return data[:4] in MAGIC.values()


def lines(data, lists_records):
    """What is said of these bytes, and the first bad place in words, or None."""
    kind = 'image' if is_image(data) else 'recording'
    reader, bad = (read_image if is_image(data) else read)(data)
    if lists_records:
        said = [record_line(entry) for entry in reader.entries]
    elif bad is None:
        said = [f'{kind} {(data[:4]).decode()}', *(image_lines if is_image(data) else recording_lines)(reader)]
    else:
        said = []
    if bad is None:
        return said, None
    where = f'after {reader.fields[-1].name}' if reader.fields else 'nothing before it is good'
    return said, f'no {kind}: the first bad place is byte {bad} of {len(data)}, {where}'


def content(path):
    return sys.stdin.buffer.read() if path == '-' else pathlib.Path(path).read_bytes()


def main(arguments):
    lists_records = '--records' in arguments
    paths = [argument for argument in arguments if argument != '--records']
    if paths in (['-h'], ['--help']):
        print(__doc__.strip())
        return 0
    if not paths or any(path.startswith('--') for path in paths):
        print('recording.py: usage: tools/recording.py [--records] FILE..', file=sys.stderr)
        return 2
    status = 0
    for path in paths:
        try:
            said, bad = lines(content(path), lists_records)
        except OSError as error:
            said, bad = [], error.strerror
        if len(paths) > 1 and said:
            print(f'{path}:')
        for line in said:
            print(line)
        sys.stdout.flush()
        if bad is not None:
            print(f'recording.py: {path}: {bad}', file=sys.stderr)
            status = 2
    return status


if __name__ == '__main__':
    try:
        sys.exit(main(sys.argv[1:]))
    except BrokenPipeError:
        sys.stderr.close()
        sys.exit(1)
