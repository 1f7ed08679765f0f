#!/usr/bin/env python3
"""Tells what a recording has: its steps, its pages, and the registers before its first step that aren't 0.

usage: examples/show.py FILE..
"""
import pathlib
import sys
import textwrap

sys.dont_write_bytecode = True
sys.path.insert(0, str(pathlib.Path(__file__).resolve().parent.parent / 'tests'))
from recordings.reading import read  # noqa: E402

for path in sys.argv[1:]:
    recording, bad = read(pathlib.Path(path).read_bytes())
    if bad is not None:
        sys.exit(f'{path}: bad at byte {bad}')
    pages = [str(field.value) for field in recording.fields if field.name == 'number of a page']
    end = recording.fields[-1].value
    print(f'{path}: steps {recording.base} up to but not including {end}')
    print(f'  {len(pages)} of {recording.ram} pages: {" ".join(pages)}')
    # A space that isn't broken keeps a name and its value on one line.
    state = ', '.join(f'{name}\u00a0{value:x}' for name, value in recording.state.items() if value)
    print(textwrap.fill(state, 100, initial_indent='  ', subsequent_indent='  ').replace('\u00a0', ' '))
