#!/usr/bin/env python3
"""Makes list.cxr: a machine adds up a linked list over 30 pages, whose last node points nowhere, so that it traps.

usage: examples/make_list.py > examples/list.cxr
"""
import pathlib
import random
import sys

sys.dont_write_bytecode = True
sys.path.insert(0, str(pathlib.Path(__file__).resolve().parent.parent / 'tests'))
from recordings import PAGE, RAM, Recording, page, reset, words  # noqa: E402

PAGES, NODES = 30, PAGE // 8
pick = random.Random(2026)

# The places of the nodes, page by page in any order, and in each page in any order. A node is a pointer and a number.
places = [
    RAM + number * PAGE + 8 * node
    for number in pick.sample(range(1, PAGES + 1), PAGES)
    for node in pick.sample(range(NODES), NODES)
]
nodes = dict(zip(places, zip(places[1:] + [0x10001], (pick.getrandbits(32) for _ in places))))

code = page(
    'loop: lw t1, 4(t0)',
    'add a0, a0, t1',
    'lw t0, 0(t0)',
    'bnez t0, loop',
    'trap: j trap',
)
memory = {0: code}
for number in range(1, PAGES + 1):
    start = RAM + number * PAGE
    memory[number] = b''.join(words(*nodes[place]) for place in range(start, start + PAGE, 8))

machine = reset(t0=places[0], mtvec=RAM + 16)
sys.stdout.buffer.write(Recording(machine, memory, ram=PAGES + 1, end=4 * len(places) + 60).spell())
