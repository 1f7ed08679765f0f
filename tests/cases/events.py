"""Records before End: transfers of devices, interrupt lines, values of the outside and marks.

A program that doesn't read them answers `not built` with base at the first of them, whatever else the input has.
"""
from case import case
from cases.two_steps import CODE, MODES
from recordings import (
    MACHINE_TIMER, MARK_EVERY, MIE, MPIE, MPP_MACHINE, PAGE, RAM, Dma, Lines,
    Mark, Recording, State, Value, page, reset,
)
from statuses import broken, done, format_at, not_there
from today import at_events, what_is_written

RECORDS = 4336  # where the records stand behind one page
BASE = 7
LOAD = page('lui t0, 0x10000', 'lw t1, 4(t0)', 'j 0')  # a load of a word of the console, by the second step


def first(mode):
    return Recording(State(pc=RAM, mode=mode), {0: CODE}, base=BASE, end=BASE + 1)


def answered(name, words, recording, status, output=None):
    """A case that is answered so once events are read."""
    status = at_events(recording.base, status)
    return case(name, words, recording, status, what_is_written(status, output))


def bad(name, records, offset, recording=first(3)):
    """A first record with a bad field."""
    return case(name, 'window 7 8', recording.with_records(records), format_at(RECORDS + offset))


def bad_later(name, records, offset):
    """A whole record, and behind it one with a bad field."""
    return case(name, 'window 7 8', first(3).with_records(records), at_events(BASE, format_at(RECORDS + offset)))


def by_mode(name, mode):
    """The five kinds of records before End, in one mode."""
    one = first(mode)
    whole = at_events(BASE, done)
    for what, records, status, window in [
        ('a Dma over the first instruction', b'\1\0\0\0\0\x80\1\7\0\1', whole, one.but(events=(Dma(7, RAM, b'\7'),))),
        ('Lines', b'\2\0\x80\0\0\0\0\1', whole, one.but(events=(Lines(7, MACHINE_TIMER),))),
        ('a Value that no step asks for', b'\3\1\1\0\0\0\0\1', at_events(BASE, broken(8)), None),
        ('a Mark', b'\4\xf9\xff\3\0\1', whole, one),
        ('a Dma that is cut behind its tag', b'\1', format_at(RECORDS + 1), None),
        ('Lines whose step has a needless byte', b'\2\x80\0', format_at(RECORDS + 1), None),
        ('a tag that is not there', b'\5\0\1', format_at(RECORDS), None),
        ('no record', b'', format_at(RECORDS), None),
    ]:
        yield case(f'{what} in {name} mode', 'window 7 8', one.with_records(records), status,
                   what_is_written(status, window))


ALONE = (Dma(0, RAM + PAGE, b'\1'),)
# A step that stores, and steps that jump to themselves behind it; a device writes to the word after the store.
STORED = Recording(reset(ra=5, sp=RAM + PAGE), {0: page('sw ra, 0(sp)', 'lw gp, 0(sp)', 'j 0'), 1: page(0x44332211)},
                   end=3, ram=2, events=(Dma(1, RAM + PAGE + 1, b'\xaa\xbb'),))
# The timer's line goes up before the second step, which takes the interrupt.
TIMER = Recording(reset(mstatus=MIE, mie=MACHINE_TIMER, mtvec=RAM + 0x40),
                  {0: page('nop', 'nop', *[0] * 14, 'j 0')}, end=4, events=(Lines(1, MACHINE_TIMER), Lines(3, 0)))
TAKEN = TIMER.start.after(2, retired=1, pc=RAM + 0x40, mstatus=MPIE | MPP_MACHINE, mepc=RAM + 4, mcause=0x80000007,
                          lines=MACHINE_TIMER)
ASKED = Recording(reset(), {0: LOAD}, end=3, events=(Value(1, 0x41),))
LONG = Recording(reset(), {0: CODE}, base=5, end=2 * MARK_EVERY + 9).marked()
RESERVED = Recording(reset(sp=RAM + 64), {0: page('lr.w gp, (sp)', 'sc.w tp, ra, (sp)', 'j 0', *[0] * 13, 9)}, end=3,
                     events=(Dma(1, RAM + 67, b'\1'),))

CASES = [row for name, mode in MODES.items() for row in by_mode(name, mode)] + [
    answered('a Dma is in the window of its step', 'window 1 2', STORED, done, STORED.but(
        start=STORED.start.after(1, pc=RAM + 4), memory={**STORED.memory, 1: page(5)}, base=1, end=2)),
    answered('a page that a device alone writes is not there', 'window 0 1', STORED.but(events=ALONE), done,
             STORED.but(memory={0: STORED.memory[0]}, end=1, events=ALONE)),
    answered('a Dma of an earlier step is in the state of memory', 'window 2 3', STORED.but(end=4, events=(
        Dma(1, RAM + 12, b'\x13'),)), done, STORED.but(
            start=STORED.start.after(2, pc=RAM + 8, gp=5), base=2, end=3, events=(),
            memory={0: page('sw ra, 0(sp)', 'lw gp, 0(sp)', 'j 0', 0x13)})),
    answered('Lines of an earlier step are in the state', 'window 2 3', TIMER, done,
             TIMER.but(start=TAKEN, base=2, end=3, events=())),
    answered('Lines stay Lines in the window of their step', 'window 1 2', TIMER, done, TIMER.but(
        start=TIMER.start.after(1, pc=RAM + 4), base=1, end=2, memory={}, events=(Lines(1, MACHINE_TIMER),))),
    answered('a Value is taken by the step that asks for it', 'window 2 3', ASKED, done,
             ASKED.but(start=ASKED.start.after(2, pc=RAM + 8, t0=0x10000000, t1=0x41), base=2, events=())),
    answered('a Value is in the window of its step', 'window 1 3', ASKED, done,
             ASKED.but(start=ASKED.start.after(1, pc=RAM + 4, t0=0x10000000), base=1)),
    answered('a Value that comes a step early', 'window 0 1', ASKED.but(events=(Value(0, 0x41),)), broken(0)),
    answered('a step that asks for a value, behind an event', 'window 0 1', ASKED.but(events=(Lines(0, 8),)),
             broken(1)),
    answered('Marks are in windows, but not at their first step', f'window {MARK_EVERY} {2 * MARK_EVERY + 1}', LONG,
             done,
             LONG.but(start=LONG.start.after(MARK_EVERY - 5, pc=RAM + 4, ra=5), base=MARK_EVERY,
                      end=2 * MARK_EVERY + 1, events=(Mark(2 * MARK_EVERY),))),
    answered('a transfer over the reserved word drops the reservation', 'window 2 3', RESERVED, done, Recording(
        RESERVED.start.after(2, pc=RAM + 8, gp=9, tp=1), {0: page('lr.w gp, (sp)', 'sc.w tp, ra, (sp)', 'j 0',
                                                                 *[0] * 13, 0x01000009)}, base=2, end=3)),
    answered('a window that is not there', 'window 2 9', ASKED, not_there),
    bad('a Dma before RAM', b'\1\0\0\0\0\0\1\0\0\1', 2),
    bad('a Dma of no byte', b'\1\0\0\0\0\x80\0\0\1', 6),
    bad('a Dma of 4,097 bytes', b'\1\0\0\0\0\x80\x81\x20' + bytes(4097) + b'\0\1', 6),
    bad('a Dma past RAM', b'\1\0\xff\x0f\0\x80\2\0\0\0\1', 6),
    bad('a line that is not there', b'\2\0\1\0\0\0\0\1', 2),
    bad('Lines that stand already', b'\2\0\0\0\0\0\0\1', 2),
    bad_later('a second Value', b'\2\0\x80\0\0\0\3\0\1\0\0\0\3\0\1\0\0\0\0\1', 13),
    bad_later('Lines before a Dma of their step', b'\2\0\x80\0\0\0\1\0\0\0\0\x80\1\7\0\1', 7),
    bad_later('Lines behind a Value of their step', b'\3\0\7\0\0\0\2\0\x80\0\0\0\0\1', 7),
    bad_later('Lines that stand already by an earlier record', b'\2\0\x80\0\0\0\2\1\x80\0\0\0\0\1', 8),
    bad_later('a second Mark at one step', b'\4\xf9\xff\3\4\0\0\1', 5),
    bad('a step above 2^48', b'\3\xfa\xff\xff\xff\xff\xff\x3f\0\0\0\0', 1),
    bad('a Dma whose place is past RAM', b'\1\0\0\x10\0\x80\1\7\0\1', 2),
    bad('a Dma that is cut in its bytes', b'\1\0\0\0\0\x80\2\xab', 8),
    bad('Lines that are cut', b'\2\0\x80\0', 4),
    bad('a Mark at another step', b'\4\1\0\1', 1),
    bad('a Mark at base', b'\4\0\0\1', 1, first(3)),
    bad('a record past a step that has no Mark', b'\2\xfa\xff\3\x80\0\0\0\0\1', 1),
    bad_later('a byte behind End', b'\2\0\x80\0\0\0\0\1\0', 8),
]
