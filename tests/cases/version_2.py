"""Recordings of version 2, which say whether misaligned loads and stores are carried out."""
from case import case
from cases.two_steps import BOTH, second_step
from recordings import MPP_MACHINE, PAGE, RAM, Recording, page, reset
from statuses import done, format_at
from today import at_version_2, what_is_written

CODE = page('lw gp, 0(sp)', 'sw gp, 4(sp)', 'j 0')
LOW, HIGH = page(0x22110000, at=0xffc), page(0x00004433)
# A load and a store over the end of page 1: both parts are at hand, with the flag.
SPLIT = Recording(reset(sp=RAM + 2 * PAGE - 2, mtvec=RAM + 8), {0: CODE, 1: LOW, 2: HIGH}, ram=3, end=3, version=2,
                  split=True)
WHOLE = SPLIT.but(split=False)
TRAPPED = WHOLE.start.after(1, retired=0, pc=RAM + 8, mstatus=MPP_MACHINE, mepc=RAM, mcause=4, mtval=RAM + 2 * PAGE - 2)


def answered(name, words, recording, status, output=None):
    """A case that is answered so once version 2 is read."""
    status = at_version_2(status, version_1=format_at(4))
    return case(name, words, recording, status, what_is_written(status, output))


def both(name, words, recording, window):
    """The window of the recording, and of itself."""
    return [
        answered(name, words, recording, done, window),
        answered(f'{name}, cut again from itself', words, window, done, window),
    ]


def version_2(recording):
    return recording.but(version=2)


GOOD = version_2(BOTH).spell()

CASES = [
    *both('a window of version 2 is of version 2', 'window 0 1', version_2(BOTH), version_2(BOTH.but(end=1))),
    *both('the second step of version 2', 'window 1 2', version_2(BOTH), version_2(second_step())),
    *both('a window keeps its flag', 'window 1 2', version_2(BOTH).but(split=True),
          version_2(second_step()).but(split=True)),
    *both('a load over the end of a page reads both pages', 'window 0 1', SPLIT, SPLIT.but(end=1)),
    *both('a store over the end of a page reads none', 'window 1 2', SPLIT, SPLIT.but(
        start=SPLIT.start.after(1, pc=RAM + 4, gp=0x44332211), memory={0: CODE}, base=1, end=2)),
    *both('the state behind both', 'window 2 3', SPLIT, SPLIT.but(
        start=SPLIT.start.after(2, pc=RAM + 8, gp=0x44332211), memory={0: CODE}, base=2)),
    *both('without the flag such a load traps and reads no data', 'window 0 1', WHOLE, WHOLE.but(
        memory={0: CODE}, end=1)),
    *both('the state behind the trap', 'window 1 2', WHOLE, WHOLE.but(
        start=TRAPPED, memory={0: CODE}, base=1, end=2)),
    answered('a flag of 2', 'window 0 1', GOOD[:5] + b'\2' + GOOD[6:], format_at(5)),
    answered('a flag that is missing', 'window 0 1', GOOD[:5], format_at(5)),
    answered('no page of RAM behind the flag', 'window 0 1', GOOD[:6] + b'\0' + GOOD[7:], format_at(6)),
    answered('a mode that is not there, behind the flag', 'window 0 1', GOOD[:136] + b'\2' + GOOD[137:],
             format_at(136)),
    answered('a byte behind End of version 2', 'window 0 1', GOOD + b'\0', format_at(len(GOOD))),
]
