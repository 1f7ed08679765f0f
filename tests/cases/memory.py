"""Pages that steps read and write. A window has those that its steps read, as they stood before its first step."""
from case import cut
from recordings import PAGE, RAM, Recording, page, reset

DATA = RAM + PAGE  # the first place of page 1, which sp holds
OLD = page(0x44332211)
FIVE = page(5)
START = reset(ra=5, sp=DATA)


def behind(steps, **named):
    """The state behind so many instructions."""
    return START.after(steps, pc=RAM + 4 * steps, **named)


STORES = page('sw ra, 0(sp)', 'lw gp, 0(sp)', 'j 0')
STORED = Recording(START, {0: STORES, 1: OLD, 2: page(1)}, ram=3, end=3)
UNUSED = Recording(START, {0: STORES}, ram=2, end=3)
CLEARED = Recording(START.but(ra=0), {0: STORES, 1: OLD}, ram=2, end=3)

LOADS = page('lw gp, 0(sp)', 'lw tp, 0(t0)', 'j 0')
LAST = page(0x01020304, at=0xffc)
LOADED = Recording(START.but(t0=RAM + 0x2ffc), {0: LOADS, 1: OLD, 2: LAST}, ram=3, end=3)

ADDS = page('amoadd.w gp, ra, (sp)', 'j 0')
ADDED = Recording(START, {0: ADDS, 1: OLD}, ram=2, end=2)

RESERVES = page('lr.w gp, (sp)', 'sc.w tp, ra, (sp)', 'j 0')
RESERVED = Recording(START, {0: RESERVES, 1: OLD}, ram=2, end=3)

FAILS = page('sc.w tp, ra, (sp)', 'lw gp, 0(sp)', 'j 0')
FAILED = Recording(START, {0: FAILS, 1: OLD}, ram=2, end=3)

CASES = [
    *cut('a page that is stored to alone is not there', 'window 0 1', STORED, STORED.but(memory={0: STORES}, end=1)),
    *cut('a page that is stored to and read is there as it was', 'window 0 2', STORED,
         STORED.but(memory={0: STORES, 1: OLD}, end=2)),
    *cut('a page that was stored to before is there as it then was', 'window 1 2', STORED,
         STORED.but(start=behind(1), memory={0: STORES, 1: FIVE}, base=1, end=2)),
    *cut('a page that was read before is not there', 'window 2 3', STORED,
         STORED.but(start=behind(2, gp=5), memory={0: STORES}, base=2)),
    *cut('a page of zeros that is stored to and read is not there', 'window 0 2', UNUSED, UNUSED.but(end=2)),
    *cut('a page of zeros that was stored to before is there', 'window 1 2', UNUSED,
         UNUSED.but(start=behind(1), memory={0: STORES, 1: FIVE}, base=1, end=2)),
    *cut('a page that was cleared before is not there', 'window 1 2', CLEARED,
         CLEARED.but(start=behind(1, ra=0), memory={0: STORES}, base=1, end=2)),
    *cut('the first word of a page is read', 'window 0 1', LOADED, LOADED.but(memory={0: LOADS, 1: OLD}, end=1)),
    *cut('the last word of a page is read', 'window 1 2', LOADED, LOADED.but(
        start=behind(1, gp=0x44332211, t0=RAM + 0x2ffc), memory={0: LOADS, 2: LAST}, base=1, end=2)),
    *cut('two pages are read by two steps', 'window 0 2', LOADED, LOADED.but(end=2)),
    *cut('a step that reads no data has the page of its code', 'window 2 3', LOADED, LOADED.but(
        start=behind(2, gp=0x44332211, tp=0x01020304, t0=RAM + 0x2ffc), memory={0: LOADS}, base=2)),
    *cut('amoadd.w reads the page that it writes', 'window 0 1', ADDED, ADDED.but(end=1)),
    *cut('the state behind amoadd.w', 'window 1 2', ADDED, ADDED.but(
        start=behind(1, gp=0x44332211), memory={0: ADDS}, base=1)),
    *cut('lr.w reads its page', 'window 0 1', RESERVED, RESERVED.but(end=1)),
    *cut('sc.w reads no page, and the reservation is in the state before it', 'window 1 2', RESERVED, RESERVED.but(
        start=behind(1, gp=0x44332211, reserved=DATA), memory={0: RESERVES}, base=1, end=2)),
    *cut('the state behind sc.w that stores', 'window 2 3', RESERVED, RESERVED.but(
        start=behind(2, gp=0x44332211), memory={0: RESERVES}, base=2)),
    *cut('sc.w without a reservation reads no page', 'window 0 1', FAILED, FAILED.but(memory={0: FAILS}, end=1)),
    *cut('sc.w without a reservation gives 1 and stores nothing', 'window 1 2', FAILED, FAILED.but(
        start=behind(1, tp=1), base=1, end=2)),
]
