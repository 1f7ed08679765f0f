"""Misaligned loads and stores of a hart that carries them out, by parts that end with the page."""
from played import (
    CODE, CODE_PLACE, DATA_ENTRY, DATA_PLACE, HANDLER, READABLE, ROOT, SPACE, TO_CODE, TO_DATA, bytes_of,
    code, machine_state, played, retired, touch, trapped, user_code, user_state,
)
from recordings import MPP_MACHINE, RAM

END = RAM + 0x1000  # of the first page
STORED = 0xddccbbaa

# A load from x2 where the bytes 11 22 33 44 end the first page and 55 66 77 88 99 begin the next: the instruction, x2,
# the bytes that it reads of both, and x5 behind it.
LOADS = [
    ('lw', END - 3, b'\x22\x33\x44', b'\x55', 0x55443322),
    ('lw', END - 2, b'\x33\x44', b'\x55\x66', 0x66554433),
    ('lw', END - 1, b'\x44', b'\x55\x66\x77', 0x77665544),
    ('lhu', END - 1, b'\x44', b'\x55', 0x00005544),
    ('lh', END + 3, b'\x88\x99', b'', 0xffff9988),
    ('lw', END + 1, b'\x66\x77\x88\x99', b'', 0x99887766),
    ('lw', END, b'\x55\x66\x77\x88', b'', 0x88776655),
    ('lb', END - 1, b'\x44', b'', 0x00000044),
]

# A store of aa bb cc dd to x2: the instruction, x2, what it writes to both pages, and the words at both sides
# behind it.
STORES = [
    ('sw', END - 3, b'\xaa\xbb\xcc', b'\xdd', 0xccbbaa00, 0x000000dd),
    ('sw', END - 2, b'\xaa\xbb', b'\xcc\xdd', 0xbbaa0000, 0x0000ddcc),
    ('sw', END - 1, b'\xaa', b'\xbb\xcc\xdd', 0xaa000000, 0x00ddccbb),
    ('sh', END - 1, b'\xaa', b'\xbb', 0xaa000000, 0x000000bb),
    ('sh', END - 3, b'\xaa\xbb', b'', 0x00bbaa00, 0),
    ('sw', END, b'\xaa\xbb\xcc\xdd', b'', 0, 0xddccbbaa),
]


def parts(place, first, more):
    """The bytes of an access, in one part or in two."""
    return (touch(place, first),) + ((touch(END, more),) if more else ())


def load(name, place, first, more, value):
    memory = {END - 4: 0x44332211, END: 0x88776655, END + 4: 0x99}
    return played(f'{name} at {place:x}', machine_state(x2=place), code(f'{name} x5, 0(x2)') | memory,
                  [retired({'x5': value}, read=parts(place, first, more))], split=True)


def loads(register, place, value):
    """A load of an aligned word, which shows what stands there."""
    return retired({register: value}, read=(touch(place, bytes_of(value)),))


def store(name, place, first, more, low, high):
    lines = (f'{name} x1, 0(x2)', 'lw x7, -4(x3)', 'lw x8, 0(x3)')
    return played(f'{name} at {place:x}', machine_state(x1=STORED, x2=place, x3=END), code(*lines),
                  [retired(write=parts(place, first, more)), loads('x7', END - 4, low), loads('x8', END, high)],
                  split=True)


# An instruction that accesses x2, and x2; then the cause of its exception and what that tells.
REFUSED = [
    # behind the end of RAM, and in front of it
    ('lw x5, 0(x2)', RAM + 0x4ffe, 5, RAM + 0x5000),
    ('sw x1, 0(x2)', RAM + 0x4ffe, 7, RAM + 0x5000),
    ('sw x1, 0(x2)', RAM + 0x5001, 7, RAM + 0x5001),
    ('lw x5, 0(x2)', RAM - 2, 5, RAM - 2),
    ('sh x1, 0(x2)', 0xffffffff, 7, 0xffffffff),
    # a device has no part of a word
    ('lw x5, 0(x2)', 0x10000001, 5, 0x10000001),
    ('sw x1, 0(x2)', 0x10000002, 7, 0x10000002),
    # LR, SC and AMOs are never split
    ('lr.w x5, (x2)', RAM + 0x1002, 4, RAM + 0x1002),
    ('sc.w x6, x1, (x2)', RAM + 0x1001, 6, RAM + 0x1001),
    ('amoadd.w x5, x1, (x2)', RAM + 0xffe, 6, RAM + 0xffe),
]
LAST = RAM + 0x4ffc


def refused(line, address, cause, told):
    """Nothing is written: the handler loads the last word of RAM."""
    taken = trapped(cause, {'mstatus': MPP_MACHINE, 'mepc': RAM, 'mtval': told})
    return played(f'{line} at {address:x}', machine_state(x1=STORED, x2=address, x8=LAST),
                  code(line) | code('lw x7, 0(x8)', at=HANDLER), [taken, loads('x7', LAST, 0)], split=True)


# Two pages whose addresses follow each other: that of the data, and that of the code.
ACROSS = [
    retired({'x5': 0x00443322}, entries=TO_DATA, read=(touch(DATA_PLACE + 1, b'\x22\x33\x44\0', 1),)),
    retired({'x5': 0x22830000}, entries=(*TO_DATA, *TO_CODE),
            read=(touch(DATA_PLACE + 0xffe, bytes(2), 0xffe), touch(CODE_PLACE, b'\x83\x22', 0x1000))),
]
STORE = user_code('sw x1, -2(x2)', 'lw x7, 0(x2)')
OVER = [
    retired(entries=(*TO_DATA, *TO_CODE),
            write=(touch(DATA_PLACE + 0xffe, b'\xaa\xbb', 0xffe), touch(CODE_PLACE, b'\xcc\xdd', 0x1000))),
    retired({'x7': 0xfe11ddcc}, entries=TO_CODE, read=(touch(CODE_PLACE, bytes_of(0xfe11ddcc), 0x1000),)),
]

# An access that a part of it ends: the instruction, x2, the entry of the data; the cause, what the trap tells, and the
# entries behind the fetch.
THIRD_ENTRY = DATA_ENTRY + 8
ENDED = [
    # the second part, whose entry is missing
    ('lw x5, -2(x2)', 0x2000, READABLE, 13, 0x2000, (*TO_CODE, ROOT, THIRD_ENTRY)),
    ('sw x1, -2(x2)', 0x2000, READABLE, 15, 0x2000, (*TO_CODE, ROOT, THIRD_ENTRY)),
    # the first part, behind which the second is not translated
    ('lw x5, -2(x2)', 0x1000, 0, 13, 0xffe, TO_DATA),
    ('sw x1, -2(x2)', 0x1000, 0x20000c5f, 15, 0xffe, TO_DATA),
    # addresses go on at 0: the first part has no table
    ('sw x1, -2(x0)', 0x1000, READABLE, 15, 0xfffffffe, (ROOT + 0xffc,)),
]


def ended(line, address, entry, cause, told, entries):
    """Nothing is written to the end of either page."""
    taken = trapped(cause, {'mepc': CODE, 'mtval': told}, entries=entries)
    handler = code('lw x7, -4(x8)', 'lw x10, -4(x9)', at=HANDLER)
    state = user_state(x1=STORED, x2=address, x8=DATA_PLACE, x9=HANDLER)
    return played(f'{line} at {address:x} that the entry {entry:x} ends', state,
                  SPACE | {DATA_ENTRY: entry} | user_code(line) | handler,
                  [taken, loads('x7', DATA_PLACE - 4, 0), loads('x10', HANDLER - 4, 0)], split=True)


CASES = (
    [row for it in LOADS for row in load(*it)] + [row for it in STORES for row in store(*it)]
    + [row for it in REFUSED for row in refused(*it)]
    + played('loads over the end of a page of the space', user_state(x2=0x1000),
             SPACE | user_code('lw x5, 1(x0)', 'lw x5, -2(x2)'), ACROSS, split=True)
    + played('a store over the end of a page of the space', user_state(x1=STORED, x2=0x1000), SPACE | STORE, OVER,
             split=True)
    + [row for it in ENDED for row in ended(*it)]
)
