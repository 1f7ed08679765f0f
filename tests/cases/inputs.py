"""Inputs that are no recording, each with its first bad place. Nothing is written."""
from case import case
from cases.two_steps import BOTH, CODE
from recordings import PAGE, RAM, State, words
from recordings.registers import WORD
from statuses import format_at, not_there
from today import at_version_2

GOOD = BOTH.spell()
HEADER, CONTENT, RECORDS = 238, 240, 4336  # where the count of pages, the page's content and the records stand


def replaced(at, count, new):
    """The bytes of both steps, with so many of them from an offset on replaced."""
    return GOOD[:at] + new + GOOD[at + count:]


def bad(name, at, count, new, status):
    return case(name, 'window 0 1', replaced(at, count, new), status)


def bad_word(name, register, value):
    """A state word that breaks its rule."""
    at = 6 + 4 * WORD[register]
    return bad(f'{name} in the word of {register}', at, 4, words(value), format_at(at))


CASES = [
    bad('no byte', 0, 4338, b'', format_at(0)),
    bad('a letter of the magic is another', 3, 1, b'2', format_at(0)),
    bad('the magic is cut', 2, 4336, b'', format_at(2)),
    bad('no page of RAM', 4, 1, b'\0', at_version_2(format_at(6), version_1=format_at(4))),
    bad('more pages of RAM than there may be', 4, 1, b'\x81\x80\x10', format_at(4)),
    bad('base in a needless byte', 5, 1, b'\x80\0', format_at(5)),
    bad('base of 2^48', 5, 1, b'\x80\x80\x80\x80\x80\x80\x40', format_at(5)),
    bad('a varint of ten bytes that goes on', 5, 1, b'\xff' * 10, format_at(5)),
    bad('a varint of 2^64', 5, 1, b'\x80' * 9 + b'\x02', format_at(5)),
    bad('the first byte of pc is 2', 6, 1, b'\x02', format_at(6)),
    bad('the mode is 2', 134, 1, b'\x02', format_at(134)),
    bad('more pages than RAM has', HEADER, 1, b'\x02', format_at(HEADER)),
    bad('the number of the page is past RAM', HEADER + 1, 1, b'\x01', format_at(HEADER + 1)),
    bad('a page of zeros', CONTENT, 8, bytes(8), format_at(CONTENT)),
    bad('the page is cut', 4000, 338, b'', format_at(4000)),
    bad('no record', RECORDS, 2, b'', format_at(RECORDS)),
    bad('a tag that is not there', RECORDS, 1, b'\x05', format_at(RECORDS)),
    bad('the last tag that is not there', RECORDS, 1, b'\xff', format_at(RECORDS)),
    bad('the step of End is missing', RECORDS + 1, 1, b'', format_at(RECORDS + 1)),
    bad('End at base', RECORDS + 1, 1, b'\0', format_at(RECORDS + 1)),
    bad('End in a needless byte', RECORDS + 1, 1, b'\x82\0', format_at(RECORDS + 1)),
    bad('End above 2^48', RECORDS + 1, 1, b'\x81\x80\x80\x80\x80\x80\x40', format_at(RECORDS + 1)),
    bad('End past a step that has no Mark', RECORDS + 1, 1, b'\x81\x80\x04', format_at(RECORDS + 1)),
    bad('a byte behind End', RECORDS + 2, 0, b'\0', format_at(RECORDS + 2)),
    bad_word('a place between two instructions', 'pc', RAM + 2),
    bad_word('a bit that is not there', 'mstatus', 1),
    bad_word('MPP 2', 'mstatus', 2 << 11),
    bad_word('a bit that is not there', 'medeleg', 1 << 11),
    bad_word('a bit that is not there', 'mideleg', 1 << 3),
    bad_word('a bit that is not there', 'mie', 1 << 2),
    bad_word('a bit that is not there', 'mip', 1 << 7),
    bad_word('bit 1', 'mtvec', 2),
    bad_word('a bit that is not there', 'mcounteren', 8),
    bad_word('a place between two instructions', 'mepc', 2),
    bad_word('bit 1', 'stvec', 2),
    bad_word('a bit that is not there', 'scounteren', 8),
    bad_word('a place between two instructions', 'sepc', 1),
    bad_word('a flag of 2', 'reserved', 2),
    bad_word('a place where nothing is reserved', 'place', RAM),
    bad_word('a line that is not there', 'lines', 1),
    case('a reserved word past RAM', 'window 0 1', BOTH.but(start=BOTH.start.but(reserved=RAM + PAGE)), format_at(230)),
    case('a reserved word that is not aligned', 'window 0 1', BOTH.but(start=BOTH.start.but(reserved=RAM + 2)),
         format_at(230)),
    case('pages that fall', 'window 0 1',
         BOTH.but(ram=2).head()[:HEADER] + b'\2\1' + CODE + b'\0' + CODE + b'\0\1', format_at(HEADER + 2 + PAGE)),
    case('a page that comes twice', 'window 0 1',
         BOTH.but(ram=2).head()[:HEADER] + b'\2\0' + CODE + b'\0' + CODE + b'\0\1', format_at(HEADER + 2 + PAGE)),
    case('a recording of the last pages of RAM that there may be', 'window 0 3', BOTH.but(ram=262144), not_there),
    case('a bad input comes before a window that is not there', 'window 0 9', GOOD + b'\0', format_at(4338)),

]

CASES += [
    row
    for tag in (1, 2, 3, 4, 5)
    for row in (
        case(f'a page of zeros before a record of tag {tag}', 'window 7 8',
             BOTH.but(base=7, memory={0: bytes(PAGE)}).with_records(bytes([tag, 0])), format_at(CONTENT)),
        case(f'a bad word before a record of tag {tag}', 'window 7 8',
             BOTH.but(base=7, start=State(pc=RAM + 2)).with_records(bytes([tag, 0])), format_at(6)),
    )
]
