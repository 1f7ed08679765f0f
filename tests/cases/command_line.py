"""Words that are no command, at which nothing is read or written, words of each command, and numbers as they may be
spelled."""
from case import case, cut
from cases.step_lines import line
from cases.two_steps import BOTH
from recordings import RAM, assemble
from recordings.answers import state_line
from statuses import done, format_at, not_built, not_there, usage
from today import DEMOS, INSPECTS, MAKES, SALVAGES, SLICES_BY_CALLS, once

ONE = BOTH.but(end=1)
FIRST, SECOND = assemble('addi ra, zero, 5', 'j 0')
LINES = line(0, BOTH.start, FIRST) + line(1, BOTH.start.after(1, pc=RAM + 4, ra=5), SECOND)

# Words, each with what they are.
WRONG = [
    ('no word', []),
    ('an empty word', ['']),
    ('a word that is no command', ['crosscut']),
    ('the command alone', ['window']),
    ('one number', ['window', '1']),
    ('three numbers', ['window', '0', '1', '2']),
    ('a number that begins with 0', ['window', '01', '2']),
    ('two zeros', ['window', '00', '2']),
    ('a number with a sign', ['window', '+0', '1']),
    ('a negative number', ['window', '0', '-1']),
    ('an empty number', ['window', '0', '']),
    ('a number behind a space', ['window', '0', ' 1']),
    ('a number with a letter', ['window', '0', '1a']),
    ('no hexadecimal digit', ['window', '0', '0x']),
    ('seventeen hexadecimal digits', ['window', '0', '0x00000000000000001']),
    ('a capital X', ['window', '0', '0X1']),
    ('a digit that is none', ['window', '0', '0xg']),
    ('a number of 2^64', ['window', '0', '18446744073709551616']),
    ('a number of more than 2^64', ['window', '0', '100000000000000000000']),
    ('a command in capitals', ['WINDOW', '0', '1']),
    ('bytes that are no text', [b'window', b'0', b'\xff']),
    ('process with an address of 33 bits', ['process', '0x100000000']),
    ('record of no step', ['record', '0']),
    ('inspect without a question', ['inspect']),
    ('a question of help among other words', ['window', '0', '--help']),
]

# The same by the words alone, between single spaces.
OTHERS = """window 0x10000000000000000 0|window 0x00000000000000001 0|window 0x 1|window 0X1 1|window 0xg 1|window 01 2
window 2 00|window +1 2|window 0x+1 2|window -1 2|window a 2|window  2|Window 0 1|windows 0 1|process|process 1 2
calls|calls 4294967296|calls 1 2|relog 1|replay all|trace|trace all 1|trace window 1|trace window 1 2 3|trace root
trace root 0x100000000|trace root 1 2|trace roots 1|record|record 134217729|record 0 3|record 5 on|record 5 3 on
record 5 18446744073709551616|roots 1|inspect state|inspect state 1 2|inspect trap x|inspect writer 1
inspect writer 0x100000000 1|inspect reader 1 2 3|inspect state 1 reader 2|inspect step 1|inspect state 1 trap
inspect state 0x10000000000000000|inspect writer 1 01|salvage 1|make|make 4294967296|make 1 2|demo|demo x|demo 1 2
upgrade 2|bundle|unbundle 1|super|trace super|session state 1""".replace('\n', '|').split('|')

# Words of each command, on a recording of two steps in machine mode, and what comes of them.
COMMANDS = [
    ('window 10 9', not_there), ('window 18446744073709551615 0', not_there),
    ('window 0xffffffffffffffff 0x0', not_there), ('window 0xDeadBeef 0x0000000000000009', not_there),
    ('process 0x80080000', not_there), ('process 4294967295', not_there), ('replay', done, LINES),
    ('trace all', done, LINES), ('trace window 3 5', not_there), ('trace window 0 0x2', done, LINES),
    ('trace root 0xffffffff', not_there), ('record 1', format_at(0)), ('record 134217728', format_at(0)),
    ('record 200000 3', format_at(0)), ('record 1 18446744073709551615', format_at(0)), ('roots', done),
    ('upgrade', done, BOTH.but(version=2)),
]
CALLS = [('calls 0', not_there), ('calls 0xffffffff', not_there), ('calls 4294967295', not_there),
         ('relog', format_at(0))]
QUERIES = [
    ('state 0', done, state_line(0, BOTH.start)), ('trap 18446744073709551615', not_there),
    ('writer 0xffffffff 1', not_there), ('reader 0 18446744073709551615 trap 2', not_there),
    ('state 150000 state 20 writer 0x80000100 150000 reader 0x80000000 150000 trap 1', not_there),
    ('trap 0x2 writer 2147483648 2', done, b'trap 2 none\nwriter 80000000 2 none\n'),
]
# Commands that aren't built yet say so.
LATER = [] if MAKES else [('make 3', not_built(0))]
LATER += [] if DEMOS else [('demo 4294967295', not_built(0))]


def commands(rows, begin=''):
    return [case(f'{words} is a command', begin + words, BOTH, *wanted) for words, *wanted in rows]


CASES = [case(f'{name} is no command', words, BOTH, usage) for name, words in WRONG] + [
    case(f'the words {text} are no command', text.split(' '), BOTH, usage) for text in OTHERS
] + commands(COMMANDS + LATER) + once(SLICES_BY_CALLS, commands(CALLS)) + once(
    INSPECTS, commands(QUERIES, 'inspect ')) + once(
    SALVAGES, commands([('salvage', done, BOTH)])) + [
    row
    for name, words in [
        ('decimal', 'window 0 1'),
        ('hexadecimal', 'window 0x0 0x1'),
        ('hexadecimal of sixteen digits', 'window 0x0000000000000000 0x0000000000000001'),
    ]
    for row in cut(f'numbers may be {name}', words, BOTH, ONE)
] + [
    row
    for name, words in [
        ('small letters', 'window 0xabcdef 0xabcdf0'),
        ('capital letters', 'window 0xABCDEF 0xABCDF0'),
    ]
    for row in cut(f'hexadecimal digits may be {name}', words, ONE.but(base=0xabcdef, end=0xabcdf0),
                   ONE.but(base=0xabcdef, end=0xabcdf0))
]
