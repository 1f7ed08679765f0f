#!/usr/bin/env python3
"""Draws a recording: time goes from left to right, and each root has a lane of its own, as have supervisor and machine
mode. Below stand traps, interrupts and transfers, a row for each cause.

The steps are those that `crosscut trace all` prints, and the transfers are read from the recording. The picture is an
SVG below 1 MB, whatever the recording has: where many steps fall into one column, a lane is filled as high as its share
of them, and of many roots the last ones share a lane.
"""
import argparse
import pathlib
import subprocess
import sys
from collections import Counter
from xml.sax.saxutils import escape

sys.dont_write_bytecode = True
TOP = pathlib.Path(__file__).resolve().parent.parent
sys.path.insert(0, str(TOP / 'tests'))
from recordings import MACHINE, SUPERVISOR, Dma  # noqa: E402
from recordings.reading import read  # noqa: E402
from recordings.registers import WORD  # noqa: E402

COLUMNS, MOST_ROOTS = 1000, 16
LEFT, WIDTH, RIGHT, TOP_EDGE, LANE, LANE_GAP, ROW, BAR = 190, 1000, 60, 54, 30, 8, 20, 12
SHADES = 4  # how many shades tell the share of a process
# Colours that are told apart also by who doesn't see all of them.
MODES = {MACHINE: '#555555', SUPERVISOR: '#999999'}
ROOTS = ['#0072b2', '#d55e00', '#009e73', '#cc79a7', '#e69f00', '#56b4e9']
SHADE, SHADE_EDGE, INK = '#f0e442', '#a89c00', '#222222'
TRAPS = {
    0: 'misaligned target', 1: 'fetch access', 2: 'illegal', 3: 'breakpoint', 4: 'misaligned load', 5: 'load access',
    6: 'misaligned store', 7: 'store access', 8: 'call from user', 9: 'call from supervisor', 11: 'call from machine',
    12: 'fetch page', 13: 'load page', 15: 'store page',
}
INTERRUPTS = {
    1: 'supervisor software', 3: 'machine software', 5: 'supervisor timer', 7: 'machine timer',
    9: 'supervisor external', 11: 'machine external',
}


class Refused(Exception):
    """What is wrong, in one line."""


class Parser(argparse.ArgumentParser):
    """Says what is wrong with the words in one line."""

    def error(self, message):
        self.exit(2, f'{self.prog}: {message}\n')


class Seen:
    """What was seen of the steps, column by column: how many were in each lane, and how often each cause came."""

    def __init__(self, base, end):
        self.base, self.steps = base, end - base
        self.columns = min(COLUMNS, self.steps)
        self.lanes, self.causes = {}, {}  # of a mode or a root, and of a cause: a Counter of columns
        self.totals, self.firsts = Counter(), {}

    def column(self, step):
        return (step - self.base) * self.columns // self.steps

    def start_of(self, column):
        """The first step of a column."""
        return self.base - (-column * self.steps // self.columns)

    def add(self, group, key, step, count=1):
        of = self.lanes if group == 'lane' else self.causes
        of.setdefault(key, Counter())[self.column(step)] += count
        self.totals[key] += count
        self.firsts.setdefault(key, step)


def take_lines(lines, seen):
    """Takes the lines of all steps. Steps of one lane in one column are counted together."""
    mode_at, satp_at = 9 * WORD['mode'] + 7, 9 * WORD['satp']
    lane, count, step, until = None, 0, seen.base, seen.start_of(1)
    for line in lines:
        state = line.index(b' state ') + 7
        mode = line[state + mode_at]
        now = line[state + satp_at:state + satp_at + 8] if mode == 48 else mode
        if now != lane or step == until:
            if count:
                seen.add('lane', lane, step - 1, count)
            lane, count = now, 0
            if step == until:
                until = seen.start_of(seen.column(step) + 1)
        if line[state - 8:state - 7] != b'd':  # of retired
            _, _, kind, cause = line[:state - 7].split()
            seen.add('cause', (kind.decode(), int(cause)), step)
        step, count = step + 1, count + 1
    if count:
        seen.add('lane', lane, step - 1, count)
    return step


def see(path, program):
    """What the picture is made of."""
    try:
        data = pathlib.Path(path).read_bytes()
    except OSError as error:
        raise Refused(f'{path}: {error.strerror}') from None
    reader, bad = read(data)
    if bad is not None:
        raise Refused(f'{path}: no recording: the first bad place is byte {bad} of {len(data)}')
    seen = Seen(reader.base, reader.entries[-1].event)
    with open(path, 'rb') as given:
        try:
            tracing = subprocess.Popen([program, 'trace', 'all'], stdin=given, stdout=subprocess.PIPE,
                                       stderr=subprocess.PIPE, bufsize=1 << 20)
        except OSError as error:
            raise Refused(f'{program}: {error.strerror}') from None
        with tracing:
            end = take_lines(tracing.stdout, seen)
            said = tracing.stderr.read().decode(errors='replace').strip()
    if tracing.returncode or end != seen.base + seen.steps:
        raise Refused(f'{path}: trace all: {said.splitlines()[-1] if said else f"status {tracing.returncode}"}')
    for entry in reader.entries[:-1]:
        if isinstance(entry.event, Dma):
            seen.add('cause', ('transfer', 0), entry.event.step)
    return seen


def thousands(number):
    return f'{number:,}'


class Drawing:
    """The parts of an SVG."""

    def __init__(self, seen):
        self.seen, self.parts = seen, []
        self.width = WIDTH / seen.columns  # of a column

    def x(self, column):
        return f'{LEFT + column * self.width:.6g}'

    def x_of_step(self, step):
        return LEFT + (step - self.seen.base) * WIDTH / self.seen.steps

    def put(self, text):
        self.parts.append(text)

    def text(self, x, y, text, anchor='start', size=12, colour=INK):
        self.put(f'<text x="{x:.6g}" y="{y:.6g}" font-size="{size}" text-anchor="{anchor}" fill="{colour}">'
                 f'{escape(text)}</text>')

    def share(self, columns, column):
        """The share of the steps of a column that these are."""
        return columns[column] / (self.seen.start_of(column + 1) - self.seen.start_of(column))

    def bars(self, y, heights, colour, opacity=1):
        """Columns filled to a height from y up. Neighbours of one height are one bar."""
        runs = []
        for column in sorted(heights):
            if runs and runs[-1][1] == column and runs[-1][2] == heights[column]:
                runs[-1][1] = column + 1
            else:
                runs.append([column, column + 1, heights[column]])
        path = ''.join(
            f'M{self.x(first)} {y}v-{height:g}h{(end - first) * self.width:.6g}v{height:g}z'
            for first, end, height in runs
        )
        self.put(f'<path fill="{colour}" fill-opacity="{opacity}" d="{path}"/>')

    def lane(self, y, columns, colour):
        """A lane, each column filled as high as its share of the steps."""
        heights = {column: round(max(1.5, self.share(columns, column) * LANE) * 4) / 4 for column in columns}
        self.bars(y + LANE, heights, colour)

    def shade(self, top, bottom, columns):
        """The steps of a process: the more of a column they are, the darker it is."""
        shades = {}
        for column in columns:
            shade = -(-self.share(columns, column) * SHADES // 1)
            shades.setdefault(shade, {})[column] = bottom - top
        for shade, heights in sorted(shades.items()):
            self.bars(bottom, heights, SHADE, f'{0.6 * shade / SHADES:.2f}')

    def row(self, y, columns, colour):
        """Marks in a row, one in a column where there is any. The more there are the higher it is."""
        width, most = max(1.2, min(self.width, 3)), max(columns.values())
        path = ''
        for column in sorted(columns):
            height = round(BAR * (0.4 + 0.6 * columns[column] / most), 1)
            path += f'M{self.x(column + 0.5)} {y + BAR}v-{height:g}'
        self.put(f'<path stroke="{colour}" stroke-width="{width:.3g}" d="{path}"/>')

    def axis(self, y):
        """Numbers of steps, at round distances."""
        distance = 1
        while self.seen.steps / distance > 8:
            distance *= 2 if str(distance)[0] in '15' else 2.5
            distance = int(distance)
        self.put(f'<path stroke="{INK}" d="M{LEFT} {y}h{WIDTH}"/>')
        step = -(-self.seen.base // distance) * distance
        while step <= self.seen.base + self.seen.steps:
            x = self.x_of_step(step)
            self.put(f'<path stroke="{INK}" d="M{x:.6g} {y}v5"/>')
            self.text(x, y + 18, thousands(step), 'middle')
            step += distance
        self.text(LEFT - 12, y + 18, 'step', 'end')


def cause_name(key):
    kind, cause = key
    if kind == 'transfer':
        return 'transfer of a device'
    name = (TRAPS if kind == 'trap' else INTERRUPTS).get(cause, '')
    return f'{kind} {cause} {name}'


def lanes_of(seen, chosen):
    """The lanes from above: roots as they were seen first, then supervisor and machine mode; names and colours."""
    roots = [key for key in seen.lanes if isinstance(key, bytes)]
    shown = roots if len(roots) <= MOST_ROOTS else roots[:MOST_ROOTS - 1]
    if chosen in roots and chosen not in shown:
        shown[-1] = chosen
    for index, root in enumerate(shown):
        yield f'root {root.decode()}', seen.lanes[root], ROOTS[index % len(ROOTS)], root == chosen
    if len(shown) < len(roots):
        rest = sum((seen.lanes[root] for root in roots if root not in shown), Counter())
        yield f'{len(roots) - len(shown)} more roots', rest, ROOTS[-1], False
    for mode, name in ((SUPERVISOR, 'supervisor mode'), (MACHINE, 'machine mode')):
        if 48 + mode in seen.lanes:
            yield name, seen.lanes[48 + mode], MODES[mode], False


def draw(seen, name, window, chosen):
    """The picture as text."""
    drawing, lanes = Drawing(seen), list(lanes_of(seen, chosen))
    causes = sorted(seen.causes, key=lambda key: (('interrupt', 'trap', 'transfer').index(key[0]), key[1]))
    lanes_end = TOP_EDGE + (LANE + LANE_GAP) * len(lanes)
    bottom = lanes_end + 10 + ROW * len(causes)
    top = TOP_EDGE - 4
    if chosen in seen.lanes:
        drawing.shade(top, bottom, seen.lanes[chosen])
    if window:
        x, end = (drawing.x_of_step(step) for step in window)
        drawing.put(f'<rect x="{x:.6g}" y="{top}" width="{max(end - x, 1):.6g}" height="{bottom - top}" '
                    f'fill="{SHADE}" fill-opacity="0.7" stroke="{SHADE_EDGE}"/>')
        drawing.text(min(max((x + end) / 2, LEFT + 90), LEFT + WIDTH - 90), TOP_EDGE - 9,
                     f'window {thousands(window[0])} to {thousands(window[1])}', 'middle')
    drawing.text(12, 22, f'{name}: {thousands(seen.steps)} steps', size=15)
    for index, (label, columns, colour, is_chosen) in enumerate(lanes):
        y = TOP_EDGE + (LANE + LANE_GAP) * index
        drawing.put(f'<path stroke="#cccccc" d="M{LEFT} {y + LANE}h{WIDTH}"/>')
        drawing.text(LEFT - 12, y + 14, label, 'end')
        drawing.text(LEFT - 12, y + 27, f'{thousands(sum(columns.values()))} steps', 'end', 10, '#666666')
        drawing.lane(y, columns, colour)
    for index, key in enumerate(causes):
        y = lanes_end + 10 + ROW * index
        drawing.text(LEFT - 12, y + 10, cause_name(key), 'end', 10)
        drawing.row(y, seen.causes[key], '#0072b2' if key[0] == 'transfer' else INK)
        drawing.text(LEFT + WIDTH + 6, y + 10, thousands(seen.totals[key]), size=9, colour='#666666')
    drawing.axis(bottom + 4)
    width, height = LEFT + WIDTH + RIGHT, bottom + 34
    return '\n'.join([
        f'<svg xmlns="http://www.w3.org/2000/svg" viewBox="0 0 {width} {height}" width="{width}" height="{height}" '
        'font-family="sans-serif">',
        f'<rect width="{width}" height="{height}" fill="white"/>', *drawing.parts, '</svg>', '',
    ])


def root_number(text):
    try:
        return f'{int(text, 16):08x}'.encode()
    except ValueError:
        raise argparse.ArgumentTypeError(f'{text} is no root, as 80080012') from None


def words(arguments):
    parser = Parser(prog='picture.py', description=__doc__, formatter_class=argparse.RawDescriptionHelpFormatter)
    parser.add_argument('recording', metavar='RECORDING')
    parser.add_argument('--window', nargs=2, type=lambda text: int(text, 0), metavar=('A', 'B'),
                        help='shades the steps from A up to but not including B')
    parser.add_argument('--root', type=root_number, metavar='R',
                        help='shades the steps of a process: its satp in hexadecimal')
    parser.add_argument('--program', default=str(TOP / 'crosscut'), help='crosscut, where it is another one')
    return parser.parse_args(arguments)


def main(arguments):
    given = words(arguments)
    seen = see(given.recording, given.program)
    if given.root is not None and given.root not in seen.lanes:
        raise Refused(f'{given.recording}: no step in user mode has the root {given.root.decode()}')
    end = seen.base + seen.steps
    if given.window and not seen.base <= given.window[0] < given.window[1] <= end:
        raise Refused(f'{given.recording}: the window is not in its steps, {seen.base} up to but not including {end}')
    sys.stdout.write(draw(seen, pathlib.Path(given.recording).name, given.window, given.root))


if __name__ == '__main__':
    try:
        main(sys.argv[1:])
    except Refused as refused:
        sys.exit(print(f'picture.py: {refused}', file=sys.stderr) or 2)
