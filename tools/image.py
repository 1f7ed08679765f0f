#!/usr/bin/env python3
"""Makes an image, from which Crosscut makes a recording, from a program for a 32-bit RISC-V machine.

The program is an ELF file, whose parts are put at their physical addresses, or else a flat binary, which is put at the
start of RAM, 80000000. There the machine starts, in machine mode. docs/DEVICES.md says what else it has.
"""
import argparse
import pathlib
import struct
import sys
from dataclasses import dataclass

sys.dont_write_bytecode = True
sys.path.insert(0, str(pathlib.Path(__file__).resolve().parent.parent / 'tests'))
from recordings import PAGE, RAM  # noqa: E402
from recordings.image import MOST_CONSOLE, MOST_SECTORS, SECTOR, Image  # noqa: E402
from recordings.reading import MOST_PAGES  # noqa: E402

DEFAULT_PAGES = 256  # 1 MiB
RISCV, EXECUTABLE, LOADED = 243, 2, 1  # of ELF: e_machine, e_type and p_type
NOTE, NO_BITS, ALLOCATED = 7, 8, 2  # sh_type and a bit of sh_flags
COMPRESSED, FLOATS = 1, 6  # bits of e_flags


class Refused(Exception):
    """What is wrong, in one line."""


class Parser(argparse.ArgumentParser):
    """Says what is wrong with the words in one line."""

    def error(self, message):
        self.exit(2, f'{self.prog}: {message}\n')


def read(path):
    try:
        return pathlib.Path(path).read_bytes()
    except OSError as error:
        raise Refused(error.strerror) from None


@dataclass(frozen=True)
class Part:
    """Bytes of a program that lie together. In RAM there are `length` of them, of which the last ones are 0."""
    place: int
    content: bytes
    length: int
    name: str


def elf_header(data):
    """Where an ELF file has its segments and sections: offset, size of an entry, and count, of both; and the names."""
    if len(data) < 52:
        raise Refused('the header of the ELF file is cut off')
    if data[4] != 1 or data[5] != 1:
        raise Refused('an ELF file, but none of 32 bits, little-endian')
    kind, machine, _, entry, segments, sections, flags, _, *counts = struct.unpack_from('<HHIIIIIHHHHHH', data, 16)
    segment_size, segment_count, section_size, section_count, names = counts
    if machine != RISCV:
        raise Refused('an ELF file, but none for RISC-V')
    if kind != EXECUTABLE:
        raise Refused('an ELF file, but no program that is linked to fixed addresses')
    if flags & COMPRESSED:
        raise Refused('has compressed instructions, which the machine lacks: build it with -march=rv32ima')
    if flags & FLOATS:
        raise Refused('has an ABI with floating point, which the machine lacks: build it with -mabi=ilp32')
    if entry != RAM:
        raise Refused(f'is entered at {entry:08x}, but the machine starts at {RAM:08x}')
    return (segments, segment_size, segment_count), (sections, section_size, section_count), names


def entries(data, table, words):
    """The entries of a table of an ELF file, each as so many words."""
    offset, size, count = table
    if count and size < 4 * words or offset + size * count > len(data):
        raise Refused('a table of the ELF file is cut off')
    return [struct.unpack_from(f'<{words}I', data, offset + size * index) for index in range(count)]


def part(data, place, offset, filled, length, name):
    if offset + filled > len(data) or filled > length:
        raise Refused(f'the part at {place:08x} of the ELF file is cut off')
    return Part(place, data[offset:offset + filled], length, name)


def elf_parts(data):
    """The parts of an ELF file: its sections, or its segments where it has no sections.

    A segment may have the headers of the file too, below the program, so sections are taken where there are any. Their
    physical addresses are those of the segments that they lie in.
    """
    segment_table, section_table, names = elf_header(data)
    segments = [entry for entry in entries(data, segment_table, 8) if entry[0] == LOADED and entry[5]]
    sections = entries(data, section_table, 10)
    if not sections:
        return [part(data, place, offset, filled, length, 'a part')
                for _, offset, _, place, filled, length, _, _ in segments]
    parts = []
    for name, kind, flags, address, offset, length, *_ in sections:
        if not flags & ALLOCATED or kind == NOTE or not length:
            continue
        moved = next((place - start for _, _, start, place, _, size, _, _ in segments
                      if start <= address and address + length <= start + size), 0)
        filled = 0 if kind == NO_BITS else length
        called = data[sections[names][4] + name:].split(b'\0', 1)[0].decode(errors='replace') if names else 'a part'
        parts.append(part(data, address + moved, offset, filled, length, called))
    return parts


def parts_of(data):
    """The parts of a program, in order."""
    if data[:4] == b'\x7fELF':
        return sorted(elf_parts(data), key=lambda part: part.place)
    return [Part(RAM, data, len(data), 'a part')]


def end_of(parts):
    """Where the last part ends. Each has to lie in RAM, behind the one before."""
    end = RAM
    for part in parts:
        if part.place < RAM:
            raise Refused(f'has {part.name} at {part.place:08x}, but RAM begins at {RAM:08x}: link it to there')
        if part.place < end:
            raise Refused(f'has two parts at {part.place:08x}, one of them {part.name}')
        end = part.place + part.length
    return end


def lay_out(parts, ram):
    """The pages of RAM with these parts, and how many pages RAM has."""
    if not any(part.content for part in parts):
        raise Refused('has no bytes to put into RAM')
    needed = -(-(end_of(parts) - RAM) // PAGE)
    ram = max(DEFAULT_PAGES, needed) if ram is None else ram
    if needed > min(ram, MOST_PAGES):
        raise Refused(f'needs {needed} pages of RAM, and there are {min(ram, MOST_PAGES)}')
    pages = {}
    for part in parts:
        at, end = part.place - RAM, part.place - RAM + len(part.content)
        for start in range(at // PAGE * PAGE, end, PAGE):
            page = pages.setdefault(start // PAGE, bytearray(PAGE))
            first, last = max(at, start), min(end, start + PAGE)
            page[first - start:last - start] = part.content[first - at:last - at]
    return {number: bytes(page) for number, page in pages.items() if any(page)}, ram


def disk_of(data):
    """A disk of whole sectors; what is missing in the last one is 0."""
    sectors = -(-len(data) // SECTOR)
    if sectors > MOST_SECTORS:
        raise Refused(f'has {sectors} sectors of {SECTOR} bytes, and a disk has at most {MOST_SECTORS}')
    return data.ljust(sectors * SECTOR, b'\0')


def console_of(data):
    if len(data) > MOST_CONSOLE:
        raise Refused(f'has {len(data)} bytes, and the console takes at most {MOST_CONSOLE}')
    return data


def made_of(path, make):
    """What is made of the bytes of a file; nothing of no file. What is refused is said of the file."""
    try:
        return make(read(path)) if path else b''
    except Refused as refused:
        raise Refused(f'{path}: {refused}') from None


def count_of_pages(text):
    pages = int(text, 0)
    if not 1 <= pages <= MOST_PAGES:
        raise argparse.ArgumentTypeError(f'{text} is no count of pages from 1 to {MOST_PAGES}')
    return pages


def words(arguments):
    parser = Parser(prog='image.py', description=__doc__, formatter_class=argparse.RawDescriptionHelpFormatter)
    parser.add_argument('program', metavar='PROGRAM', help='an ELF file or a flat binary')
    parser.add_argument('-o', dest='output', metavar='IMAGE', help='where the image goes; else to standard output')
    parser.add_argument('--ram', type=count_of_pages, metavar='PAGES',
                        help=f'pages of RAM, of {PAGE} bytes; else {DEFAULT_PAGES}, or more, as the program takes')
    parser.add_argument('--disk', metavar='FILE', help='the disk; its last sector is filled up with 0')
    parser.add_argument('--console', metavar='FILE', help='the bytes that arrive at the console')
    parser.add_argument('--version', type=int, choices=(1, 2), help='of the image and its recordings; else 1')
    parser.add_argument('--split', action='store_true',
                        help='the hart carries out misaligned loads and stores, which needs version 2')
    given = parser.parse_args(arguments)
    if given.split and given.version == 1:
        parser.error('--split needs --version 2')
    return given


def main(arguments):
    given = words(arguments)
    memory, ram = made_of(given.program, lambda data: lay_out(parts_of(data), given.ram))
    version = given.version or (2 if given.split else 1)
    image = Image(memory, ram, made_of(given.disk, disk_of), made_of(given.console, console_of), version, given.split)
    if given.output is None:
        if sys.stdout.isatty():
            raise Refused('an image is no text: name a file by -o')
        sys.stdout.buffer.write(image.spell())
        return
    try:
        pathlib.Path(given.output).write_bytes(image.spell())
    except OSError as error:
        raise Refused(f'{given.output}: {error.strerror}') from None


if __name__ == '__main__':
    try:
        main(sys.argv[1:])
    except Refused as refused:
        sys.exit(print(f'image.py: {refused}', file=sys.stderr) or 2)
