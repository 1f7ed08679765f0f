"""Recordings, slices and images made at random and then damaged: bits, cuts, gaps, repeats, swaps, numbers and words at
their limits, counts that promise far more than there is, and noise.

`pick` is a random.Random everywhere. Damage goes by the fields that an input has up to its first bad place.
"""
import machines
import programs
import today
from recordings import PAGE, RAM, Lines, Recording, Value, page, reset, word
from recordings.calls import MAGIC as CALLS, called, read_calls
from recordings.fields import varint
from recordings.live import record, seeded
from recordings.observations import shown
from recordings.reading import read, read_image
from recordings.slices import MAGIC, read_slice, sliced

NUMBERS = [0, 1, 2, 127, 128, 4095, 4096, 4097, 65535, 65536, 65537, 1 << 17, (1 << 17) + 1, 1 << 18, (1 << 18) + 1,
           1 << 20, (1 << 20) + 1, 1 << 31, (1 << 32) - 1, 1 << 32, 1 << 40, (1 << 48) - 1, 1 << 48, 1 << 60, 1 << 63,
           (1 << 64) - 1]
SPELLED = [b'\x80\0', b'\x81\x80\0', b'\xff' * 9 + b'\x01', b'\xff' * 9 + b'\x02', b'\x80' * 9, b'\xff' * 20]
WORDS = [0, 1, 3, 0xff, 0x7fffffff, RAM - 4, RAM, RAM + 4, RAM + PAGE - 1, RAM + (1 << 30) - 1, RAM + (1 << 30),
         0xfffffffc, 0xffffffff]
COUNTS = ('pages of RAM', 'base', 'pages that follow', 'number of a page', 'sectors', 'bytes of the console',
          'distance', 'count of runs', 'length of a run')


def read_either(data):
    """The fields of a recording, a slice or an image, by its first letters, and the offset of its first bad place."""
    by_magic = {MAGIC: read_slice, CALLS: read_calls}
    return (read_image if data[:3] == b'CXI' else by_magic.get(data[:4], read))(data)


def fields(data):
    """The places of the numbers and of the words of an input, up to its first bad place, and those of its parts."""
    reader, _ = read_either(data)
    numbers = [each.offset for each in reader.fields if each.name in COUNTS]
    found = [each.offset for each in reader.fields if each.name not in COUNTS]
    numbers += [entry.offset + 1 for entry in reader.entries]
    numbers += [each.offset + 4 for each in reader.fields if each.name.startswith('Dma')]
    parts = [each.offset for each in reader.fields if not each.name.startswith('the word')]
    parts += [entry.offset for entry in reader.entries] * 4
    return numbers, found, sorted({0, *parts, min(reader.at, len(data)), len(data)})


def with_number(data, at, spelled):
    """The input with another number in place of the one that stands here."""
    end = at
    while end < len(data) and data[end] & 0x80:
        end += 1
    return data[:at] + spelled + data[end + 1:]


def flipped(pick, data):
    changed = bytearray(data)
    for _ in range(pick.choice([1, 1, 2, 8, 60])):
        at = pick.choice([pick.randrange(len(data)), pick.randrange(min(len(data), 300)), len(data) - 1])
        changed[at] ^= 1 << pick.randrange(8)
    return bytes(changed)


def stretch(pick, data):
    """A stretch of the input, which often begins and ends with a part of it."""
    ends = fields(data)[2] if pick.random() < 0.7 else range(len(data) + 1)
    return sorted(pick.choice(ends) for _ in range(2))


def cut(pick, data):
    return data[:pick.choice([pick.randrange(len(data)), pick.choice(fields(data)[2]), len(data) - 1])]


def gap(pick, data):
    first, end = stretch(pick, data)
    return data[:first] + data[end:]


def repeated(pick, data):
    first, end = stretch(pick, data)
    times = pick.choice([1, 1, 2, min(400, 40000 // (end - first + 1))])
    return data[:end] + data[first:end] * times + data[end:]


def swapped(pick, data):
    a, b, c = sorted([*stretch(pick, data), pick.choice(fields(data)[2])])
    return data[:a] + data[b:c] + data[a:b] + data[c:]


def number_at_its_limit(pick, data):
    places = fields(data)[0]
    spelled = pick.choice([varint(pick.choice(NUMBERS)), varint(pick.choice(NUMBERS)), pick.choice(SPELLED)])
    return with_number(data, pick.choice(places), spelled) if places else data


def word_at_its_limit(pick, data):
    places = fields(data)[1]
    at = pick.choice(places) if places else 0
    return data[:at] + word(pick.choice(WORDS)) + data[at + 4:]


def promise(pick, data):
    """Each count, from the last to the first, is as high as it may be, or far more."""
    most = {'pages of RAM': 1 << 18, 'pages that follow': 1 << 18, 'sectors': 1 << 17, 'bytes of the console': 1 << 20}
    reader, _ = read_either(data)
    for each in reversed(reader.fields):
        if each.name in most and (each.name == 'pages of RAM' or pick.random() < 0.5):
            high = most[each.name] if pick.random() < 0.8 else pick.choice(NUMBERS)
            data = with_number(data, each.offset, varint(high))
    return data


def noise(pick, data):
    at = pick.choice([pick.randrange(len(data)), pick.choice(fields(data)[2])])
    return data[:at] + pick.randbytes(pick.randrange(1, 40)) + data[at + pick.randrange(40):]


DAMAGE = [flipped, cut, gap, repeated, swapped, number_at_its_limit, number_at_its_limit, word_at_its_limit, promise,
          noise]


def marked(pick):
    """A short recording around a multiple of the distance of marks, whose program reads the time."""
    base = pick.choice([65536 - 3, 65535, (1 << 48) - 65536 - 2])
    values = tuple(Value(step, pick.getrandbits(32)) for step in range(base, base + 6) if (step - base) % 2 == 0)
    return Recording(reset(), {0: page('rdtime t0', 'j -4')}, base=base, end=base + 6, ram=pick.choice([1, 300]),
                     events=(*values, Lines(base + 1, 0x80)), version=pick.choice([1, 2])).marked()


def sound(pick, with_images):
    """A good input, and words for a window of it."""
    kind = pick.choice(['program', 'machine', 'marked', 'slice', *['call slice'] * today.SLICES_BY_CALLS,
                        *['image', 'image'] * with_images])
    if kind in ('slice', 'call slice'):
        roots = shown(programs.of_user(pick))
        slicer = sliced if kind == 'slice' else called
        return slicer(roots[pick.choice(list(roots))][1]).spell(), (0, 1)
    if kind == 'image':
        return machines.image(pick).spell(), (0, 1)
    if kind == 'machine':
        made = record(machines.image(pick), seeded(pick.getrandbits(8)), pick.choice([3, 60, 200]))[0]
    else:
        made = marked(pick) if kind == 'marked' else programs.recording(pick, True, True)
    first, end = sorted(pick.sample(range(made.base, made.end + 1), 2))
    return made.spell(), pick.choice([(made.base, made.end), (first, end), (first, end), (0, (1 << 64) - 1)])


def damaged(pick, with_images):
    """A damaged input, the words for a window of it, and the names of what was done to it."""
    data, span = sound(pick, with_images)
    done_to_it = [pick.choice(DAMAGE) for _ in range(pick.choice([1, 1, 1, 2, 4]))]
    for each in done_to_it:
        data = each(pick, data) if data else data
    return data, span, [each.__name__ for each in done_to_it]
