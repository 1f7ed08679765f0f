"""What the program takes today. Cases that depend on it ask here, so a new program is met by changing this file."""
from dataclasses import replace

from statuses import broken, done, not_built

# Whether records other than End are read: Dma, Lines, Value and Mark.
READS_EVENTS = True

# Whether a recording of version 2 is read. A program that doesn't takes its first 0 for a bad count of pages.
READS_VERSION_2 = True

# Whether a step that asks for a value and has none is called broken, and not one that isn't built.
CALLS_MISSING_VALUES_BROKEN = True

# Whether records that are kept take about the memory that their bytes do. A program that keeps a short Dma in 60 bytes
# doesn't: of a million before one step it keeps more than the 64 MB that every input may take.
CROWDS_FIT = False

# Whether the disk of an image takes memory as its bytes come. A program that takes all of it at once wants 64 MB for
# the most sectors that an image may promise, and its own code beside them.
DISKS_GROW = False

# Whether machines are recorded. A program that doesn't do it says so, and reads nothing.
RECORDS = True
not_recorded = not_built(0)

# Whether call slices are made, by `calls` and by `relog`, and replayed. A program that doesn't do it says so.
SLICES_BY_CALLS = True

# Whether recordings are asked by `inspect`.
INSPECTS = True

# Whether recordings are saved by `salvage`.
SALVAGES = False

# Whether images are made by `make`.
MAKES = True

# Whether they are told about by `demo`.
DEMOS = False


def once(is_built, cases):
    """These cases; where the program doesn't have yet what they are about, it has to say so and to write nothing."""
    return cases if is_built else [replace(each, status=not_built(0), output=b'') for each in cases]


def without_value(step):
    """The status where this step asks for a value of the outside, and there is none."""
    return broken(step) if CALLS_MISSING_VALUES_BROKEN else not_built(step)


def at_events(base, status):
    """The status of an input whose first record is whole and isn't End: the one that is given, once events are read."""
    return status if READS_EVENTS else not_built(base)


def at_version_2(status, version_1):
    """The status of an input whose first number is 0: of version 2, or as a version 1 whose first field is bad."""
    return status if READS_VERSION_2 else version_1


def what_is_written(status, recording):
    """The output that goes with a status: none where it isn't done."""
    return recording if status == done else None
