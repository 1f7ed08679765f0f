"""Recordings as people read them, and their bytes."""
from .assembler import assemble
from .fields import varint, word, words
from .recording import MARK_EVERY, PAGE, RAM, Dma, Lines, Mark, Recording, State, Value, page, reset
from .registers import *  # noqa: F401,F403
