"""Runs a program as a test does: words, the bytes of standard input, and what came of it."""
import os
import subprocess
import tempfile
from dataclasses import dataclass

from statuses import Status

SECONDS = 20


@dataclass(frozen=True)
class Outcome:
    status: Status
    output: bytes
    was_read: int  # how far standard input was read, in bytes
    extra: bytes = b''  # what stands on standard error besides its one line


class Program:
    """A program in a file, which may be called from several threads."""

    def __init__(self, path):
        self.path = os.path.abspath(path)

    def run(self, words, data, seconds=SECONDS, memory=None):
        """The outcome of a call. Standard input is a file, so that it can be told how much of it was read.

        Where `memory` is given, the program gets no more than so many bytes of addresses, its own code among them.
        """
        limited = ['sh', '-c', f'ulimit -v {memory >> 10} && exec "$0" "$@"'] if memory else []
        with tempfile.TemporaryFile() as given:
            given.write(data)
            given.flush()
            given.seek(0)
            try:
                ran = subprocess.run([*limited, self.path, *words], stdin=given, capture_output=True, timeout=seconds)
            except subprocess.TimeoutExpired:
                return Outcome(Status(-1, f'no end within {seconds} seconds'), b'', 0)
            was_read = os.lseek(given.fileno(), 0, os.SEEK_CUR)
        line, newline, extra = ran.stderr.partition(b'\n')
        line = line.decode(errors='backslashreplace') if newline else f'{line!r} without a newline'
        return Outcome(Status(ran.returncode, line), ran.stdout, was_read, extra)
