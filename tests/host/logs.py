"""Logs for the tests of the program, made of the records of samples/make.py."""

import struct
import sys
from collections import namedtuple
from pathlib import Path

sys.path.insert(0, str(Path(__file__).resolve().parents[2] / "samples"))

import make  # noqa: E402

# Eight bytes that are a function record too: where a reader takes a part of one log and a part of another for one, an
# event's text can come to stand where function records are read.
TEXT = b"PATIENT "
BUFFER = 64 * 1024
BODY = BUFFER - len(make.lead()) - len(make.end_of_buffer())


def calls():
    """A body of calls: nothing in it is hidden."""
    pair = make.entry(5, 10) + make.exit(5, 30)
    return pair * (BODY // len(pair))


def event(text):
    """A body that is one event."""
    size = BODY - len(make.custom_event(0, 0))
    return make.custom_event(size, 1000) + text * (size // len(text))


def log(mib, first, text=TEXT):
    """A log of nearly so many MiB, whose buffers hold in turn calls and an event of this text: calls first, or not."""
    bodies = [calls(), event(text)] if first == "calls" else [event(text), calls()]
    count = (mib * 1024 * 1024 - len(make.header())) // BUFFER
    buffers = [make.lead() + bodies[at % 2] + make.end_of_buffer() for at in range(count)]
    return make.header(size=BUFFER) + b"".join(buffers)


def scrubbed(mib, first):
    """What that log is once it is scrubbed: its hidden bytes are the events' alone, for all others are zero already."""
    return log(mib, first, bytes(len(TEXT)))


# The fields of the metadata records, by their kinds, as struct has them.
METADATA = ["H13s", "15s", "HQ5s", "Q7s", "QI3s", "IQ3s", "Q7s"]


def turned(record):
    """A little-endian record in its big-endian form."""
    if record[0] % 2 == 0:
        first, delta = struct.unpack("<II", record)
        return struct.pack(">II", (first >> 1) % 8 << 28 | first >> 4, delta)
    kind = record[0] >> 1
    return bytes([0x80 | kind]) + struct.pack(">" + METADATA[kind], *struct.unpack("<" + METADATA[kind], record[1:]))


# What a function did in a log, as its row has it.
Row = namedtuple("Row", "entered closed backward abandoned ticks")


class Story:
    """A log that is told call by call, and the rows that it must give, in the order of first entry. Of its flags,
    constant_tsc is 1 and nonstop_tsc is 2."""

    def __init__(self, frequency=10**9, flags=3, big=False):
        self.frequency, self.flags, self.big = frequency, flags, big
        self.body, self.rows, self.records = [], {}, 4

    def _did(self, function, *numbers):
        row = self.rows.get(function, Row(0, 0, 0, 0, 0))
        self.rows[function] = Row(*map(sum, zip(row, numbers)))

    def _add(self, *records):
        self.body += records
        self.records += len(records)

    def measured(self, function, ticks):
        """A call of so many ticks."""
        self._add(make.new_cpu_id(0, 0), make.entry(function, 0), make.new_cpu_id(0, ticks), make.exit(function, 0))
        self._did(function, 1, 1, 0, 0, ticks)

    def backward(self, function):
        """A call that is left on a CPU whose clock is behind."""
        self._add(make.new_cpu_id(0, 9), make.entry(function, 0), make.new_cpu_id(1, 8), make.exit(function, 0))
        self._did(function, 1, 1, 1, 0, 0)

    def abandoned(self, function, below, ticks):
        """A call that is still open when one below it is closed, which takes so many ticks."""
        self._add(make.new_cpu_id(0, 0), make.entry(below, 0), make.entry(function, 0), make.new_cpu_id(0, ticks),
                  make.exit(below, 0))
        self._did(below, 1, 1, 0, 0, ticks)
        self._did(function, 1, 0, 0, 1, 0)

    def left_open(self, function):
        """A call that is never left. Nothing but such calls may follow."""
        self._add(make.entry(function, 0))
        self._did(function, 1, 0, 0, 0, 0)

    def log(self):
        records = [make.new_buffer(), make.wall_time(), make.new_cpu_id(0, 1000), *self.body, make.end_of_buffer()]
        size = sum(map(len, records))
        if not self.big:
            return struct.pack("<HHIQQQ", 1, 1, self.flags, self.frequency, size, 0) + b"".join(records)
        flags = self.flags % 2 << 31 | self.flags // 2 << 30
        return struct.pack(">HHIQQQ", 1, 1, flags, self.frequency, size, 0) + b"".join(map(turned, records))
