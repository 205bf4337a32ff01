"""Runs the program that is tried: that of target/host, or the one that PROGRAM names; and the samples' byte orders."""

import os
import subprocess
from collections import namedtuple
from pathlib import Path

ROOT = Path(__file__).resolve().parents[2]
PROGRAM = os.environ.get("PROGRAM", ROOT / "target/host/towercloak")

Ran = namedtuple("Ran", "status out err")


def run(*words, given=b"", **more):
    """What it answers to these words, with these bytes on standard input."""
    ran = subprocess.run([PROGRAM, *words], input=given, capture_output=True, **more)
    return Ran(ran.returncode, ran.stdout.decode(), ran.stderr.decode(errors="replace"))


def is_big_endian(path):
    """Whether this sample is to be read as a big-endian log."""
    return path.stem.endswith("-big-endian")


class Checks:
    """Counts what holds, and tells of what doesn't."""

    def __init__(self, name):
        self.name, self.passed, self.failed = name, 0, 0

    def equal(self, what, found, expected):
        if found == expected:
            self.passed += 1
            return
        self.failed += 1
        print(f"FAILED: {what}:\n  found    {str(found)[:600]!r}\n  expected {str(expected)[:600]!r}")

    def conclude(self):
        """The last line, and the exit status."""
        print(f"host, {self.name}: {self.passed} checks passed, {self.failed} failed")
        return 1 if self.failed or not self.passed else 0
