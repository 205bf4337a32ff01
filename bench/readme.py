"""Puts a table into README.md, between the comments that name it.

python3 bench/readme.py NAME   puts what it reads from standard input between <!-- NAME --> and <!-- end of NAME -->
"""

import sys
from pathlib import Path

README = Path(__file__).resolve().parent / "README.md"


def put(name, table):
    start, end = f"<!-- {name} -->\n", f"<!-- end of {name} -->\n"
    before, found, rest = README.read_text().partition(start)
    old, closed, behind = rest.partition(end)
    if not (found and closed):
        sys.exit(f"{README.name}: no place for {name}")
    README.write_text(before + start + table + end + behind)


if __name__ == "__main__":
    put(sys.argv[1], sys.stdin.read())
