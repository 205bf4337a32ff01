"""Draws a log, its buffers and its records, with the hidden bytes shaded.

python3 docs/picture.py           draws samples/node.fdr as docs/log.svg
python3 docs/picture.py --check   writes nothing; tells whether the picture is as drawn
"""

import sys
from pathlib import Path

HERE = Path(__file__).resolve().parent
LOG = HERE.parent / "samples" / "node.fdr"
PICTURE = HERE / "log.svg"

ACTIONS = ["Entry", "Exit", "Tail_Exit", "Entry_Args"]
# The kinds of metadata records, with how many of their 16 bytes are shown.
KINDS = [("NewBuffer", 3), ("EndOfBuffer", 1), ("NewCPUId", 11), ("TSCWrap", 9), ("WallTimeMarker", 13),
         ("CustomEventMarker", 13), ("CallArgument", 1)]
EVENT = 5
END = 1

# Sizes of the picture.
BYTE, LINE, LEFT, TOP, GAP, ACROSS = 23, 22, 60, 70, 14, 16
WIDTH = LEFT + ACROSS * BYTE + 260


def number(log, at, size):
    return int.from_bytes(log[at:at + size], "little")


def rows_of_record(log, at):
    """The lines of the record at a place, each a name, its first place, its shown bytes and its end; and what is behind."""
    if log[at] & 1 == 0:
        word = number(log, at, 4)
        name = f"{ACTIONS[word >> 1 & 7]} of function {word >> 4}, {number(log, at + 4, 4):,} ticks on"
        return [(name, at, 8, at + 8)], at + 8
    kind = log[at] >> 1
    name, shown = KINDS[kind]
    rows = [(name, at, shown, at + 16)]
    if kind != EVENT:
        return rows, at + 16
    end = at + 16 + number(log, at + 1, 4)
    return rows + [("the event's bytes" if start == at + 16 else "", start, 0, min(start + ACROSS, end))
                   for start in range(at + 16, end, ACROSS)], end


def rows_of_buffer(log, start, end):
    """The lines of a buffer: its records up to EndOfBuffer, and the skipped rest."""
    rows, at = [], start
    while True:
        last = log[at] == END << 1 | 1
        found, at = rows_of_record(log, at)
        rows += found
        if last:
            break
    return rows + [("the skipped rest" if rest == at else "", rest, 0, min(rest + ACROSS, end))
                   for rest in range(at, end, ACROSS)]


def blocks_of(log):
    """The header and the buffers, each with its name and its lines."""
    size = number(log, 16, 8)
    frequency = number(log, 8, 8)
    yield f"Header: {frequency:,} Hz, buffers of {size} bytes", [
        ("version, type, bitfield, frequency", 0, 16, 16), ("buffer_size; reserved", 16, 8, 32)]
    for index, start in enumerate(range(32, len(log), size)):
        yield f"Buffer {index + 1}", rows_of_buffer(log, start, start + size)


def drawn_row(log, top, name, first, shown, end):
    """One line: its place, its bytes with the hidden ones shaded, and what it is."""
    cells = [f'<text class="n" x="{LEFT - 10}" y="{top + 15}">{first}</text>']
    for at in range(first, end):
        left = LEFT + (at - first) * BYTE
        kind = "s" if at - first < shown else "h"
        cells.append(f'<rect class="{kind}" x="{left}" y="{top}" width="{BYTE}" height="{LINE - 3}"/>'
                     f'<text class="b" x="{left + BYTE // 2}" y="{top + 14}">{log[at]:02x}</text>')
    cells.append(f'<text x="{LEFT + ACROSS * BYTE + 12}" y="{top + 15}">{name}</text>')
    return "\n".join(cells)


def drawn(log):
    parts, top = [], TOP
    for title, rows in blocks_of(log):
        parts.append(f'<text class="t" x="10" y="{top + 14}">{title}</text>')
        top += LINE
        for row in rows:
            parts.append(drawn_row(log, top, *row))
            top += LINE
        top += GAP
    style = ("text{font:13px sans-serif;fill:#222}.t{font-weight:bold}.n{text-anchor:end;fill:#777}"
             ".b{font-family:monospace;font-size:12px;text-anchor:middle}"
             ".s{fill:#fff;stroke:#888}.h{fill:#c9c9c9;stroke:#888}")
    legend = (f'<text class="t" x="10" y="24">samples/{LOG.name}, {len(log)} bytes</text>\n'
              f'<rect class="h" x="10" y="36" width="{BYTE}" height="{LINE - 3}"/>'
              f'<text x="{BYTE + 18}" y="51">hidden: may hold patient data, and is zero in a scrubbed copy</text>')
    return (f'<svg xmlns="http://www.w3.org/2000/svg" viewBox="0 0 {WIDTH} {top}" width="{WIDTH}" height="{top}">\n'
            f"<style>{style}</style>\n<rect width=\"100%\" height=\"100%\" fill=\"#fff\"/>\n{legend}\n"
            + "\n".join(parts) + "\n</svg>\n")


def main(words):
    picture = drawn(LOG.read_bytes())
    if words == ["--check"]:
        if not PICTURE.is_file() or PICTURE.read_text() != picture:
            sys.exit(f"{PICTURE.name} is not as drawn")
        print(f"{PICTURE.name} is as drawn")
    elif not words:
        PICTURE.write_text(picture)
    else:
        sys.exit("usage: python3 docs/picture.py [--check]")


if __name__ == "__main__":
    main(sys.argv[1:])
