"""The sample DCFG texts, each with the lines that reading it must print. In a text that is refused a ^ stands before the byte
of the place, and is taken out."""

# Source document 000, section 2.1, mended where it isn't JSON: its eight `...` are out, each with the comma before it, and
# PROCESS_DATA is closed behind EDGES (`} ] ] }`) instead of before it (`},`, and `] } ] }` at the end).
EXAMPLE = r"""{ "MAJOR_VERSION" : 1,
  "MINOR_VERSION" : 0,
  "FILE_NAMES" : [
    [ "FILE_NAME_ID", "FILE_NAME" ],
    [ 1, "hello-world" ],
    [ 2, "\/lib64\/ld-linux-x86-64.so.2" ] ],
  "EDGE_TYPES" : [
    [ "EDGE_TYPE_ID", "EDGE_TYPE" ],
    [ 1, "ENTRY" ],
    [ 2, "EXIT" ],
    [ 3, "CALL" ] ],
  "SPECIAL_NODES" : [
    [ "NODE_ID", "NODE_NAME" ],
    [ 1, "START" ], [ 2, "END" ] ],
  "PROCESSES" : [
    [ "PROCESS_ID", "PROCESS_DATA" ],
    [ 13723,
      { "INSTR_COUNT_PER_THREAD" : [ 1867502 ],
        "INSTR_COUNT" : 1867502,
        "IMAGES" : [
          [ "IMAGE_ID", "LOAD_ADDR", "SIZE", "IMAGE_DATA" ],
          [ 1, "0x400000", 2112944,
            { "FILE_NAME_ID" : 1,
              "SYMBOLS" : [
                [ "NAME", "ADDR_OFFSET", "SIZE" ],
                [ "main", "0xdd0", 128 ] ],
              "SOURCE_DATA" : [
                [ "FILE_NAME_ID", "LINE_NUM",
                  "ADDR_OFFSET", "SIZE", "NUM_INSTRS" ],
                [ 8, 25, "0xb28", 4, 1 ],
                [ 8, 26, "0xb2c", 5, 1 ] ],
              "BASIC_BLOCKS" : [
                [ "NODE_ID", "ADDR_OFFSET", "SIZE",
                  "NUM_INSTRS", "LAST_INSTR_OFFSET", "COUNT" ],
                [ 4, "0xb28", 9, 2, 4, 1 ],
                [ 5, "0xb31", 5, 2, 4, 1 ],
                [ 6, "0xb40", 12, 2, 6, 10 ] ],
              "ROUTINES" : [
                [ "ENTRY_NODE_ID", "EXIT_NODE_IDS",
                  "NODES", "LOOPS" ],
                [ 90,
                  [ 90, 93, 95 ],
                  [ [ "NODE_ID", "IDOM_NODE_ID" ],
                    [ 90, 90 ], [ 91, 90 ], [ 92, 91 ],
                    [ 93, 92 ], [ 94, 93 ], [ 95, 91 ] ],
                  [ [ "LOOP_HEAD_NODE_ID",
                      "LOOP_BACK_EDGE_SOURCE_NODE_IDS",
                      "LOOP_NODE_IDS",
                      "PARENT_LOOP_HEAD_NODE_ID" ],
                    [ 93, [ 94 ], [ 93, 94 ] ] ]
                ] ]
            } ] ],
        "EDGES" : [
          [ "EDGE_ID", "SOURCE_NODE_ID", "TARGET_NODE_ID",
            "EDGE_TYPE_ID", "COUNT_PER_THREAD" ],
          [ 2887, 1741, 1742, 16, [ 1 ] ],
          [ 1357, 665, 676, 13, [ 3 ] ],
          [ 2888, 2424, 2069, 6, [ 1 ] ] ]
      }
    ]
  ]
}
"""

# Two processes, keys and columns in another order, unknown ones, escapes and hexadecimal numbers.
TWO_PROCESSES = r"""{
  "SPECIAL_NODES": [["NODE_NAME", "NODE_ID"], ["START", 1], ["END", "0x2"]],
  "PROCESSES": [
    ["PROCESS_DATA", "HOST", "PROCESS_ID"],
    [{ "EDGES": [
         ["COUNT_PER_THREAD", "EDGE_TYPE_ID", "WEIGHT", "TARGET_NODE_ID", "SOURCE_NODE_ID", "EDGE_ID"],
         [[1, 0], 1, 0.5, 10, 1, 100],
         [[0, "0x1"], 2, null, 2, 10, "0x65", "past the header", [[]]]
       ],
       "INSTR_COUNT": "0xFFFFFFFFFFFFFFFF",
       "INSTR_COUNT_PER_THREAD": [18446744073709551614, 1] },
     {"name": "alpha"}, 4711],
    [{ "INSTR_COUNT": 0, "INSTR_COUNT_PER_THREAD": [],
       "\u0045DGES": [["EDGE_ID", "SOURCE_NODE_ID", "TARGET_NODE_ID", "EDGE_TYPE_ID", "COUNT_PER_THREAD"],
                      [100, 2147483647, 1, 7, []]] },
     {"name": "\u03b2"}, 4711]
  ],
  "EDGE_TYPES": [["EDGE_TYPE_ID", "EDGE_TYPE"], [1, "ENTRY"], [2, "EXIT"]],
  "COMMENT": "\uD83D\uDE00 \/ \" \\ \ud800",
  "MINOR_VERSION": "0x00", "MAJOR_VERSION": 1
}
"""

# A text of one process with one edge and one thread, whose parts are replaced.
SMALL = """{ "MAJOR_VERSION": 1, "MINOR_VERSION": 0,
  "EDGE_TYPES": [["EDGE_TYPE_ID", "EDGE_TYPE"], [1, "ENTRY"]],
  "SPECIAL_NODES": [["NODE_ID", "NODE_NAME"], [1, "START"]],
  "PROCESSES": [["PROCESS_ID", "PROCESS_DATA"], [22814,
    { "INSTR_COUNT": 30, "INSTR_COUNT_PER_THREAD": [30],
      "EDGES": [
        ["EDGE_ID", "SOURCE_NODE_ID", "TARGET_NODE_ID", "EDGE_TYPE_ID", "COUNT_PER_THREAD"],
        [5, 1, 4, 1, [1]]
      ] }]]
}
"""


def small(old, new):
    """The small text with one part replaced."""
    assert SMALL.count(old) == 1
    return SMALL.replace(old, new)


def sample(name, text, marked, number=None, lines=None):
    """A refused text has its number, an accepted one its lines."""
    if number is None:
        return name, text, marked.encode(), lines
    before, after = marked.encode().split(b"^")
    return name, text, before + after, [f"refused {number} at {len(before)}"]


SAMPLES = [
    sample("example", "The source's example, mended.",
           EXAMPLE,
           lines=["edges 3 threads 1", "0 2887 1741 1742 16", "0 1357 665 676 13", "0 2888 2424 2069 6", "0 1867502"]),
    sample("two-processes", "Columns and keys in another order, unknown ones, escapes, hexadecimal numbers.",
           TWO_PROCESSES,
           lines=["edges 3 threads 2", "0 100 1 10 1", "0 101 10 2 2", "1 100 2147483647 1 7",
                  "0 18446744073709551614", "0 1"]),
    sample("small", "One edge, one thread.",
           SMALL,
           lines=["edges 1 threads 1", "0 5 1 4 1", "0 30"]),
    sample("31-minor-version", "The source's own version 3.04: 04 is no number.",
           small('"MINOR_VERSION": 0,', '"MINOR_VERSION": 0^4,'), 31),
    sample("31-comma", "The source's own comma behind a table's last row.",
           small('[1, "ENTRY"]]', '[1, "ENTRY"],^]'), 31),
    sample("31-cut", "A text that ends too soon.",
           SMALL[:SMALL.index('"COUNT_PER')] + "^", 31),
    sample("32-deep", "33 brackets in a value that is skipped.",
           small("[1]]\n", "[1], " + "[" * 32 + "^[" + "]" * 33 + "]\n"), 32),
    sample("33-key", "A key twice, once with an escape.",
           small('"EDGES": [', '"INSTR_COUNT\\u005FPER_THREAD^": [30], "EDGES": ['), 33),
    sample("33-column", "A column twice.",
           small('"NODE_NAME"]', '"NODE_NAME", "NODE_ID^"]'), 33),
    sample("34-kind", "A count with a fraction.",
           small('"INSTR_COUNT": 30,', '"INSTR_COUNT": 30.^0,'), 34),
    sample("35-id", "A node of id 0.",
           small("[5, 1, 4,", "[5, ^0, 4,"), 35),
    sample("36-edge", "Two edges of one id.",
           small("[1]]\n", '[1]], ["0x5^", 4, 1, 1, [1]]\n'), 36),
    sample("37-threads", "257 threads.",
           small("[30]", "[" + "0, " * 256 + "3^0]"), 37),
    sample("38-row", "A row without its last column, which the answer doesn't have.",
           small("[5, 1, 4, 1, [1]]", "[5, 1, 4, 1]") + "^", 38),
    sample("38-key", "No EDGE_TYPES.",
           small('  "EDGE_TYPES": [["EDGE_TYPE_ID", "EDGE_TYPE"], [1, "ENTRY"]],\n', "") + "^", 38),
    sample("39-sum", "Counts that sum to 2^64 and 30, not to 30.",
           small("[30]", "[9223372036854775808, 9223372036854775808, 30]") + "^", 39),
]
