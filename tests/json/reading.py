"""Python's own reading of a DCFG: its lines, or the numbers of all that is wrong with it. Places are left aside."""

import re

from judge import Members, Number

TOP = 2**64 - 1
EDGES, THREADS = 4096, 256
DEEPEST = 32
EDGE_COLUMNS = ["EDGE_ID", "SOURCE_NODE_ID", "TARGET_NODE_ID", "EDGE_TYPE_ID", "COUNT_PER_THREAD"]


class Reading:
    """Of one value that is JSON."""

    def __init__(self, value):
        self.faults = set()
        self.edges, self.threads = [], []
        self.repeated_keys(value)
        self.top(value)
        if len(self.edges) > EDGES or len(self.threads) > THREADS:
            self.faults.add(37)

    def lines(self):
        rows = [" ".join(map(str, row)) for row in self.edges + self.threads]
        return [f"edges {len(self.edges)} threads {len(self.threads)}"] + rows

    def repeated_keys(self, value):
        values = [value]
        while values:
            value = values.pop()
            if isinstance(value, Members):
                self.unique([key for key, _ in value])
                values += [inner for _, inner in value]
            elif isinstance(value, list):
                values += value

    def unique(self, names):
        if len(set(names)) < len(names):
            self.faults.add(33)

    # Kinds.

    def wrong(self, value):
        self.skip(value)
        self.faults.add(34)

    def skip(self, value, depth=1):
        if isinstance(value, list):
            if depth > DEEPEST:
                self.faults.add(32)
                return
            for inner in value:
                self.skip(inner[1] if isinstance(value, Members) else inner, depth + 1)

    def array(self, value):
        if type(value) is list:
            return value
        self.wrong(value)
        return []

    def string(self, value):
        if type(value) is not str:
            self.wrong(value)

    def integer(self, value):
        number = TOP + 1
        if type(value) is Number and re.fullmatch("[0-9]+", value):
            number = int(value)
        elif type(value) is str and re.fullmatch("0x[0-9a-fA-F]+", value):
            number = int(value[2:], 16)
        if number <= TOP:
            return number
        self.wrong(value)
        return None

    def id(self, value):
        number = self.integer(value)
        if number is not None and not 1 <= number <= 2_147_483_647:
            self.faults.add(35)
        return number

    def own_ids(self, values):
        ids = [self.id(value) for value in values]
        ids = [number for number in ids if number is not None]
        if len(set(ids)) < len(ids):
            self.faults.add(36)

    # Objects and tables.

    def members(self, value, names):
        """The values of these keys, of a repeated one the first; those of others are skipped."""
        if not isinstance(value, Members):
            self.wrong(value)
            return None
        found = dict(reversed(value))
        for key, inner in value:
            if key not in names:
                self.skip(inner)
        if not set(names) <= set(found):
            self.faults.add(38)
        return found

    def table(self, value, names):
        """The cells in these columns, row by row; those in others are skipped."""
        header, *rows = self.array(value) or [[]]
        header = self.array(header)
        for column in header:
            self.string(column)
        header = [column if type(column) is str else None for column in header]
        self.unique([column for column in header if column is not None])
        if not set(names) <= set(header):
            self.faults.add(38)
        return [self.row(row, header, names) for row in rows]

    def row(self, value, header, names):
        cells = {}
        for index, cell in enumerate(self.array(value)):
            if index < len(header) and header[index] in names:
                cells.setdefault(header[index], cell)
            else:
                self.skip(cell)
        if not set(names) <= set(cells):
            self.faults.add(38)
        return cells

    # A DCFG.

    def top(self, value):
        names = ["MAJOR_VERSION", "MINOR_VERSION", "EDGE_TYPES", "SPECIAL_NODES", "PROCESSES"]
        found = self.members(value, names) or {}
        for key in names[:2]:
            if key in found:
                self.integer(found[key])
        for key, own, name in [("EDGE_TYPES", "EDGE_TYPE_ID", "EDGE_TYPE"), ("SPECIAL_NODES", "NODE_ID", "NODE_NAME")]:
            if key in found:
                self.names(found[key], own, name)
        if "PROCESSES" in found:
            for number, row in enumerate(self.table(found["PROCESSES"], ["PROCESS_ID", "PROCESS_DATA"])):
                self.process(number, row)

    def names(self, value, own, name):
        rows = self.table(value, [own, name])
        self.own_ids([row[own] for row in rows if own in row])
        for row in rows:
            if name in row:
                self.string(row[name])

    def process(self, process, row):
        if "PROCESS_ID" in row:
            self.integer(row["PROCESS_ID"])
        if "PROCESS_DATA" not in row:
            return
        found = self.members(row["PROCESS_DATA"], ["INSTR_COUNT", "INSTR_COUNT_PER_THREAD", "EDGES"]) or {}
        counts = [self.integer(count) for count in self.array(found.get("INSTR_COUNT_PER_THREAD", []))]
        self.threads += [(process, count) for count in counts]
        total = self.integer(found["INSTR_COUNT"]) if "INSTR_COUNT" in found else None
        if total is not None and None not in counts and total != sum(counts):
            self.faults.add(39)
        if "EDGES" in found:
            self.process_edges(process, self.table(found["EDGES"], EDGE_COLUMNS))

    def process_edges(self, process, rows):
        self.own_ids([row["EDGE_ID"] for row in rows if "EDGE_ID" in row])
        for row in rows:
            ids = [self.id(row[column]) for column in EDGE_COLUMNS[1:4] if column in row]
            for count in self.array(row.get("COUNT_PER_THREAD", [])):
                self.integer(count)
            self.edges.append((process, self.integer(row.get("EDGE_ID", "0x0")), *ids))
