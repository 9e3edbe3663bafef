"""A plain reader of dumps to compare with: field by field, by the tables of docs/FORMATS.md alone."""

LOAD, STATE_BYTES, ELEMENTS, PES = 140_737_488_355_327, 1_048_576, 65_536, 256


class Fault(Exception):
    """The line of a fault."""


class Fields:
    def __init__(self, data):
        self.data, self.at = data, 0

    def number(self, width, holds=None, line=""):
        if self.at + width > len(self.data):
            raise Fault(f"dump: ends at byte {len(self.data)}")
        number = 0
        for byte in self.data[self.at:self.at + width]:
            number = 256 * number + byte
        self.at += width
        if holds and not holds(number):
            raise Fault(f"dump: {line}")
        return number

    def signed(self):
        number = self.number(8)
        return number - 2**64 if number >= 2**63 else number


def read(data):
    """Step, PEs, rows of elements, and the decision as a dictionary or None. Raises Fault."""
    fields = Fields(data)
    for letter in (b"L", b"B", b"D"):
        fields.number(1, lambda n: n == letter[0], "not LBD1 or LBD2")
    version = fields.number(1, lambda n: n in b"12", "not LBD1 or LBD2") - ord("0")
    step = fields.number(4)
    procs = fields.number(4, lambda n: 1 <= n <= PES, "procs out of 1..256")
    count = fields.number(4, lambda n: n <= ELEMENTS, "more than 65536 elements")
    rows = []
    for i in range(count):
        load = fields.number(4 * version, lambda n: n <= LOAD, f"element {i} has too great a load")
        size = fields.number(4, lambda n: n <= STATE_BYTES, f"element {i} has more than 1048576 bytes")
        rows.append((load, size, fields.number(4, lambda n: n < procs, f"element {i} is on no processor")))
    decision = None
    if version == 2 and fields.number(4, lambda n: n <= 1, "flag is not 0 or 1"):
        decision = read_decision(fields, count)
    if fields.at < len(data):
        raise Fault("dump: bytes after the last element")
    return step, procs, rows, decision


def read_decision(fields, count):
    pes = fields.number(4, lambda n: 1 <= n <= PES, "target out of 1..256")
    decision = {"pes": pes, "bottleneck": fields.number(8), "cuts": [fields.number(4) for _ in range(pes + 1)]}
    fence = fields.number(4, lambda n: n <= 1, "floor is not 0 or 1")
    decision["stops"] = [fields.number(4) for _ in range(pes + 1 if fence else 0)]
    decision["names"] = [fields.number(4) for _ in range(pes)]
    decision["block_prices"] = [fields.signed() for _ in range(pes)]
    decision["pe_prices"] = [fields.signed() for _ in range(pes)]
    decision["moved"] = fields.number(8)
    moves = fields.number(4, lambda n: n <= count, "more moves than elements")
    decision["moves"] = []
    for k in range(moves):
        line = f"move {k} is out of range"
        element = fields.number(4, lambda n: n < count, line)
        present = fields.number(4, lambda n: n < PES, line)
        decision["moves"].append((element, present, fields.number(4, lambda n: n < PES, line)))
    return decision
