#!/usr/bin/env python3
"""Reference loader, solver and lister for port sheets.

A second opinion beside the verified program. It is written from the
definitions and shares no method with the program: formulas are recognised by
rewriting, plans are found by a backward fixpoint, and costs by value
iteration.

    python3 tools/reference.py < sheet.bin      the page of one sheet
    python3 tools/reference.py --hex            hex sheets on standard input,
                                                one a line; `sheet K` and the
                                                page for each
    python3 tools/reference.py --text FILE...   hex text with `#` comments
"""

import sys
from collections import deque, namedtuple

OPENING = bytes.fromhex("47415445")
TRUE_TEXT = b"1"  # what an absent text stands for

MOST_MARKS, MOST_OPERATIONS, MOST_STAGES = 16, 32, 16
CONDITION, MOVE, REQUEST = 1, 2, 3
MOST_OF_KIND = {CONDITION: 256, MOVE: 4096, REQUEST: 32}
MAP_BITS = {CONDITION: 0b0011, MOVE: 0b1111, REQUEST: 0b1111}
MOST_TEXT_BYTES = 63

# Layer of each fault: 1 bytes, 2 formula, 3 record, 4 port.
LAYER = {1: 1, 2: 1, 3: 4, 4: 3, 5: 3, 6: 3, 7: 4, 8: 4, 9: 4, 10: 2, 11: 4}

Move = namedtuple("Move", "condition operation outcome minutes")
Request = namedtuple("Request", "from_stage to_stage keep reach")
Port = namedtuple(
    "Port",
    "marks operations stages start_stage start_condition conditions moves requests",
)


class Fault(Exception):
    """A sheet is refused: fault number, place, and records read whole before."""

    def __init__(self, number, place, records):
        super().__init__(number, place, records)
        self.number, self.place, self.records = number, place, records
        self.layer = LAYER[number]

    def line(self):
        return (
            f"fault {self.number} layer {self.layer}"
            f" at {self.place} record {self.records}"
        )


# ---------------------------------------------------------------- formulas

def is_formula(text, marks):
    """Is the text a formula over the first `marks` letters?

    Every letter and constant becomes `x`; what stands for one operand is
    rewritten to `x` until nothing changes. A formula, and only a formula,
    shrinks to a single `x`.
    """
    operands = b"01" + bytes(range(ord("a"), ord("a") + marks))
    shape = ""
    for byte in text:
        if byte in operands:
            shape += "x"
        elif byte in b"!&|()":
            shape += chr(byte)
        else:
            return False
    while True:
        shorter = shape
        for operand in ("!x", "(x)", "x&x", "x|x"):
            shorter = shorter.replace(operand, "x")
        if shorter == shape:
            return shape == "x"
        shape = shorter


def can_go_on(prefix, marks):
    """Does some formula begin with this prefix?

    If any does, then one that closes all open brackets, with one operand
    before them where one is due.
    """
    brackets = b")" * max(0, prefix.count(b"(") - prefix.count(b")"))
    return is_formula(prefix + brackets, marks) or is_formula(
        prefix + b"0" + brackets, marks
    )


def formula_fault(text, marks):
    """None for a formula; else the first byte with which no formula can go on,
    or the text's length where it only ends too early."""
    if is_formula(text, marks):
        return None
    for length in range(1, len(text) + 1):
        if not can_go_on(text[:length], marks):
            return length - 1
    return len(text)


def holds_in(text, conditions):
    """The conditions (bit set over their numbers) in which a formula is true.

    Operators wait on a stack until a weaker one, a bracket or the end comes.
    """
    everywhere = (1 << len(conditions)) - 1
    strength = {"|": 1, "&": 2, "!": 3}
    values, operators = [], []

    def apply(operator):
        right = values.pop()
        if operator == "!":
            values.append(everywhere & ~right)
        elif operator == "&":
            values.append(values.pop() & right)
        else:
            values.append(values.pop() | right)

    for sign in text.decode("ascii"):
        if sign == "0":
            values.append(0)
        elif sign == "1":
            values.append(everywhere)
        elif sign in "!(":
            operators.append(sign)
        elif sign == ")":
            while operators[-1] != "(":
                apply(operators.pop())
            operators.pop()
        elif sign in "&|":
            while (
                operators
                and operators[-1] != "("
                and strength[operators[-1]] >= strength[sign]
            ):
                apply(operators.pop())
            operators.append(sign)
        else:
            mark = 1 << (ord(sign) - ord("a"))
            values.append(
                sum(1 << c for c, marks in enumerate(conditions) if marks & mark)
            )
    while operators:
        apply(operators.pop())
    (value,) = values
    return value


# ------------------------------------------------------------------ loader

class Reader:
    """The sheet's bytes, the present place and the records read whole."""

    def __init__(self, data):
        self.data, self.place, self.records = data, 0, 0

    def fail(self, number, place):
        raise Fault(number, place, self.records)

    def done(self):
        return self.place == len(self.data)

    def take(self, count):
        if len(self.data) - self.place < count:
            self.fail(1, len(self.data))
        taken = self.data[self.place:self.place + count]
        self.place += count
        return taken

    def byte(self):
        return self.take(1)[0]

    def header_byte(self, least, most):
        at = self.place
        value = self.byte()
        if not least <= value <= most:
            self.fail(3, at)
        return value

    def number(self, present, map_place, size=1):
        """A number field: its value and its place. Absent, it is 0 and its
        place is the map byte; present, it must not be 0."""
        if not present:
            return 0, map_place
        at = self.place
        value = int.from_bytes(self.take(size), "big")
        if value == 0:
            self.fail(6, at)
        return value, at

    def number_below(self, limit, present, map_place):
        """A number field that names one of `limit` things."""
        value, at = self.number(present, map_place)
        if value >= limit:
            self.fail(7, at)
        return value

    def text(self, present, marks):
        """A text field: length judged, bytes present, not `1`, a formula."""
        if not present:
            return TRUE_TEXT
        at = self.place
        length = self.byte()
        if not 1 <= length <= MOST_TEXT_BYTES:
            self.fail(7, at)
        text = self.take(length)
        if text == TRUE_TEXT:
            self.fail(6, at)
        wrong = formula_fault(text, marks)
        if wrong is not None:
            self.fail(10, at + 1 + wrong)
        return text


def load(data):
    """The port of a sheet, or the first fault in checking order."""
    reader = Reader(data)
    if reader.take(4) != OPENING:
        reader.fail(2, 0)
    marks = reader.header_byte(1, MOST_MARKS)
    operations = reader.header_byte(1, MOST_OPERATIONS)
    stages = reader.header_byte(1, MOST_STAGES)
    start_stage = reader.header_byte(0, stages - 1)
    start_condition_place = reader.place
    start_condition = reader.byte()  # judged last

    every_mark = (1 << marks) - 1
    conditions, moves, requests = [], [], []
    so_far = {CONDITION: conditions, MOVE: moves, REQUEST: requests}
    kind_before = CONDITION
    while not reader.done():
        at = reader.place
        kind = reader.byte()
        if kind not in so_far or kind < kind_before:
            reader.fail(4, at)
        kind_before = kind
        if len(so_far[kind]) == MOST_OF_KIND[kind]:
            reader.fail(9, at)
        map_place = reader.place
        present = reader.byte()
        if present & ~MAP_BITS[kind]:
            reader.fail(5, map_place)

        if kind == CONDITION:
            low, place = reader.number(present & 1, map_place)
            if low & ~every_mark:
                reader.fail(7, place)
            high, place = reader.number(present & 2, map_place)
            if (high << 8) & ~every_mark:
                reader.fail(7, place)
            record = high << 8 | low
            if conditions and record <= conditions[-1]:
                reader.fail(8, at)
        elif kind == MOVE:
            condition = reader.number_below(len(conditions), present & 1, map_place)
            operation = reader.number_below(operations, present & 2, map_place)
            outcome = reader.number_below(len(conditions), present & 4, map_place)
            minutes, _ = reader.number(present & 8, map_place, size=2)
            record = Move(condition, operation, outcome, minutes)
            if moves and record[:3] <= moves[-1][:3]:
                reader.fail(8, at)
        else:
            from_stage = reader.number_below(stages, present & 1, map_place)
            to_stage = reader.number_below(stages, present & 2, map_place)
            keep = reader.text(present & 4, marks)
            reach = reader.text(present & 8, marks)
            record = Request(from_stage, to_stage, keep, reach)
        so_far[kind].append(record)
        reader.records += 1

    if start_condition >= len(conditions):
        reader.fail(11, start_condition_place)
    return Port(
        marks, operations, stages, start_stage, start_condition,
        conditions, moves, requests,
    )


# ------------------------------------------------------------------ writer

def encode_record(kind, fields):
    """A record from its fields' bytes in order, None for an absent field."""
    present = sum(1 << bit for bit, field in enumerate(fields) if field is not None)
    return bytes([kind, present]) + b"".join(f for f in fields if f is not None)


def number_field(value, size=1):
    return value.to_bytes(size, "big") if value else None


def text_field(text):
    return bytes([len(text)]) + text if text != TRUE_TEXT else None


def encode_condition(marks):
    return encode_record(
        CONDITION, [number_field(marks & 0xFF), number_field(marks >> 8)]
    )


def encode_move(move):
    return encode_record(
        MOVE,
        [
            number_field(move.condition),
            number_field(move.operation),
            number_field(move.outcome),
            number_field(move.minutes, 2),
        ],
    )


def encode_request(request):
    return encode_record(
        REQUEST,
        [
            number_field(request.from_stage),
            number_field(request.to_stage),
            text_field(request.keep),
            text_field(request.reach),
        ],
    )


def encode_header(marks, operations, stages, start_stage=0, start_condition=0):
    return OPENING + bytes([marks, operations, stages, start_stage, start_condition])


def encode(port):
    """The one sheet of a port."""
    return (
        encode_header(*port[:5])
        + b"".join(map(encode_condition, port.conditions))
        + b"".join(map(encode_move, port.moves))
        + b"".join(map(encode_request, port.requests))
    )


def read_text(text):
    """The bytes of a hex text: `#` starts a comment, white space is free."""
    return bytes.fromhex("".join(line.split("#")[0] for line in text.splitlines()))


# ------------------------------------------------------------------ solver

class Domain:
    """A port's moves by condition and operation, and backwards by outcome.

    options[c]: for each operation possible in c, rising, the operation, its
    outcomes as a bit set, and its moves.
    before[o]: each (c, outcomes) where an operation in c can end in o.
    """

    def __init__(self, port):
        self.size = len(port.conditions)
        grouped = [{} for _ in range(self.size)]
        for move in port.moves:
            grouped[move.condition].setdefault(move.operation, []).append(move)
        self.options = []
        self.before = [[] for _ in range(self.size)]
        for c, by_operation in enumerate(grouped):
            options = []
            for operation in sorted(by_operation):
                moves = by_operation[operation]
                outcomes = sum(1 << move.outcome for move in moves)
                options.append((operation, outcomes, moves))
                for move in moves:
                    self.before[move.outcome].append((c, outcomes))
            self.options.append(options)


def members(bits):
    """The members of a bit set, rising."""
    while bits:
        lowest = bits & -bits
        yield lowest.bit_length() - 1
        bits ^= lowest


def with_plan(domain, keep, ends):
    """The conditions from which some plan keeps `keep` and stops in `ends`.

    The least set that holds every end, and every condition where keep holds
    and some possible operation has all its outcomes in the set. An end needs
    no keep: its plan stops at once.
    """
    good = ends
    waiting = list(members(ends))
    while waiting:
        outcome = waiting.pop()
        for c, outcomes in domain.before[outcome]:
            if keep >> c & 1 and not good >> c & 1 and not outcomes & ~good:
                good |= 1 << c
                waiting.append(c)
    return good


def rounds(port, domain, keeps, reaches):
    """Each pair's rank (by stage, then condition), the kept conditions of each
    stage as bit sets, and the number of rounds.

    Every pair serves 0 requests in a row. A pair serves k + 1 if each request
    of its stage has a plan all of whose ends serve k with the to-stage. The
    rank is the least k not served, 0 where every k is. One turn of the loop
    goes from `serving` for k to `serving` for k + 1; a request's plans are
    looked for again only where its to-stage lost a pair.
    """
    every_condition = (1 << domain.size) - 1
    serving = [every_condition] * port.stages
    ranks = [0] * (port.stages * domain.size)
    able = [None] * len(port.requests)
    k = 0
    while True:
        following = [every_condition] * port.stages
        for r, request in enumerate(port.requests):
            if able[r] is None:
                ends = reaches[r] & serving[request.to_stage]
                able[r] = with_plan(domain, keeps[r], ends)
            following[request.from_stage] &= able[r]
        # Serving k + 1 implies serving k, so what is left out now is new.
        lost = [now & ~then for now, then in zip(serving, following)]
        if not any(lost):
            return ranks, serving, k
        k += 1
        for stage, bits in enumerate(lost):
            for c in members(bits):
                ranks[stage * domain.size + c] = k
        for r, request in enumerate(port.requests):
            if lost[request.to_stage]:
                able[r] = None
        serving = following


# A cost model: name, the cost of stopping, and a move joined onto a cost.
# Costs are tuples, compared column by column.
MODELS = (
    ("moves", (0,), lambda move, cost: (cost[0] + 1,)),
    ("minutes", (0, 0), lambda move, cost: (cost[0] + move.minutes, cost[1] + 1)),
)


def worst(moves, cost, join):
    """The worst case of an operation all of whose outcomes have a cost."""
    return max([join(move, cost[move.outcome]) for move in moves])


def least_costs(domain, keep, ends, zero, join):
    """The least worst-case cost from each condition with a plan, by value
    iteration: an end costs nothing; elsewhere, where keep holds, the cost is
    the least over possible operations of the worst over outcomes. A condition
    is looked at again whenever an outcome of it got cheaper, until nothing
    changes."""
    cost = dict.fromkeys(members(ends), zero)
    finite = ends
    waiting = deque()
    listed = set()

    def look_before(outcome):
        for c, _ in domain.before[outcome]:
            if keep >> c & 1 and not ends >> c & 1 and c not in listed:
                listed.add(c)
                waiting.append(c)

    for c in members(ends):
        look_before(c)
    while waiting:
        c = waiting.popleft()
        listed.remove(c)
        choices = [
            worst(moves, cost, join)
            for _, outcomes, moves in domain.options[c]
            if not outcomes & ~finite
        ]
        if choices:
            least = min(choices)
            if c not in cost or least < cost[c]:
                cost[c] = least
                finite |= 1 << c
                look_before(c)
    return cost


def policy(domain, keep, ends, zero, join):
    """For each condition None, "there", or (operation, least cost)."""
    cost = least_costs(domain, keep, ends, zero, join)
    finite = sum(1 << c for c in cost)
    entries = []
    for c in range(domain.size):
        if ends >> c & 1:
            entries.append("there")
        elif c not in cost:
            entries.append(None)
        else:
            operation = next(
                operation
                for operation, outcomes, moves in domain.options[c]
                if not outcomes & ~finite and worst(moves, cost, join) == cost[c]
            )
            entries.append((operation, cost[c]))
    return entries


Answer = namedtuple("Answer", "ranks kept rounds policies")


def solve(port):
    """Ranks, kept sets, rounds, and for each cost model the policy's entries
    by request."""
    domain = Domain(port)
    keeps = [holds_in(request.keep, port.conditions) for request in port.requests]
    reaches = [holds_in(request.reach, port.conditions) for request in port.requests]
    ranks, kept, count = rounds(port, domain, keeps, reaches)
    policies = {
        name: [
            policy(domain, keeps[r], reaches[r] & kept[request.to_stage], zero, join)
            for r, request in enumerate(port.requests)
        ]
        for name, zero, join in MODELS
    }
    return Answer(ranks, kept, count, policies)


# ------------------------------------------------------------------ lister

def listing(port):
    """The page of a port, as lines."""
    answer = solve(port)
    size = len(port.conditions)
    kept_count = answer.ranks.count(0)
    start_rank = answer.ranks[port.start_stage * size + port.start_condition]
    lines = [
        f"kept {kept_count} of {port.stages * size} in {answer.rounds} rounds",
        f"start dropped {start_rank}" if start_rank else "start kept",
    ]
    for name, by_request in answer.policies.items():
        lines.append(name)
        for r, entries in enumerate(by_request):
            for c, entry in enumerate(entries):
                if entry is None:
                    lines.append(f"{r} {c} none")
                elif entry == "there":
                    lines.append(f"{r} {c} there")
                else:
                    operation, cost = entry
                    columns = " ".join(map(str, cost))
                    lines.append(f"{r} {c} work {operation} {columns}")
    return lines


def page(data):
    """The page of a sheet, faulty or not, as lines."""
    try:
        port = load(data)
    except Fault as fault:
        return [fault.line()]
    return listing(port)


def pages(sheets):
    """The numbered pages of several sheets, as one text."""
    lines = []
    for k, sheet in enumerate(sheets):
        lines.append(f"sheet {k}")
        lines.extend(page(sheet))
    return "".join(line + "\n" for line in lines)


def main(arguments):
    if not arguments:
        print("\n".join(page(sys.stdin.buffer.read())))
    elif arguments == ["--hex"]:
        sheets = [bytes.fromhex(line) for line in sys.stdin.read().splitlines()]
        sys.stdout.write(pages(sheets))
    elif arguments[0] == "--text" and len(arguments) > 1:
        for name in arguments[1:]:
            with open(name, encoding="utf-8") as file:
                print("\n".join(page(read_text(file.read()))))
    else:
        sys.exit(__doc__)


if __name__ == "__main__":
    main(sys.argv[1:])
