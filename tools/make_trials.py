#!/usr/bin/env python3
"""Writes the trial sheets and their expected pages.

    python3 tools/make_trials.py

crates/trials/stdin holds one sheet a line in hex (an empty line is the empty
sheet); crates/trials/stdout holds `sheet K` and the page for each, by
reference.py. The same files come out every time. Sheets damaged on purpose
are checked against a fault worked out by hand.
"""

import os
import random
import sys

sys.dont_write_bytecode = True
import reference
from reference import (
    Fault, Move, Port, Request, encode, encode_condition, encode_header,
    encode_move, encode_request, load, page, pages, solve,
)

FOLDER = os.path.join(os.path.dirname(os.path.abspath(__file__)), "../crates/trials")

LOW_STAITHE_PARTS = [
    bytes.fromhex(part)
    for part in (
        "474154450202020000 0100 010101 010102 010103 020C010004 020C020006"
        " 020B01010003 020D02030002 020F020101000A 030A010161"
        " 030D01022162052161262162"
    ).split()
]
LOW_STAITHE = b"".join(LOW_STAITHE_PARTS)
LOW_STAITHE_PAGE = """\
kept 5 of 8 in 2 rounds
start kept
moves
0 0 work 0 2
0 1 there
0 2 work 1 1
0 3 none
1 0 there
1 1 work 1 1
1 2 none
1 3 none
minutes
0 0 work 0 16 2
0 1 there
0 2 work 1 10 1
0 3 none
1 0 there
1 1 work 1 3 1
1 2 none
1 3 none
"""

rng = random.Random(20240607)

sheets = []          # the trials, in order
seen = set()         # their bytes, so that no sheet comes twice
valid_random = 0     # random sheets that load


def add(sheet):
    """Adds a sheet unless it is there already; tells whether it was new."""
    if sheet in seen:
        return False
    seen.add(sheet)
    sheets.append(sheet)
    return True


def fault_of(sheet):
    try:
        load(sheet)
    except Fault as fault:
        return fault
    return None


def add_good(port):
    """Adds a port's sheet, which must load as that port."""
    sheet = encode(port)
    assert load(sheet) == port, port
    return add(sheet)


def add_faulty(sheet, number, place, records):
    """Adds a damaged sheet with the fault worked out by hand."""
    fault = fault_of(sheet)
    found = fault and (fault.number, fault.place, fault.records)
    assert found == (number, place, records), (sheet.hex(), found, number, place, records)
    add(sheet)


# ----------------------------------------------------------- random formulas

def random_sum(marks, budget, depth=0):
    """A random formula of at most `budget` bytes."""
    text = random_product(marks, budget, depth)
    while budget - len(text) >= 2 and rng.random() < 0.35:
        text += b"|" + random_product(marks, budget - len(text) - 1, depth)
    return text


def random_product(marks, budget, depth):
    text = random_atom(marks, budget, depth)
    while budget - len(text) >= 2 and rng.random() < 0.35:
        text += b"&" + random_atom(marks, budget - len(text) - 1, depth)
    return text


def random_atom(marks, budget, depth):
    choice = rng.random()
    if budget >= 2 and choice < 0.28:
        return b"!" + random_atom(marks, budget - 1, depth)
    if budget >= 3 and choice < 0.28 + 0.3 / (1 + depth):
        return b"(" + random_sum(marks, budget - 2, depth + 1) + b")"
    if choice > 0.95:
        return rng.choice([b"0", b"1"])
    return bytes([ord("a") + rng.randrange(marks)])


def exact_sum(marks, length):
    """A random formula of exactly `length` bytes."""
    text = random_sum(marks, length)
    while len(text) < length:
        missing = length - len(text)
        if missing == 1:
            text = b"!" + text
        elif missing == 2 or rng.random() < 0.2:
            text = b"(" + text + b")"
        else:
            text += rng.choice([b"|", b"&"]) + random_atom(marks, 1, 9)
    return text


def one_condition(marks, number):
    """The formula that is true on exactly these marks."""
    return b"&".join(
        (b"" if number >> m & 1 else b"!") + bytes([ord("a") + m]) for m in range(marks)
    )


# -------------------------------------------------------------- random ports

def random_port(
    marks, size, operations, stages, requests,
    possible=0.4, branching=1.6, minutes=(0, 1, 2, 5, 10, 30), budget=12,
    aimed=0.5, forward=False,
):
    """A random port. `possible` is the share of operations possible in a
    condition, `branching` the mean number of outcomes, `aimed` the share of
    reach texts built around one condition's marks; with `forward`, moves go
    only to the next few conditions."""
    size = min(size, 1 << marks)
    conditions = sorted(rng.sample(range(1 << marks), size))
    moves = []
    for c in range(size):
        for operation in range(operations):
            if rng.random() >= possible:
                continue
            targets = list(range(c + 1, min(size, c + 4))) if forward else list(range(size))
            if not targets:
                continue
            count = 1
            while count < len(targets) and rng.random() < 1 - 1 / branching:
                count += 1
            for outcome in sorted(rng.sample(targets, count)):
                moves.append(Move(c, operation, outcome, rng.choice(minutes)))
    moves = moves[:reference.MOST_OF_KIND[reference.MOVE]]
    wanted = []
    for _ in range(requests):
        keep = b"1" if rng.random() < 0.35 else random_sum(marks, budget)
        if rng.random() < aimed:
            reach = one_condition(marks, rng.choice(conditions))
            while reach.count(b"&") and rng.random() < 0.7:
                reach = reach.split(b"&", 1)[1]
        else:
            reach = random_sum(marks, budget)
        wanted.append(Request(rng.randrange(stages), rng.randrange(stages), keep, reach))
    return Port(
        marks, operations, stages, rng.randrange(stages), rng.randrange(size),
        conditions, moves, wanted,
    )


def drop_chain(marks, size, stages, steps=1, operations=1):
    """A port that drops one pair a round until none is left.

    Each stage but the last asks for the next stage in the same condition; the
    last asks for stage 0 in a condition of the other parity, which lies only
    further along the chain. Operation k leads 1 to `steps` conditions on.
    """
    moves = [
        Move(c, k, c + 1 + k % steps, (7 * c + k) % 11)
        for c in range(size) for k in range(operations) if c + 1 + k % steps < size
    ]
    requests = [Request(s, s + 1, b"1", b"1") for s in range(stages - 1)]
    requests.append(Request(stages - 1, 0, b"a", b"!a"))
    requests.append(Request(stages - 1, 0, b"!a", b"a"))
    return Port(marks, operations, stages, 0, 0, list(range(size)), moves, requests)


def facts(port):
    """What a port's answer shows, to choose telling ports by."""
    answer = solve(port)
    moves, minutes = answer.policies["moves"], answer.policies["minutes"]
    pairs = [
        (x, y) for a, b in zip(moves, minutes) for x, y in zip(a, b) if isinstance(x, tuple)
    ]
    size = len(port.conditions)
    return {
        "rounds": answer.rounds,
        "start": answer.ranks[port.start_stage * size + port.start_condition],
        "kept": answer.ranks.count(0),
        "dropped": len(answer.ranks) - answer.ranks.count(0),
        "longest": max([x[1][0] for x, _ in pairs], default=0),
        "worked": len(pairs),
        "differ": sum(x[0] != y[0] for x, y in pairs),
    }


def choose(count, make, wanted, tries=4000):
    """Adds `count` random ports that answer the wish."""
    global valid_random
    added = 0
    for _ in range(tries):
        port = make()
        if wanted(facts(port)) and add_good(port):
            added += 1
            valid_random += 1
            if added == count:
                return
    raise AssertionError("too few random ports of a kind")


def anything(_):
    return True


def add_random_ports():
    r = rng.randint
    some = lambda *values: rng.choice(values)
    # One condition, and few.
    choose(8, lambda: random_port(r(1, 16), 1, r(1, 4), r(1, 4), r(0, 4)), anything)
    choose(40, lambda: random_port(
        r(1, 4), r(1, 8), r(1, 4), r(1, 5), r(0, 8),
        possible=some(0.15, 0.4, 0.8), branching=some(1, 1.3, 2)), anything)
    # Plans of several moves.
    choose(25, lambda: random_port(
        r(3, 5), r(5, 8), r(1, 4), r(1, 3), r(1, 4), possible=0.4, branching=1.2),
        lambda f: f["longest"] >= 4 and f["kept"])
    choose(15, lambda: random_port(
        r(4, 6), r(10, 20), r(2, 3), r(1, 3), r(1, 3), possible=0.4, branching=1.2),
        lambda f: f["longest"] >= 6)
    # Pairs dropped over several rounds.
    choose(25, lambda: random_port(
        r(3, 5), r(4, 8), r(1, 3), r(2, 5), r(2, 8), possible=0.35, branching=1.2),
        lambda f: f["rounds"] >= 3)
    choose(12, lambda: random_port(
        r(3, 5), r(6, 12), r(1, 3), r(3, 5), r(4, 8), possible=0.35, branching=1.1),
        lambda f: f["rounds"] >= 4 and f["kept"])
    choose(10, lambda: random_port(
        r(3, 4), r(6, 8), r(1, 2), r(2, 5), r(3, 6), possible=0.6, forward=True),
        lambda f: f["rounds"] >= 3)
    # Starts dropped late.
    choose(12, lambda: random_port(
        r(2, 5), r(4, 8), r(1, 3), r(2, 5), r(2, 6), possible=0.4, branching=1.2),
        lambda f: f["start"] >= 2 and f["kept"])
    # The two cost models choose differently.
    choose(20, lambda: random_port(
        r(3, 5), r(5, 10), r(2, 5), r(1, 3), r(1, 4), possible=0.5, branching=1.2,
        minutes=some((0, 60), (1, 2, 50, 100), (0, 65535))),
        lambda f: f["differ"] >= 2)
    # Most pairs kept, much to work.
    choose(15, lambda: random_port(
        r(3, 5), r(5, 8), r(2, 4), r(1, 5), r(1, 5), possible=0.6, branching=1.1),
        lambda f: f["worked"] >= 6 and f["kept"] > f["dropped"] > 0)
    # The longest moves there are.
    choose(8, lambda: random_port(
        r(3, 5), r(5, 12), r(1, 4), r(1, 2), r(1, 3), possible=0.4, branching=1.1,
        minutes=(65535, 65535, 65534, 0x100, 0xFF)),
        lambda f: f["longest"] >= 3)
    # Ties between operations: all moves alike, or none takes time.
    choose(10, lambda: random_port(
        r(2, 4), r(4, 8), r(4, 9), r(1, 3), r(1, 4), possible=0.7, branching=1.3,
        minutes=some((0,), (5,), (256,))),
        lambda f: f["worked"] >= 4)
    # Many operations, many stages, many marks, long texts, more conditions.
    choose(10, lambda: random_port(
        r(2, 4), r(2, 8), r(20, 32), r(1, 3), r(1, 3), possible=some(0.1, 0.5)), anything)
    choose(6, lambda: random_port(r(2, 4), r(2, 6), r(1, 3), 16, r(6, 8)), anything)
    choose(4, lambda: random_port(
        r(2, 3), r(3, 5), r(1, 3), 16, r(20, 32), possible=0.6),
        lambda f: f["rounds"] >= 2)
    choose(12, lambda: random_port(
        r(9, 16), r(2, 12), r(1, 4), r(1, 4), r(1, 4), budget=20), anything)
    choose(8, lambda: random_port(
        r(3, 16), r(4, 10), r(1, 3), r(1, 3), r(1, 4), budget=63, aimed=0.1), anything)
    choose(12, lambda: random_port(
        r(5, 9), r(18, 30), r(1, 4), r(1, 3), r(1, 3), possible=0.5, branching=1.3),
        lambda f: f["worked"] >= 8)
    # No requests; no moves; equal requests.
    choose(4, lambda: random_port(r(1, 4), r(1, 6), r(1, 3), r(1, 5), 0), anything)
    choose(4, lambda: random_port(
        r(2, 4), r(2, 6), r(1, 3), r(1, 4), r(1, 5), possible=0), anything)
    choose(4, lambda: doubled(random_port(
        r(2, 4), r(3, 6), r(1, 3), r(1, 3), r(1, 3))), anything)
    # One pair a round.
    for marks, size, stages in ((1, 2, 1), (3, 8, 1), (3, 7, 2), (3, 6, 5), (4, 16, 3), (3, 8, 16)):
        add_good(drop_chain(marks, size, stages))
    add_good(drop_chain(4, 12, 2, steps=3, operations=3))


def doubled(port):
    return port._replace(requests=port.requests + port.requests)


def add_hand_made_ports():
    """Small ports, each about one rule."""
    two = [0, 1]
    # Keep is not asked for where the plan stops at once, but before a move.
    add_good(Port(1, 1, 1, 0, 0, two, [Move(0, 0, 1, 3)], [Request(0, 0, b"0", b"a")]))
    add_good(Port(1, 1, 1, 0, 1, two, [Move(0, 0, 1, 3)], [Request(0, 0, b"a", b"a")]))
    add_good(Port(1, 1, 1, 0, 0, two, [Move(0, 0, 1, 3)], [Request(0, 0, b"!a", b"a")]))
    # An operation that may stay where it is makes no finite plan.
    add_good(Port(1, 1, 1, 0, 0, two, [Move(0, 0, 0, 1), Move(0, 0, 1, 1)],
                  [Request(0, 0, b"1", b"a")]))
    # Reach holds here, but only further on is the pair kept.
    add_good(Port(2, 1, 2, 0, 0, [0, 1, 2], [Move(0, 0, 1, 9), Move(2, 0, 2, 1)],
                  [Request(0, 1, b"1", b"!b"), Request(1, 1, b"1", b"a")]))
    # The worst outcome decides, not the first.
    add_good(Port(2, 2, 1, 0, 0, [0, 1, 2, 3],
                  [Move(0, 0, 1, 1), Move(0, 0, 2, 1), Move(0, 1, 1, 40), Move(1, 0, 3, 1),
                   Move(2, 0, 3, 30)],
                  [Request(0, 0, b"1", b"a&b")]))
    # More minutes in fewer moves; equal minutes in fewer moves.
    add_good(Port(2, 3, 1, 0, 0, [0, 1, 3],
                  [Move(0, 0, 2, 50), Move(0, 1, 1, 20), Move(0, 2, 2, 41), Move(1, 0, 2, 20)],
                  [Request(0, 0, b"1", b"b")]))
    add_good(Port(2, 2, 1, 0, 0, [0, 1, 3],
                  [Move(0, 0, 1, 20), Move(0, 1, 2, 40), Move(1, 0, 2, 20)],
                  [Request(0, 0, b"1", b"b")]))
    # A detour that takes no time: minutes tie, moves decide.
    add_good(Port(2, 2, 1, 0, 0, [0, 1, 3],
                  [Move(0, 0, 1, 0), Move(0, 1, 2, 0), Move(1, 0, 0, 0), Move(1, 1, 2, 0)],
                  [Request(0, 0, b"1", b"b")]))
    # An entry is there even where the from-stage is dropped whole.
    add_good(Port(1, 1, 2, 0, 0, two, [Move(0, 0, 1, 300)],
                  [Request(0, 1, b"1", b"a"), Request(0, 0, b"1", b"0")]))
    # Precedence: `!` before `&` before `|`, and brackets.
    conditions = list(range(8))
    texts = [
        b"a|b&c", b"(a|b)&c", b"!a&b", b"!(a&b)", b"!a|b", b"!(a|b)", b"a&b|c", b"a&(b|c)",
        b"!!a", b"!!!a&b", b"((a))", b"0|a", b"1&b", b"!0", b"!1", b"a|!b&c", b"0", b"a&!a",
    ]
    for text in texts:
        add_good(Port(3, 1, 1, 0, 0, conditions, [], [Request(0, 0, b"1", text)]))
    # The same texts as keep: a move to the end is possible where keep holds.
    for text in texts:
        add_good(Port(4, 1, 1, 0, 0, conditions + [8], [Move(c, 0, 8, c) for c in conditions],
                      [Request(0, 0, text, b"d")]))
    # Longest run: 30 moves of 65,535 minutes.
    add_good(Port(5, 1, 1, 0, 0, list(range(31)), [Move(c, 0, c + 1, 65535) for c in range(30)],
                  [Request(0, 0, b"1", one_condition(5, 30))]))


# ------------------------------------------------------------ damaged sheets

HEADER = encode_header(2, 2, 2)
C0, C1, C2, C3 = map(encode_condition, range(4))
ALL = [C0, C1, C2, C3]
M = encode_move(Move(1, 0, 1, 0))
Q = encode_request(Request(0, 0, b"1", b"a"))


def refuse(number, before, bad, offset=0, after="", header=HEADER):
    """A sheet refused in the record after `before`, at an offset into it; a
    sheet too short is refused at its end."""
    start = header + b"".join(before)
    sheet = start + bytes.fromhex(bad) + bytes.fromhex(after)
    place = len(sheet) if number == 1 else len(start) + offset
    add_faulty(sheet, number, place, len(before))


def refuse_header(number, text, place):
    add_faulty(bytes.fromhex(text), number, place, 0)


def add_damaged_headers():
    add(b"")
    for text in ("47", "4741", "474154", "00", "4700", "FFFFFF", "47415445", "4741544501",
                 "474154450101", "47415445010101", "4741544501010100"):
        refuse_header(1, text, len(text) // 2)
    for text in ("00415445", "47005445", "47410045", "47415400", "45544147", "FFFFFFFF",
                 "67617465010101", "474154440000000000", "004154450101010000" + "0100"):
        refuse_header(2, text, 0)
    sheet = bytearray(LOW_STAITHE)
    sheet[3] = 0x65
    refuse_header(2, sheet.hex(), 0)
    for place, values in ((4, (0, 17, 18, 255)), (5, (0, 33, 64, 255)), (6, (0, 17, 128, 255)),
                          (7, (2, 3, 255))):
        for value in values:
            sheet = bytearray(LOW_STAITHE)
            sheet[place] = value
            refuse_header(3, sheet.hex(), place)
            refuse_header(3, sheet[:place + 1].hex(), place)  # nothing after it
    refuse_header(3, "474154450000000000", 4)
    refuse_header(3, "474154450100000000", 5)
    refuse_header(3, "474154450101000000", 6)
    refuse_header(3, "474154451020101000", 7)
    refuse_header(3, "474154450101010100", 7)
    # Header only: there is no condition to start from.
    refuse_header(11, "474154450101010000", 8)
    refuse_header(11, "474154451020100F00", 8)
    refuse_header(11, "47415445020202000A", 8)
    refuse_header(11, "4741544510201000FF", 8)


def add_damaged_records():
    # 1: the bytes end early.
    for text in ("01", "0101", "0102", "0103", "010301"):
        refuse(1, [], text)
        refuse(1, [C0], text)
    for text in ("02", "0201", "0202", "0204", "0208", "020800", "020801", "020F", "020F01",
                 "020F0101", "020F010101", "020F01010100", "020C01", "020C0100"):
        refuse(1, ALL, text)
    for text in ("03", "0301", "0302", "030301", "0304", "0308", "030402", "03040221",
                 "0304036126", "030C0161", "030C016101", "030F0101", "030F010101",
                 "030F01010161", "030F0101016102", "030F010101610221", "03043F61", "03083F"):
        refuse(1, ALL + [M], text)
    # 4: unknown kinds, and kinds that go back.
    for text in ("00", "04", "05", "0400", "000101", "80", "FF", "FF00", "11", "410101"):
        refuse(4, [], text)
        refuse(4, [C0, C1], text)
        refuse(4, ALL + [M, Q], text)
    for before, text in (
        (ALL + [M], "0101"), (ALL + [M], "01"), (ALL + [M], "010102"), (ALL + [M], "0180"),
        (ALL + [Q], "010103"), (ALL + [Q], "01"), (ALL + [M, Q], "0100"),
        (ALL + [Q], "0200"), (ALL + [M, Q], "02"), (ALL + [M, Q, Q], "020301"),
    ):
        refuse(4, before, text)
    # 5: undefined map bits, with and without fields after them.
    for bit in range(2, 8):
        refuse(5, [], f"01{1 << bit:02X}", 1)
        refuse(5, [C0], f"01{1 << bit | 1:02X}01", 1)
    for bit in range(4, 8):
        refuse(5, ALL, f"02{1 << bit:02X}", 1)
        refuse(5, ALL + [M], f"02{1 << bit | 15:02X}010101", 1)
        refuse(5, ALL, f"03{1 << bit:02X}", 1)
        refuse(5, ALL + [M, Q], f"03{1 << bit | 8:02X}0161", 1)
    refuse(5, [], "0290", 1)  # before the missing condition is missed
    refuse(5, ALL, "02FF", 1)
    refuse(5, ALL, "03FF", 1)
    # 6: a field that is there with its absent value.
    refuse(6, [], "010100", 2)
    refuse(6, [], "010200", 2)
    refuse(6, [], "010300", 2)
    refuse(6, [], "01030100", 3)
    refuse(6, [C0, C1], "010100", 2)
    refuse(6, [C0, C1], "01030200", 3)
    refuse(6, ALL, "020100", 2)
    refuse(6, ALL, "020200", 2)
    refuse(6, ALL, "020400", 2)
    refuse(6, ALL, "02080000", 2)
    refuse(6, ALL + [M], "020F00010101", 2)
    refuse(6, ALL + [M], "020F010001", 3)
    refuse(6, ALL + [M], "020F010100", 4)
    refuse(6, ALL + [M], "020F0101010000", 5)
    refuse(6, [], "020100", 2)  # before its condition is missed
    refuse(6, [], "020F00", 2)
    refuse(6, ALL, "030100", 2)
    refuse(6, ALL, "030200", 2)
    refuse(6, ALL, "03030100", 3)
    refuse(6, ALL, "03040131", 2)
    refuse(6, ALL, "03080131", 2)
    refuse(6, ALL, "030C01610131", 4)
    refuse(6, ALL, "030C01310161", 2)
    refuse(6, ALL + [M, Q], "030F01010131", 4)
    refuse(6, ALL + [M, Q], "030F010101610131", 6)
    refuse(6, ALL, "030401317F", 2)
    # 7: what does not exist.
    refuse(7, [], "010104", 2)
    refuse(7, [], "0101FF", 2)
    refuse(7, [C0], "010180", 2)
    refuse(7, [], "010201", 2)
    refuse(7, [], "010280", 2)
    refuse(7, [C0, C1], "01030201", 3)
    refuse(7, [C0, C1], "01030401", 2)
    refuse(7, [], "010304", 2)  # before the high byte is missed
    one, eight, nine, fifteen = (encode_header(m, 1, 1) for m in (1, 8, 9, 15))
    refuse(7, [], "010102", 2, header=one)
    refuse(7, [], "010201", 2, header=eight)
    refuse(7, [], "0103FF01", 3, header=eight)
    refuse(7, [], "010202", 2, header=nine)
    refuse(7, [], "0103FF03", 3, header=nine)
    refuse(7, [], "010280", 2, header=fifteen)
    refuse(7, [], "01030180", 3, header=fifteen)
    refuse(7, ALL, "020104", 2)
    refuse(7, ALL, "0201FF", 2)
    refuse(7, ALL, "020304", 2)  # before the operation is missed
    refuse(7, ALL, "020202", 2)
    refuse(7, ALL, "02030102", 3)
    refuse(7, ALL, "020404", 2)
    refuse(7, ALL, "02050104", 3)
    refuse(7, ALL, "0207010180", 4)
    refuse(7, ALL, "020F0101040000", 4)
    refuse(7, ALL[:2], "020102", 2)
    refuse(7, ALL[:2], "020402", 2)
    # With no condition the absent condition is missed, at the map byte.
    refuse(7, [], "0200", 1)
    refuse(7, [], "0202", 1)
    refuse(7, [], "020201", 1)
    refuse(7, [], "0204", 1)
    refuse(7, [], "020401", 1)
    refuse(7, [], "02080000", 1)
    refuse(7, [], "020E010101", 1)
    refuse(7, [], "020101", 2)
    refuse(7, [], "0207010101", 2)
    refuse(7, [Q], "030102", 2)
    refuse(7, ALL, "030102", 2)
    refuse(7, ALL, "0301FF", 2)
    refuse(7, ALL, "030302", 2)
    refuse(7, ALL, "030202", 2)
    refuse(7, ALL, "03030102", 3)
    refuse(7, ALL + [M, Q], "030F010201", 3)
    # Text lengths.
    for length in ("00", "40", "41", "80", "FF"):
        refuse(7, ALL, "0304" + length, 2)
        refuse(7, ALL, "0308" + length, 2)
        refuse(7, ALL + [M, Q], "030F0101" + length + "61", 4)
        refuse(7, ALL + [M, Q], "030F01010161" + length + "2161", 6)
    refuse(7, ALL, "030440" + "61" + "2661" * 31 + "0A", 2)
    refuse(7, ALL, "030840" + "61" * 64, 2)
    # 8: conditions and moves that do not rise.
    refuse(8, [C0], "0100")
    refuse(8, [C1], "0100")
    refuse(8, [C1], "010101")
    refuse(8, [C2], "010101")
    refuse(8, [C0, C1, C3], "010102")
    refuse(8, ALL, "010103", after="0200")
    wide = encode_header(16, 2, 2)
    high = [encode_condition(0x0100), encode_condition(0x02FF)]
    refuse(8, high, "010202", header=wide)
    refuse(8, high, "0103FE02", header=wide)
    refuse(8, high, "0103FF02", header=wide)
    refuse(8, high, "0101FF", header=wide)
    refuse(8, high, "0103FF01", header=wide)
    # The low byte alone may fall.
    add_good(Port(16, 1, 1, 0, 0, [0x00FF, 0x0100, 0x0101, 0x8000, 0xFFFF], [], []))
    middle = encode_move(Move(1, 1, 1, 5))
    for move in (Move(1, 1, 1, 5), Move(1, 1, 1, 6), Move(1, 1, 1, 0), Move(1, 1, 0, 9),
                 Move(1, 0, 3, 5), Move(1, 0, 0, 0), Move(0, 1, 3, 65535), Move(0, 0, 0, 0)):
        refuse(8, ALL + [middle], encode_move(move).hex())
        refuse(8, ALL + [encode_move(Move(0, 0, 0, 0)), middle], encode_move(move).hex(),
               after=Q.hex())
    refuse(8, ALL + [encode_move(Move(0, 0, 0, 0))], "0200")
    refuse(8, ALL + [encode_move(Move(0, 0, 0, 0))], "02080001")
    # A field's fault comes before the sequence.
    refuse(1, ALL + [middle], "020800")
    refuse(6, ALL + [middle], "02080000", 2)
    refuse(7, ALL + [middle], "020404", 2)
    refuse(7, [C2], "010104", 2)
    # Equal requests are welcome.
    add_good(Port(1, 1, 1, 0, 0, [0], [], [Request(0, 0, b"1", b"a")] * 3))
    # 11: the start condition, looked for last.
    for start, records in ((4, ALL), (255, ALL), (1, [C2]), (4, ALL + [M]), (7, ALL + [M, Q, Q]),
                           (0, []), (0, [Q]), (3, [Q, Q])):
        sheet = encode_header(2, 2, 2, 1, start) + b"".join(records)
        add_faulty(sheet, 11, 8, len(records))
    add_faulty(encode_header(2, 2, 2, 0, 9) + b"".join(ALL) + bytes.fromhex("04"), 4,
               9 + len(b"".join(ALL)), 4)


def add_damaged_formulas():
    texts = [  # text, and where no formula can go on
        (b"c", 0), (b"z", 0), (b"A", 0), (b"B", 0), (b"`", 0), (b"2", 0), (b" a", 0), (b"&", 0),
        (b"|", 0), (b")", 0), (b"&a", 0), (b"|a", 0), (b")a(", 0), (b"\x00", 0), (b"\xff", 0),
        (b"\xe1", 0), (b"!", 1), (b"!!", 2), (b"(", 1), (b"((", 2), (b"!(", 2), (b"(!", 2),
        (b"a&", 2), (b"a|", 2), (b"a&!", 3), (b"a|(", 3), (b"(a", 2), (b"(a|b", 4), (b"((a)", 4),
        (b"!(a&b", 5), (b"(a&(b|a)", 8), (b"ab", 1), (b"a a", 1), (b"a ", 1), (b"a!", 1),
        (b"a!b", 1), (b"a(b)", 1), (b"a)", 1), (b"(a))", 3), (b"(a)b", 3), (b"(a)(b)", 3),
        (b"()", 1), (b"a|()", 3), (b"(a|)", 3), (b"(&a)", 1), (b"(!)", 2), (b"!&a", 1),
        (b"!|a", 1), (b"!)", 1), (b"a&&b", 2), (b"a||b", 2), (b"a&|b", 2), (b"a|&b", 2),
        (b"a&c", 2), (b"a|b&c", 4), (b"!c", 1), (b"(a&!c)", 4), (b"a&A", 2), (b"a&b|B", 4),
        (b"01", 1), (b"10", 1), (b"11", 1), (b"a0", 1), (b"0a", 1), (b"1!", 1), (b"a&2", 2),
        (b"a\x00", 1), (b"a&\n", 2), (b"a\n", 1), (b"a=b", 1), (b"a&-b", 2), (b"~a", 0),
        (b"!a&!z", 4), (b"(((((a))))", 10), (b"a&b&a&b&", 8), (b"a&b)&(a", 3), (b"(a&b)|)", 6),
        (b"[a]", 0), (b"(a]", 2), (b"a^b", 1), (b"(1", 2), (b"!1)", 2), (b"1|", 2),
    ]
    for k, (text, place) in enumerate(texts):
        size = f"{len(text):02X}{text.hex()}"
        if k % 4 == 0:
            refuse(10, ALL, "0304" + size, 3 + place, after="0161")
        elif k % 4 == 1:
            refuse(10, ALL + [M], "0308" + size, 3 + place)
        elif k % 4 == 2:
            refuse(10, ALL + [M, Q], "030F0101" + size + "0161", 5 + place)
        else:
            refuse(10, ALL + [M, Q, Q], "030F01010161" + size, 7 + place, after="0300")
    # A text's formula is judged before the next field is looked for.
    refuse(10, ALL, "030C0163", 3)
    refuse(10, ALL, "030C01630131", 3)
    refuse(10, ALL, "030C01630040", 3)
    # Each port has its own letters.
    for marks in (1, 5, 15):
        header = encode_header(marks, 1, 1)
        letter = f"{ord('a') + marks:02X}"
        refuse(10, [C0], "030801" + letter, 3, header=header)
        refuse(10, [C0], "030803" + "6126" + letter, 5, header=header)
    refuse(10, [C0], "03080171", 3, header=encode_header(16, 1, 1))
    # Long texts: 63 bytes that only the length limit ends.
    deep = b"(" * 63
    refuse(10, [C0], "03083F" + deep.hex(), 3 + 63)
    refuse(10, [C0], "03083F" + (b"!" * 63).hex(), 3 + 63)
    refuse(10, [C0], "03083F" + (b"a|" * 31 + b"c").hex(), 3 + 62)
    refuse(10, [C0], "03083F" + (b"(" * 31 + b"a" + b")" * 30 + b"b").hex(), 3 + 62)
    refuse(10, [C0], "03083E" + (b"(" * 31 + b"a" + b")" * 30).hex(), 3 + 62)


def add_limits():
    header = encode_header(9, 1, 1)
    rows = [encode_condition(marks) for marks in range(257)]
    moves = [Move(c, 0, c + 1, 65535) for c in range(255)]
    reach = one_condition(8, 255)
    # 256 conditions; the 257th is one too many, whatever its bytes.
    add_good(Port(9, 1, 1, 0, 255, list(range(256)), moves, [Request(0, 0, b"1", reach)]))
    add_good(Port(16, 2, 2, 1, 200, sorted(rng.sample(range(1 << 16), 256)),
                  [Move(c, 1, (c * 7 + 3) % 256, c * 257) for c in range(256)],
                  [Request(1, 0, b"1", b"a&b&c")]))
    add_good(Port(8, 1, 1, 0, 0, list(range(256)), [], []))
    choose(2, lambda: random_port(9, 256, 4, 2, 2, possible=0.4, branching=1.2),
           lambda f: f["rounds"] >= 2 and f["kept"] and f["longest"] >= 4)
    refuse(9, rows[:256], rows[256].hex(), header=header)
    refuse(9, rows[:256], "01", header=header)
    refuse(9, rows[:256], "0180", header=header)
    refuse(9, rows[:256], "010100", header=header)
    refuse(9, rows[:256], "0100", header=header)
    refuse(4, rows[:256] + [encode_move(moves[0])], rows[256].hex(), header=header)
    refuse(4, rows[:256], "00", header=header)
    add_faulty(encode_header(9, 1, 1, 0, 255) + b"".join(rows[:255]), 11, 8, 255)
    # 4,096 moves; then one more.
    full = sorted(
        Move(c, k, o % 64, (c + k + o) % 97)
        for c in range(64) for k in range(32)
        for o in ((c + k + 7, c + k + 20, c + k + 27) if k % 2 else (c + k + 1,))
    )
    assert len(full) == 4096
    conditions = list(range(64))
    wish = [Request(0, 0, b"!f", b"f&e&!d&c"), Request(0, 0, b"1", b"a&!b&!c&!d&!e&!f")]
    add_good(Port(6, 32, 1, 0, 5, conditions, full, wish))
    header = encode_header(6, 32, 1)
    before = [encode_condition(c) for c in conditions] + [encode_move(m) for m in full]
    refuse(9, before, encode_move(Move(63, 31, 63, 1)).hex(), header=header)
    refuse(9, before, "0200", header=header)
    refuse(9, before, "02", header=header)
    refuse(9, before, "02F0", header=header)
    refuse(4, before, "0100", header=header)
    # 32 requests; then one more.
    asks = [Request(s % 3, s // 3 % 3, b"1", b"a|b" if s % 5 else b"!a") for s in range(32)]
    some = [Move(0, 0, 1, 2), Move(1, 0, 0, 3), Move(1, 1, 2, 4), Move(2, 0, 0, 65535)]
    add_good(Port(2, 2, 3, 0, 0, [0, 1, 2], some, asks))
    before = [C0, C1, C2] + list(map(encode_move, some)) + list(map(encode_request, asks))
    header = encode_header(2, 2, 3)
    refuse(9, before, "0300", header=header)
    refuse(9, before, "03", header=header)
    refuse(9, before, "03F0", header=header)
    refuse(9, before, "030400", header=header)
    refuse(4, before, "02", header=header)
    refuse(4, before, "01", header=header)
    add_good(Port(1, 1, 1, 0, 0, [0], [], [Request(0, 0, b"1", b"1")] * 32))
    refuse(9, [C0] + [bytes.fromhex("0300")] * 32, "030F", header=encode_header(1, 1, 1))
    # 63 text bytes; 64 are too many.
    for text in (b"a" + b"&b" * 31, b"!" * 62 + b"b", b"(" * 31 + b"a" + b")" * 31,
                 exact_sum(2, 63), exact_sum(2, 63), b"!(" * 20 + b"a|b" + b")" * 20):
        add_good(Port(2, 1, 1, 0, 0, [0, 1, 2], [Move(0, 0, 1, 1)], [Request(0, 0, text, b"a")]))
        add_good(Port(2, 1, 1, 0, 0, [0, 1, 2], [Move(0, 0, 1, 1)], [Request(0, 0, b"1", text)]))
    long = (b"!" * 63 + b"b").hex()
    refuse(7, ALL, "030440" + long, 2)
    refuse(7, ALL, "030840" + long, 2)
    refuse(7, ALL, "030840" + long[:20], 2)
    refuse(7, ALL, "030440", 2)
    # 16 marks, 32 operations, 16 stages; one more of each.
    add_good(Port(16, 32, 16, 15, 2, [0, 0x7FFF, 0x8000, 0xFFFF],
                  [Move(0, 31, 3, 65535), Move(2, 31, 0, 1), Move(3, 31, 2, 256)],
                  [Request(15, 15, b"!(p&a)", b"a&p"), Request(14, 15, b"1", b"p&!o")]))
    refuse_header(3, "474154451120100F00" + "0100", 4)
    refuse_header(3, "474154451021100F00" + "0100", 5)
    refuse_header(3, "474154451020110F00" + "0100", 6)
    refuse_header(3, "474154451020101000" + "0100", 7)
    refuse(7, [C0], "020220", 2, header=encode_header(16, 32, 16))
    refuse(7, [C0], "030110", 2, header=encode_header(16, 32, 16))
    refuse(7, [C0], "030210", 2, header=encode_header(16, 32, 16))
    # As many rounds as there can be: 4,096, one pair each.
    add_good(drop_chain(8, 256, 16))


def add_cuts():
    """Three sheets cut at every place."""
    full = encode(Port(
        12, 3, 3, 2, 1, [0x0005, 0x0100, 0x0FFF],
        [Move(0, 0, 1, 0), Move(0, 1, 2, 300), Move(1, 2, 0, 65535), Move(2, 2, 2, 1)],
        [Request(2, 1, b"!a|l", b"(c)"), Request(1, 2, b"0", b"1"), Request(0, 0, b"1", b"!!i")],
    ))
    for sheet in (LOW_STAITHE, full):
        for length in range(len(sheet)):
            add(sheet[:length])
        add(sheet)


def mutate(sheet):
    """One byte changed, put in or taken out, or the end cut off."""
    data = bytearray(sheet)
    at = rng.randrange(len(data))
    way = rng.random()
    if way < 0.5:
        data[at] = rng.choice([
            rng.randrange(256), data[at] ^ 1 << rng.randrange(8), (data[at] + 1) % 256,
            (data[at] - 1) % 256, 0,
        ])
    elif way < 0.7:
        data.insert(at, rng.choice([0, 1, 2, 3, rng.randrange(256)]))
    elif way < 0.9:
        del data[at]
    else:
        del data[at:]
    return bytes(data)


def add_mutations():
    small = [s for s in sheets if 40 <= len(s) <= 260 and fault_of(s) is None]
    faulty = accepted = 0
    while faulty < 260:
        sheet = mutate(rng.choice(small))
        if len(sheet) < 9 and rng.random() < 0.8:
            continue
        fault = fault_of(sheet)
        if fault is None:
            assert encode(load(sheet)) == sheet
            if accepted < 40 and add(sheet):
                accepted += 1
        elif add(sheet):
            faulty += 1
    while faulty < 300:  # several at once
        sheet = rng.choice(small)
        for _ in range(rng.randint(2, 4)):
            sheet = mutate(sheet) if sheet else sheet
        if fault_of(sheet) is not None and add(sheet):
            faulty += 1


def main():
    assert "".join(line + "\n" for line in page(LOW_STAITHE)) == LOW_STAITHE_PAGE
    add(LOW_STAITHE)
    inserted = b"".join(LOW_STAITHE_PARTS[:5] + [b"\x02\x00"] + LOW_STAITHE_PARTS[5:])
    assert solve(load(LOW_STAITHE)).ranks == [0, 0, 0, 2, 0, 0, 1, 1]
    assert solve(load(inserted)).ranks == [1, 3, 3, 2, 2, 2, 1, 1]
    add(inserted)
    add_faulty(LOW_STAITHE[:-1], 1, 65, 10)
    add_faulty(LOW_STAITHE[:-1] + b"z", 10, 65, 10)
    add_faulty(b"", 1, 0, 0)
    add_damaged_headers()
    add_hand_made_ports()
    add_damaged_records()
    add_damaged_formulas()
    add_limits()
    add_cuts()
    add_random_ports()
    add_mutations()

    faults = [fault for fault in map(fault_of, sheets) if fault]
    good = len(sheets) - len(faults)
    for number in range(1, 12):
        ours = [fault for fault in faults if fault.number == number]
        places = {fault.place for fault in ours}
        print(f"fault {number:2}: {len(ours):3} sheets, {len(places):3} places")
        assert len(ours) >= 3
        # A wrong opening and a missing start condition have one place each.
        assert len(places) >= 3 or (number, places) in ((2, {0}), (11, {8}))
    print(f"{len(sheets)} sheets: {good} load ({valid_random} random ports), {len(faults)} do not")
    assert valid_random >= 220 and len(faults) >= 420
    for sheet in sheets:
        if fault_of(sheet) is None:
            assert encode(load(sheet)) == sheet

    assert sheets[-1]  # an empty last line would be easy to lose
    text = pages(sheets)
    assert len(text) < 3_000_000
    os.makedirs(FOLDER, exist_ok=True)
    with open(os.path.join(FOLDER, "stdin"), "w", newline="\n") as file:
        file.writelines(sheet.hex().upper() + "\n" for sheet in sheets)
    with open(os.path.join(FOLDER, "stdout"), "w", newline="\n") as file:
        file.write(text)
    print(f"{len(text)} bytes of pages")


if __name__ == "__main__":
    main()
