#!/usr/bin/env python3
"""Writes sheets that are hard to solve, for timing.

    python3 tools/make_large.py DIRECTORY

Each is as large as a sheet may be in what makes it hard. The same files come
out every time.
"""

import os
import random
import sys

sys.dont_write_bytecode = True
from make_trials import drop_chain, one_condition
from reference import Move, Port, Request, encode, load

SIZE, MOST_MOVES, MOST_REQUESTS, MOST_STAGES = 256, 4096, 32, 16


def letter(mark):
    return bytes([ord("a") + mark])


def wide():
    """16 operations in each of 256 conditions, one outcome each; 32 requests
    between 16 stages, every other one with a condition to keep out of."""
    rng = random.Random(1)
    moves = [
        Move(c, k, rng.randrange(SIZE), rng.randrange(1, 65536))
        for c in range(SIZE) for k in range(16)
    ]
    requests = [
        Request(
            r % MOST_STAGES, (r * 5 + 1) % MOST_STAGES,
            b"1" if r % 2 else b"!(" + one_condition(8, rng.randrange(SIZE)) + b")",
            one_condition(8, rng.randrange(SIZE)),
        )
        for r in range(MOST_REQUESTS)
    ]
    return Port(8, 16, MOST_STAGES, 0, 0, list(range(SIZE)), moves, requests)


def chain():
    """Operation 15 leads one condition on, the other 15 lead back. Every
    request is for one of the last conditions, so plans have up to 255 moves."""
    moves = []
    for c in range(SIZE):
        for k in range(16):
            outcome = min(c + 1, SIZE - 1) if k == 15 else max(0, c - 1 - k)
            moves.append(Move(c, k, outcome, 65535 if k == 15 else k))
    requests = [
        Request(r % MOST_STAGES, (r + 1) % MOST_STAGES, b"1", one_condition(8, 255 - r % 4))
        for r in range(MOST_REQUESTS)
    ]
    return Port(8, 16, MOST_STAGES, 0, 0, list(range(SIZE)), moves, requests)


def shortcuts():
    """A chain whose operations lead 1 to 16 conditions on, the longer the more
    dearly: in minutes short steps are best, so costs found early by long steps
    are bettered again and again."""
    moves = []
    for c in range(SIZE):
        for k in range(16):
            outcome = min(c + 16 - k, SIZE - 1)
            step = outcome - c
            moves.append(Move(c, k, outcome, step * step * 20 + (c * 7 + k) % 5))
    requests = [
        Request(r % MOST_STAGES, (r + 1) % MOST_STAGES, b"1", one_condition(8, 255))
        for r in range(MOST_REQUESTS)
    ]
    return Port(8, 16, MOST_STAGES, 0, 0, list(range(SIZE)), moves, requests)


def many_rounds():
    """4,096 rounds that drop one pair each; operations lead 1 to 16 conditions
    on. The requests left over are copies, looked at again as often."""
    port = drop_chain(8, SIZE, MOST_STAGES, steps=16, operations=16)
    copies = port.requests[:MOST_REQUESTS - len(port.requests)]
    return port._replace(requests=port.requests + copies)


def dense():
    """Random moves with one to six outcomes to an operation, up to 4,096, and
    random requests between few stages."""
    rng = random.Random(4)
    moves = []
    for c in range(SIZE):
        widths = [1, 1, 1, 2, 2, 3, 6]
        rng.shuffle(widths)
        for k, width in enumerate(widths):
            for outcome in sorted(rng.sample(range(SIZE), width)):
                moves.append(Move(c, k, outcome, rng.choice((0, 1, 10, 600, 65535))))
    assert len(moves) == MOST_MOVES
    requests = []
    for r in range(MOST_REQUESTS):
        keep = b"|".join(letter(mark) for mark in sorted(rng.sample(range(8), 6)))
        reach = b"&".join(
            rng.choice((b"", b"!")) + letter(mark) for mark in sorted(rng.sample(range(8), 4))
        )
        requests.append(Request(rng.randrange(4), rng.randrange(4), keep, reach))
    return Port(8, 7, 4, 0, 0, list(range(SIZE)), moves, requests)


def main(arguments):
    if len(arguments) != 1:
        sys.exit(__doc__)
    os.makedirs(arguments[0], exist_ok=True)
    for make in (wide, chain, shortcuts, many_rounds, dense):
        port = make()
        sheet = encode(port)
        assert load(sheet) == port
        name = os.path.join(arguments[0], make.__name__ + ".bin")
        with open(name, "wb") as file:
            file.write(sheet)
        print(f"{name}: {len(port.moves)} moves, {len(port.requests)} requests, {len(sheet)} bytes")


if __name__ == "__main__":
    main(sys.argv[1:])
