"""Makes full-size transcripts, of at most 65,535 bytes over boards of 4,096 cells, and times a referee on them.

    python3 bench/full_size.py REFEREE DIRECTORY
"""
import os
import subprocess
import sys
import time

FULL = 65535
SIDE = 64
CELLS = SIDE * SIDE


def record(kind, *fields):
    """Fields are pairs of a number and its bytes."""
    body = b"".join(number.to_bytes(width, "little") for number, width in fields)
    return len(body).to_bytes(2, "little") + kind.to_bytes(2, "little") + body


def head(pile):
    return record(1, (pile, 2), (SIDE, 2), (SIDE, 2), (0, 4))


def lay(cell):
    return record(2, (cell, 2))


def turn(cell, move):
    return record(4, (cell, 2), (move, 4))


BEGIN, ADVISE, END = record(3), record(5), record(7)


def full(start, more):
    """The records of start, as many of more as there is room for, and the end record."""
    records = list(start)
    room = FULL - sum(map(len, records)) - len(END)
    for each in more:
        room -= len(each)
        if room < 0:
            break
        records.append(each)
    return records + [END]


def forever(each):
    while True:
        yield each


def advises(pile, heads, step):
    """Advice on one position, again and again. The steps make the position won and its reply one that is found late."""
    lays = [lay(step * k % CELLS) for k in range(1, heads + 1)]
    return full([head(pile), *lays, BEGIN], forever(ADVISE))


def wide_turns(pile, moves):
    """The widest moves in the last row. Its highest 13 coins count down in binary, as the lowest head of them is turned
    with all coins of the row below it; moves(y) is the number of moves there."""
    low, bits = SIDE - 13, 13
    row = CELLS - SIDE
    lays = [lay(row + low + bit) for bit in range(bits)]
    lowest = ((n & -n).bit_length() - 1 + low for n in range(2**bits - 1, 0, -1))
    return full([head(pile), *lays, BEGIN], (turn(row + y, moves(y) - 1) for y in lowest))


def falling_turns():
    """Rugs: the widest move at every cell, from the highest down. Heads are laid where an even number of these moves
    comes by from above."""
    lays = [lay(x * SIDE + y) for x in range(1, SIDE, 2) for y in range(1, SIDE, 2)]
    cells = reversed(range(CELLS))
    return full([head(2), *lays, BEGIN], (turn(c, (c // SIDE + 1) * (c % SIDE + 1) - 1) for c in cells))


def lays():
    """Every cell, and then cells that have heads already."""
    return full([head(1)], (lay(k % CELLS) for k in range(FULL)))


FILES = {
    "advise-turtles-ruler-20": lambda: advises(3, 20, 1029),
    "advise-turtles-ruler-4000": lambda: advises(3, 4000, 1613),
    "advise-corners-20": lambda: advises(1, 20, 1235),
    "advise-corners-4000": lambda: advises(1, 4000, 1029),
    "turns-rugs-wide": lambda: wide_turns(2, lambda y: SIDE * (y + 1)),
    "turns-turtles-ruler-wide": lambda: wide_turns(3, lambda y: (1 + 63 + 63 * 62 // 2) * (y + 1)),
    "turns-rugs-falling": falling_turns,
    "lays-corners": lays,
    "head-and-end": lambda: [head(3), END],
}


def run(referee, path):
    """The seconds of the best of three runs, the lines, and the most resident memory in KiB (by GNU time, if there)."""
    best = float("inf")
    for _ in range(3):
        with open(path, "rb") as source:
            start = time.perf_counter()
            subprocess.run([referee], stdin=source, stdout=subprocess.DEVNULL)
            best = min(best, time.perf_counter() - start)
    timer = ["/usr/bin/time", "-q", "-f", "%M"] if os.path.exists("/usr/bin/time") else []
    with open(path, "rb") as source:
        done = subprocess.run(timer + [referee], stdin=source, capture_output=True)
    return best, done.stdout.splitlines(), done.stderr.split()[-1].decode() if timer else "?"


def main(referee, directory):
    os.makedirs(directory, exist_ok=True)
    row = "{:26} {:>8} {:>8} {:>9} {:>11} {:>8}"
    print(row.format("file", "records", "refused", "seconds", "us/record", "KiB"))
    for name, make in FILES.items():
        records = make()
        data = b"".join(records)
        assert len(data) <= FULL
        path = os.path.join(directory, name + ".transcript")
        with open(path, "wb") as target:
            target.write(data)
        seconds, said, memory = run(os.path.abspath(referee), path)
        if len(said) != len(records) or not said[-1].endswith(b" end"):
            sys.exit("%s: the report stops early, at: %r" % (name, said[-1:]))
        refused = sum(line.split(b" ")[1] == b"no" for line in said)
        each = seconds * 1e6 / len(records)
        print(row.format(name, len(records), refused, "%.4f" % seconds, "%.2f" % each, memory))


if __name__ == "__main__":
    main(*sys.argv[1:])
