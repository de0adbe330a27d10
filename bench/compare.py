"""Compares two referees, byte by byte, on transcripts made from a seed.

    python3 bench/compare.py OURS PLAIN SEED FILES

File k is made from SEED and k alone. At the first difference its hex is kept in target/bench, and the status is 1.
"""
import os
import random
import subprocess
import sys
from collections import Counter
from functools import cache

from full_size import ADVISE, BEGIN, END, FULL, lay, record, turn

KEPT = os.path.join(os.path.dirname(os.path.abspath(__file__)), "..", "target", "bench", "difference.hex")

WIDTHS = [0, 1, 3, 63, 64, 65, 258, 65535]
EDGES = [(w, h) for w in WIDTHS for h in WIDTHS] + 3 * [(63, 11), (63, 12), (45, 45), (46, 45)]
NUMBERS = [0, 1, 255, 256, 4095, 4096, 65535, 65536, 2**31, 2**32 - 1]


# The games, as far as coins go: a size, the count of moves at a cell, and the cells that a move turns.


class Row:
    def __init__(self, width, moves):
        self.size = width if width <= 64 else 0
        self.moves = cache(moves)

    def count(self, c):
        return len(self.moves(c))

    def cells(self, c, i):
        return self.moves(c)[i]


class Mixture:
    def __init__(self, a, b):
        self.a, self.b = a, b
        self.size = a.size + b.size if a.size + b.size <= 4096 else 0

    def count(self, c):
        return self.a.count(c) if c < self.a.size else self.b.count(c - self.a.size)

    def cells(self, c, i):
        skip = self.a.size
        return self.a.cells(c, i) if c < skip else [skip + d for d in self.b.cells(c - skip, i)]


class Product:
    def __init__(self, a, b):
        self.a, self.b = a, b
        self.size = a.size * b.size

    def count(self, c):
        x, y = divmod(c, self.b.size)
        return self.a.count(x) * self.b.count(y)

    def cells(self, c, i):
        x, y = divmod(c, self.b.size)
        i, j = divmod(i, self.b.count(y))
        return [d * self.b.size + e for d in self.a.cells(x, i) for e in self.b.cells(y, j)]


def twins(w):
    return Row(w, lambda c: [(i, c) for i in range(c)])


def turtles(w):
    return Row(w, lambda c: [(c,)] + [(i, c) for i in range(c)] + [(a, b, c) for b in range(c) for a in range(b)])


def ruler(w):
    return Row(w, lambda c: [range(c - i, c + 1) for i in range(c + 1)])


def take(w, amounts):
    return Row(w, lambda c: [(c - s, c) for s in range(1, min(c, 32) + 1) if amounts >> s - 1 & 1])


PILES = {
    1: lambda w, h, amounts: Product(twins(w), twins(h)),
    2: lambda w, h, amounts: Product(ruler(w), ruler(h)),
    3: lambda w, h, amounts: Product(turtles(w), ruler(h)),
    4: lambda w, h, amounts: Product(twins(w), take(h, amounts)),
    5: lambda w, h, amounts: Mixture(Product(twins(w), twins(w)), Product(ruler(h), ruler(h))),
    6: lambda w, h, amounts: Product(Mixture(turtles(w), ruler(h)), twins(4)),
}


def head(pile, w=2, h=2, amounts=0):
    return record(1, (pile, 2), (w, 2), (h, 2), (amounts, 4))


def framed(kind, body):
    return len(body).to_bytes(2, "little") + kind.to_bytes(2, "little") + body


def remark(text):
    return framed(6, text)


class Game:
    """The records of one game. The coins are kept beside them, so that most calls are ones that the table allows."""

    def __init__(self, rng, referee):
        self.rng, self.referee = rng, referee
        self.records, self.heads, self.begun = [], set(), False
        pile = rng.randint(1, 6)
        if rng.random() < 0.15:
            w, h = rng.choice(EDGES)
        else:
            w, h = (rng.randint(1, rng.choice([4, 4, 16, 64])) for _ in "wh")
        amounts = rng.choice([0, 1, 13, 2**31, 2**32 - 1, rng.getrandbits(4), rng.getrandbits(8), rng.getrandbits(32)])
        self.pile = PILES[pile](w, h, amounts)
        self.records.append(head(pile, w, h, amounts))

    def count(self, cell):
        return self.pile.count(cell) if cell < self.pile.size else 0

    def movable(self):
        return [c for c in sorted(self.heads) if self.pile.count(c)]

    def cell(self):
        size = self.pile.size
        if size == 0 or self.rng.random() < 0.03:
            return self.rng.choice([size, size + 1, *NUMBERS[:7]])
        return self.rng.randrange(size)

    def lay(self):
        cell = self.cell()
        self.records.append(lay(cell))
        if cell < self.pile.size and not self.begun:
            self.heads.add(cell)

    def begin(self):
        self.records.append(BEGIN)
        self.begun = True

    def turn(self, *choice):
        cell, move = choice or self.choice()
        self.records.append(turn(cell, move))
        if self.begun and cell in self.heads and move < self.count(cell):
            self.heads.symmetric_difference_update(self.pile.cells(cell, move))

    def choice(self):
        """A cell and a move, mostly of a head."""
        rng = self.rng
        cells = self.movable() if rng.random() < 0.95 else sorted(self.heads)
        cell = rng.choice(cells) if cells and rng.random() < 0.95 else self.cell()
        count = self.count(cell)
        if count and rng.random() < 0.95:
            return cell, rng.choice([0, count - 1, rng.randrange(count), rng.randrange(count)])
        return cell, rng.choice([count, count + 1, 65536 + count, *NUMBERS])

    def advise(self):
        self.records.append(ADVISE)

    def follow(self):
        """Asks for advice, and takes it."""
        self.advise()
        line = run(self.referee, b"".join(self.records))[0].splitlines()[-2].split()
        if line[1] == b"play":
            self.turn(int(line[2]), int(line[3]))
            self.advise()

    def remark(self):
        self.records.append(remark(text(self.rng)))

    def stray(self, chance):
        if self.rng.random() < chance:
            self.rng.choice([self.lay, self.begin, self.turn, self.advise, self.remark])()

    def play(self, following):
        """The whole game, without its end record."""
        rng = self.rng
        strays = rng.choice([0, 0, 0.02, 0.2])
        for _ in range(rng.choice([1, 3, 10, 30, min(2 * self.pile.size, 900)])):
            self.stray(strays)
            self.lay()
        if rng.random() < 0.97:
            self.begin()
        for _ in range(rng.choice([4, 12] if following else [0, 2, 10, 40, 150])):
            if not self.movable() and rng.random() < 0.7:
                break
            self.stray(strays)
            self.stray(0.2)
            rng.choice([self.turn, self.follow if following else self.turn])()
        return self.records


# The kinds of files. Each takes a source of random numbers and the records of a game.


def text(rng, least=0):
    return bytes(rng.randint(32, 126) for _ in range(rng.choice([least, 80, rng.randint(least, 80)])))


def bad(rng):
    """A record that in most places is a fault."""
    damaged = bytearray(text(rng, 1))
    damaged[rng.randrange(len(damaged))] = rng.choice([0, 10, 31, 127, 128, 255])
    good = rng.choice([head(1), lay(1), BEGIN, turn(1, 0), ADVISE, remark(text(rng, 1)), END])
    return rng.choice([
        good,
        good[:rng.randint(1, len(good) - 1)],
        framed(good[2], good[4:-1]),
        framed(good[2], good[4:] + rng.choice([b"\0", b"\0\0", b"a" * 81, bytes(256)])),
        framed(good[2], rng.randbytes(len(good) - 4)),
        framed(rng.choice([0, 8, 255, 256, 257, 65535]), rng.randbytes(rng.choice([0, 2, 6, 10]))),
        head(rng.choice([0, 1, 6, 7, 256, 257, 65535])),
        remark(b"a" * rng.choice([81, 82, 255, 256])),
        remark(bytes(damaged)),
    ])


def whole(rng, records):
    return b"".join(records) + END


def with_bad(rng, records):
    at = rng.choice([0, 1, len(records), rng.randint(0, len(records))])
    return whole(rng, [*records[:at], bad(rng), *records[at + rng.randint(0, 1):]])


def ended_badly(rng, records):
    return b"".join(records) + rng.choice([b"", END + b"\0", END + END, END + bad(rng)])


def damaged(rng, records):
    data = bytearray(whole(rng, records))
    for _ in range(rng.choice([1, 1, 2, 8])):
        at = rng.randrange(len(data))
        data[at] = rng.choice([0, 255, data[at] ^ 1 << rng.randrange(8), rng.randrange(256)])
    return bytes(data)


def cut(rng, records):
    data = whole(rng, records)
    at = rng.randrange(len(data))
    return rng.choice([data[:at], data[at:], data[:at] + data[at + 1:], data[:at] + b"\0" + data[at:]])


def random_records(rng, records):
    lengths = {1: 10, 2: 2, 4: 6, 6: rng.randint(0, 80)}
    kinds = [rng.choice([2, 3, 4, 5]) for _ in range(rng.randint(0, 40))] + [rng.randint(0, 8)]
    return whole(rng, records[:1] + [framed(kind, rng.randbytes(lengths.get(kind, 0))) for kind in kinds])


def random_bytes(rng, records):
    start = rng.choice([b"", b"\x0a\0\1\0", records[0], b"".join(records)])
    return start + rng.randbytes(rng.choice([0, 1, 2, 3, 4, rng.randint(0, 200)]))


def long(rng, records):
    """Near the greatest size of a file, which a remark before the end record fits exactly."""
    size = rng.choice([FULL - 1, FULL, FULL, FULL + 1, 2 * FULL])
    data = b"".join(records)[:FULL]
    more = rng.choice([remark(text(rng)), lay(0), BEGIN, ADVISE, bad(rng)])
    data += max(0, size - len(data) - 88) // len(more) * more
    while size - len(data) > 88:
        data += remark(b"-" * min(80, size - len(data) - 12))
    return data + remark(b"." * max(0, size - len(data) - 8)) + END


STYLES = {whole: 40, with_bad: 20, ended_badly: 5, damaged: 12, cut: 8, random_records: 5, random_bytes: 4, long: 1}
LINES = ["board", "laid", "begun", "begun over", "turned", "turned over", "play", "lost", "said", "end",
         *("no %d" % n for n in range(1, 7)), *("bad %d" % n for n in range(10, 19))]


def make(seed, k, referee):
    rng = random.Random("%s/%d" % (seed, k))
    records = Game(rng, referee).play(rng.random() < 0.15)
    [style] = rng.choices(list(STYLES), STYLES.values())
    return style(rng, records)


def run(binary, data):
    """What is printed on both outputs, and the status."""
    try:
        done = subprocess.run([binary], input=data, capture_output=True, timeout=60)
        return done.stdout, done.stderr, done.returncode
    except subprocess.TimeoutExpired:
        return b"", b"a minute has passed", None


def kind(line):
    words = line.decode().split(" ")
    if words[1] in ("no", "bad"):
        return " ".join(words[1:3])
    return words[1] + (" over" if words[1] in ("begun", "turned") and words[-1] == "over" else "")


def differ(seed, k, data, both):
    os.makedirs(os.path.dirname(KEPT), exist_ok=True)
    with open(KEPT, "w") as kept:
        kept.write(data.hex() + "\n")
    print("seed %s, file %d, %d bytes, kept in %s: they differ" % (seed, k, len(data), os.path.relpath(KEPT)))
    lines = [printed.split(b"\n") for printed, _, _ in both]
    at = next((n for n, pair in enumerate(zip(*lines)) if pair[0] != pair[1]), min(map(len, lines)))
    for said, (_, errors, status) in zip(lines, both):
        print("status %s, line %d: %s %s" % (status, at + 1, said[at:at + 1], errors[:1000]))
    return 1


def main(ours, plain, seed, files):
    seen, piles = Counter(), Counter()
    for k in range(int(files)):
        data = make(seed, k, plain)
        both = [run(binary, data) for binary in (ours, plain)]
        if both[0] != both[1] or both[0][1:] != (b"", 0):
            return differ(seed, k, data, both)
        lines = both[0][0].splitlines()
        seen.update(map(kind, lines))
        if lines[0].startswith(b"1 board"):
            piles[data[4]] += 1
    print("%s files of seed %s, %d lines: no difference" % (files, seed, sum(seen.values())))
    print("piles:", ", ".join("%d: %d" % item for item in sorted(piles.items())))
    print("lines:", ", ".join("%s: %d" % (name, seen[name]) for name in LINES))
    return 0


if __name__ == "__main__":
    sys.exit(main(*sys.argv[1:]))
