"""Times two referees side by side on the full-size transcripts of full_size.py; the best of five runs of each.

    python3 bench/times.py OURS PLAIN DIRECTORY
"""
import os
import subprocess
import sys
import time

from full_size import FILES

ROUNDS = 5


def seconds(referee, path):
    with open(path, "rb") as source:
        start = time.perf_counter()
        subprocess.run([referee], stdin=source, stdout=subprocess.DEVNULL, check=True)
        return time.perf_counter() - start


def printed(referee, path):
    with open(path, "rb") as source:
        return subprocess.run([referee], stdin=source, stdout=subprocess.PIPE, check=True).stdout


def main(ours, plain, directory):
    os.makedirs(directory, exist_ok=True)
    row = "{:26} {:>8} {:>9} {:>9} {:>7}"
    print(row.format("file", "records", "ours, s", "plain, s", "ratio"))
    total = [0, 0]
    for name, make in FILES.items():
        records = make()
        path = os.path.join(directory, name + ".transcript")
        with open(path, "wb") as target:
            target.write(b"".join(records))
        lines = printed(ours, path)
        if lines != printed(plain, path) or lines.count(b"\n") != len(records):
            sys.exit("%s: the reports differ, or stop early" % name)
        rounds = [[seconds(referee, path) for referee in (ours, plain)] for _ in range(ROUNDS)]
        best = [min(times) for times in zip(*rounds)]
        total = [sum(pair) for pair in zip(total, best)]
        print(row.format(name, len(records), *("%.4f" % each for each in best), "%.2f" % (best[0] / best[1])))
    print(row.format("total", "", *("%.4f" % each for each in total), "%.2f" % (total[0] / total[1])))


if __name__ == "__main__":
    main(*sys.argv[1:])
