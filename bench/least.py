#!/usr/bin/env python3
"""Prints results with the least times of several runs of bench/run on the same archives, for either side and for memcpy:
where other work on the machine showed in one run, it may not have in another.

    bench/least.py RESULTS.csv RESULTS.csv.. > bench/results/PROCESSOR-CPU.csv
"""

import sys

FIRST_TIME = 3
heads = set()
least = {}
for path in sys.argv[1:]:
    with open(path, encoding="utf-8") as it:
        head, names, *lines = it.read().splitlines()
    heads.add((head.rpartition("; ")[0], names))
    for line in lines:
        cells = line.split(",")
        times = [float(it) for it in cells[FIRST_TIME : FIRST_TIME + 3]]
        key = tuple(cells[:FIRST_TIME])
        least[key] = [min(it) for it in zip(least.get(key, times), times)]
if len(heads) != 1:
    sys.exit("bench/least.py: these are not results of one processor and one pair of compilers")
print(f"{head}\n{names}")
for key, (ours, rust, memcpy) in least.items():
    print(*key, *(f"{it:.4g}" for it in (ours, rust, memcpy, ours / rust, ours / memcpy)), sep=",")
