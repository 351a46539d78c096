#!/usr/bin/env python3
"""Prints the best of each figure of several runs of the program of bench/columns/run: the greatest rates and the least times.

    bench/columns/best.py RESULTS.csv RESULTS.csv..
"""

import csv
import sys

BEST = {"written_gb_s": max, "read_gb_s": max, "one_value_ns": min, "filter_us": min}

runs = []
for path in sys.argv[1:]:
    with open(path, encoding="utf-8") as it:
        runs.append(list(csv.DictReader(line for line in it if not line.startswith("#"))))
table = csv.DictWriter(sys.stdout, runs[0][0], lineterminator="\n")
table.writeheader()
for rows in zip(*runs, strict=True):
    first = rows[0]
    if any(row[name] != first[name] for row in rows for name in first if name not in BEST):
        sys.exit("bench/columns/best.py: these are not results of one program")
    # Figures stay as they are written; a way of storing that has no such figure has none here, either.
    bests = {name: best((row[name] for row in rows), key=lambda it: float(it or 0)) for name, best in BEST.items()}
    table.writerow(first | bests)
