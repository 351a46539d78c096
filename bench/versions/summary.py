"""Prints how two versions compare, of the lines of `versions` in these files, which tell the same again: the least times count.

    summary.py FILE..          for each function the median of the widths, and the worst width
    summary.py --csv FILE..    the least times, as lines of the same kind
"""

import csv
import statistics
import sys

arguments = sys.argv[1:]
least = {}
for name in [it for it in arguments if it != "--csv"]:
    with open(name, encoding="utf-8") as lines:
        for row in csv.DictReader(lines):
            cell = row["function"], row["width"]
            times = float(row["first_ns"]), float(row["second_ns"])
            least[cell] = tuple(map(min, zip(times, least.get(cell, times))))

if "--csv" in arguments:
    print("function,width,first_ns,second_ns")
    for (function, width), (first, second) in least.items():
        print(f"{function},{width},{first:.3f},{second:.3f}")
    sys.exit()
functions = {}
for (function, width), (first, second) in least.items():
    functions.setdefault(function, []).append((second / first, width))
print(f"{'The second over the first':28} median   worst  at width")
for function, ratios in functions.items():
    worst, width = max(ratios)
    print(f"{function:28} {statistics.median(it for it, _ in ratios):6.3f}  {worst:6.3f}  {width}".rstrip())
