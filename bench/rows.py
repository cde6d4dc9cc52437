#!/usr/bin/env python3
"""Times calls of built-in methods on long lists, maps and texts, on the built program `rows_bench`."""
import os
import subprocess
import time

PROGRAM = os.path.join(os.path.dirname(os.path.abspath(__file__)), '../crates/rows_bench/out/rows_bench')
SIZES = (100_000, 200_000, 400_000, 800_000)


def seconds(words):
    """The best of three runs."""
    runs = []
    for _ in range(3):
        start = time.perf_counter()
        subprocess.run([PROGRAM] + words, check=True)
        runs.append(time.perf_counter() - start)
    return min(runs)


def main():
    for what in ('list', 'map', 'text'):
        print(what, *('%d: %.3f s' % (size, seconds([what, str(size)])) for size in SIZES), sep='  ')


main()
