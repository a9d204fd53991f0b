#!/usr/bin/env python3
"""Works out what the program replay_check prints, from the rules of the grid: sets of strings, and nothing of the program.

usage: replay_check.py > crates/replay_check/stdout
"""
import sys

sys.dont_write_bytecode = True

from grid_check import Generator, Grid


def main():
    generator = Generator(1)
    long = generator.filters(8, 24)
    short = generator.filters(8, 6)
    print(f"a long table of {len(long)} filters and then a short one of {len(short)}, against the short one alone")
    grid = Grid(short)
    every = [format(n, "08b") for n in range(256)]
    count = labels = visits = 0
    for destination in every:
        for source in every:
            label, some = grid.search(destination, source)
            assert label == grid.linear(destination, source)
            count, labels, visits = count + 1, labels + label, visits + some
    print(f"{count} lookups compared, 0 differed (labels {labels}, visits {visits})")


main()
