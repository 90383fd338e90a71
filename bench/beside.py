#!/usr/bin/env python3
"""beside.py OTHER ROUNDS SCRIPT..: scripts of bench/, of OTHER, another checkout, and of this one, in turns. At least
two rounds.

Each line of a script is printed once. A number that varies stands there as `OTHER'S | THIS ONE'S`, each by its median
over the rounds with the quartiles behind it, so that what the machine does is told from what the trees do. Both
checkouts have built the programs that are timed. Printed, not tested."""

import pathlib
import re
import statistics
import subprocess
import sys

NUMBER = re.compile(r"\d+(?:,\d{3})*(?:\.\d+)?")


def played(tree, script):
    """The lines that a checkout's script prints, but for what it says of the machine."""
    ran = subprocess.run([tree / "bench" / script], stdout=subprocess.PIPE, text=True, check=True)
    return [line for line in ran.stdout.splitlines() if "load average" not in line]


def told(numbers):
    """The median of some numbers, with the quartiles."""
    values = [float(number.replace(",", "")) for number in numbers]
    low, middle, high = (f"{it:,.0f}" if it >= 100 else f"{it:.3g}"
                         for it in statistics.quantiles(values, n=4, method="inclusive"))
    return f"{middle} ({low} to {high})"


def beside(others, ours):
    """One line of a script, from all rounds of both checkouts."""
    words = NUMBER.split(ours[0])
    columns = zip(zip(*map(NUMBER.findall, others)), zip(*map(NUMBER.findall, ours)))
    line = words[0]
    for (other, our), word in zip(columns, words[1:]):
        varies = len({*other, *our}) > 1
        line += (f"{told(other)} | {told(our)}" if varies else our[0]) + word
    return line


def main(other, rounds, *scripts):
    trees = pathlib.Path(other).resolve(), pathlib.Path(__file__).resolve().parents[1]
    for script in scripts:
        print(f"== {script}", flush=True)
        turns = [[played(tree, script) for tree in trees] for _ in range(int(rounds))]
        others, ours = zip(*turns)
        for at in range(len(ours[0])):
            print(beside([lines[at] for lines in others], [lines[at] for lines in ours]), flush=True)


main(*sys.argv[1:])
