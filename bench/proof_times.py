#!/usr/bin/env python3
"""Where a check's time goes: seconds a function, and for what, by when the files of the check were kept.

    cd crates/NAME && rm -rf out/incremental && rt check --jobs 1; python3 ../../bench/proof_times.py [COUNT]

It prints the COUNT dearest functions (30 if left out), each with its dearest parts: Lts is of lifetimes, Proof what the
tactics search for, Answers what is answered by hand. One job keeps one file after the other, so the time between two is
the later one's. What others do on the machine is in it, so compare the figures of one run alone.
"""
import collections
import os
import re
import sys

PARTS = "Answers|Code|Given|Goals|Invariants|Key|Kinds|Layout|Met|Mir|Named|Proof|Reads|Statement|Symbol|Tie|TheLink|View"
FILE = re.compile(rf"Rattle-[a-z_]+[-.](?:proofs|specs)?\.?(.*?)\.({PARTS}|Lts)\b")


def kept(folder):
    """The files of a check, in the sequence in which they were kept: when, and which."""
    files = [os.path.join(at, name) for at, _, names in os.walk(folder) for name in names if name.endswith(".oantt")]
    return sorted((os.stat(file).st_mtime, os.path.basename(file)) for file in files)


def times(files):
    """The seconds of each function, by part."""
    spent = collections.defaultdict(collections.Counter)
    for (before, _), (when, name) in zip(files, files[1:]):
        found = FILE.match(name)
        function, part = found.groups() if found else ("(all else)", "")
        spent[function][part] += when - before
    return spent


def main():
    count = int(sys.argv[1]) if len(sys.argv) > 1 else 30
    spent = times(kept("out/incremental"))
    parts = sum(spent.values(), collections.Counter())
    print(f"{sum(parts.values()):.0f} s:", ", ".join(f"{part} {seconds:.0f}" for part, seconds in parts.most_common(8)))
    for function, parts in sorted(spent.items(), key=lambda it: -it[1].total())[:count]:
        dearest = ", ".join(f"{part} {seconds:.1f}" for part, seconds in parts.most_common(3))
        print(f"{parts.total():7.1f} {function}: {dearest}")


if __name__ == "__main__":
    main()
