#!/usr/bin/env python3
# Draws small recordings in which values are put more than once, and compares what `pqx check` says of each with brute
# force: explained is to be right, and so is impossible; undecided is counted. COUNT recordings are drawn, from SEED on.
# PQX names the program.
import os, random, re, sys
from concurrent.futures import ProcessPoolExecutor
import brute, drawn

BATCH = 100


def puts_of(lines):
    of_base = [it for line in lines for it in line.get("base", [])]
    return of_base + [line["value"] for line in lines if line.get("op") == "put"]


def fewer(key, value, most):
    """What a line has at a key, with values from 1 to this one alone."""
    if key in ("base", "final"):
        return [(it - 1) % most + 1 for it in value]
    return (value - 1) % most + 1 if key in ("value", "got") else value


def repeated(seed):
    """A recording with fewer values than it had, if one was put more than once."""
    most = random.Random(-seed).randint(1, 3)
    lines = [{key: fewer(key, value, most) for key, value in line.items()} for line in drawn.drawn(seed)]
    values = puts_of(lines)
    return lines if len(set(values)) < len(values) else None


def as_queues(recordings):
    """The lines of recordings, each as a queue of its own; crashes are of all."""
    lines = [(seed, line) for seed, own in recordings.items() for line in own]
    return [line if line.get("op") == "crash" else {"queue": seed, **line} for seed, line in lines]


def compare(seeds):
    """What is wrong with what is said of the recordings from one seed up to another, and how often each thing is said."""
    recordings = {seed: lines for seed in range(*seeds) if (lines := repeated(seed))}
    status, out, err = drawn.said(as_queues(recordings))
    got = dict(re.findall(r"^queue (\d+): (explained|impossible|undecided)", out, re.M))
    failures, counts = [], {}
    for seed, lines in recordings.items():
        has_order = brute.first_bad(lines) is None
        said = got.get(str(seed))
        counts[said, has_order] = counts.get((said, has_order), 0) + 1
        if said not in ("explained" if has_order else "impossible", "undecided"):
            failures.append(drawn.failure(seed, lines, has_order, (said, status, err)))
    return failures, counts


def main():
    count, seed = int(sys.argv[1]), int(sys.argv[2])
    parts = [(it, min(it + BATCH, seed + count)) for it in range(seed, seed + count, BATCH)]
    total, failed = {}, 0
    with ProcessPoolExecutor(max_workers=int(os.environ.get("WORKERS", "4"))) as pool:
        for failures, counts in pool.map(compare, parts):
            for it in counts:
                total[it] = total.get(it, 0) + counts[it]
            for it in failures:
                failed += 1
                if failed <= 5:
                    print(it)
    for said, has_order in sorted(total, key=str):
        print(f"{said}, and {'an order explains it' if has_order else 'none does'}: {total[said, has_order]}")
    print(f"{sum(total.values()) - failed} passed, {failed} failed")
    sys.exit(1 if failed or not total else 0)


if __name__ == "__main__":
    main()
