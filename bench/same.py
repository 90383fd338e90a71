#!/usr/bin/env python3
"""same.py OTHER PQX COUNT SEED: whether two builds of pqx print the same, to the byte, and end with the same status.

They play every script and recording of tests/, and COUNT scripts that are drawn, as many of a queue as of a broker: each
is run, with a page and without, and of the shorter ones all points are made, with and without evictions, and the calls
of a queue go on alone. The first difference is told, and ends it."""

import pathlib
import random
import subprocess
import sys
import tempfile
from concurrent.futures import ThreadPoolExecutor

TOP = pathlib.Path(__file__).resolve().parent.parent
sys.dont_write_bytecode = True
sys.path.insert(0, str(TOP / "bench" / "plain"))
import broker_scripts
import scripts

LINES_WITH_POINTS = 60
EVICTIONS = [[], ["--evict", "all"], ["--evict", "drawn", "--draw", "7"]]
PAGE = "PAGE"


def ways(kind, text, draw):
    """What pqx is told to do with a text, each as the words of its command line."""
    points = text.count(b"\n") < LINES_WITH_POINTS
    evict = draw.choice(EVICTIONS)
    if kind == "recording":
        return [["check", "--order"], ["check", "--page", PAGE]]
    if kind == "broker":
        return [["broker", "run"], *[["broker", "points", *evict]] * points]
    made = [["points", *evict], ["points", "--page", PAGE, "--from", "3", "--count", "9"], ["alone"]]
    return [["run"], ["run", "--page", PAGE], *made * points]


def ended(program, words, text, page):
    """What a run prints, its status, and the page that it leaves."""
    words = [str(page) if it == PAGE else it for it in words]
    ran = subprocess.run([program, *words], input=text, capture_output=True, timeout=300)
    left = page.read_bytes() if page.exists() else None
    page.unlink(missing_ok=True)
    return ran.stdout, ran.stderr, ran.returncode, left


def differs(programs, page, name, kind, text):
    """The first way in which the two differ on a text, if there is one, and how many ways were tried."""
    tried = ways(kind, text, random.Random(text))
    for words in tried:
        one, other = (ended(it, words, text, page) for it in programs)
        if one != other:
            return f"{name}: {' '.join(words)}: {one} and {other}\n{text.decode(errors='replace')}", 0
    return None, len(tried)


def rows():
    """Each text of tests/ and examples/ that a program is given, as every kind."""
    for path in sorted([*TOP.glob("tests/**/*"), *TOP.glob("examples/*")]):
        if path.is_file() and path.suffix in (".script", ".in", ".jsonl"):
            for kind in ("queue", "broker", "recording"):
                yield str(path), kind, path.read_bytes()


def drawn(count, seed):
    """Scripts that are drawn."""
    for at in range(count):
        draw = random.Random(seed * 1_000_003 + at)
        of_broker = at % 2 == 1
        script = (broker_scripts if of_broker else scripts).drawn_script(draw)
        yield f"drawn {at}", "broker" if of_broker else "queue", script


def main(other, ours, count, seed):
    runs = texts = 0
    with tempfile.TemporaryDirectory() as folder, ThreadPoolExecutor(2) as threads:
        pages = (pathlib.Path(folder) / str(at) for at in range(10**9))
        tasks = zip(pages, [*rows(), *drawn(int(count), int(seed))])
        for different, tried in threads.map(lambda it: differs((other, ours), it[0], *it[1]), tasks):
            if different:
                sys.exit(different)
            texts, runs = texts + 1, runs + tried
    print(f"{texts} texts, {runs} runs: the same")


if __name__ == "__main__":
    main(*sys.argv[1:])
