#!/usr/bin/env python3
"""idle.py [ROUNDS [IDLE]]: what connections that are silent cost those that are busy.

Pairs of a put and a take a second of sixteen connections of `pqd serve`, one request in flight on each, beside none and
beside IDLE that are silent (1,000), in turns, ROUNDS of each (5); and the ratio. The servers are started anew for each,
with `--idle` and without. It is the client of serve.sh (bench/client). PQD names another pqd than the one that `rt run`
left. Printed, not tested."""

import contextlib
import os
import pathlib
import resource
import socket
import statistics
import subprocess
import sys
import tempfile

HERE = pathlib.Path(__file__).resolve().parent
PQD = os.environ.get("PQD", str(HERE.parent / "crates/pqd/out/pqd"))
# What a client has room for, and how long it may take.
PAIRS, SECONDS, BUSY = 16_000, 3, 16


@contextlib.contextmanager
def serving(*options):
    words = [PQD, "serve", "--port", "0", "--clients", "16", "--records", "4096", "--connections", "4096", *options]
    with subprocess.Popen(words, stdout=subprocess.PIPE, text=True) as server:
        try:
            yield server.pid, int(server.stdout.readline().rsplit(":", 1)[1])
        finally:
            server.kill()


def measured(pairs, idle, options):
    """Pairs a second, and microseconds of the server's processor time for a pair."""
    with serving(*options) as (server, port), contextlib.ExitStack() as silent:
        for _ in range(idle):
            silent.enter_context(socket.create_connection(("127.0.0.1", port)))
        words = [pairs, "pqd", port, BUSY, 1, PAIRS, SECONDS, server]
        said = subprocess.run(list(map(str, words)), stdout=subprocess.PIPE, text=True, check=True).stdout.split()
        return float(said[0]), float(said[4])


def spread(numbers):
    low, middle, high = min(numbers), statistics.median(numbers), max(numbers)
    return f"{middle:,.1f} ({low:,.1f} to {high:,.1f})"


def main(rounds="5", idle="1000"):
    resource.setrlimit(resource.RLIMIT_NOFILE, (8192, resource.getrlimit(resource.RLIMIT_NOFILE)[1]))
    with tempfile.TemporaryDirectory() as work:
        subprocess.run(["gcc", "-O2", "-pthread", "-o", f"{work}/pairs", *map(str, (HERE / "client").glob("*.c"))], check=True)
        for options in [], ["--idle", "60"]:
            counts = 0, int(idle)
            turns = [[measured(f"{work}/pairs", count, options) for count in counts] for _ in range(int(rounds))]
            for at, count in enumerate(counts):
                rates, costs = zip(*(turn[at] for turn in turns))
                print(f"serve {' '.join(options) or '(no --idle)'}, beside {count:,} silent ones: {spread(rates)} pairs a "
                      f"second, {spread(costs)} us of the server for a pair", flush=True)
            print(f"  of that without: {spread([(turn[1][0] / turn[0][0]) * 100 for turn in turns])} percent", flush=True)
    print("load average:", os.getloadavg())


main(*sys.argv[1:])
