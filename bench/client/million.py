"""million.py PQD RECORDS PAIRS: what bench/million.sh does."""

import multiprocessing
import re
import socket
import subprocess
import sys
import time

CONNECTIONS = 8
AT_ONCE = 16
STAGES = [10_000, 100_000]
GOT = re.compile(rb'^\{"got":"([0-9a-f]{2})([0-9a-f]{8})","reply":"got"\}$')


class Wrong(Exception):
    """What no right server replies."""


def connect(port):
    connection = socket.create_connection(("127.0.0.1", port))
    connection.setsockopt(socket.IPPROTO_TCP, socket.TCP_NODELAY, 1)
    return connection, connection.makefile("rb")


def pair(client, number):
    """A put of the client's item of this number, and a take."""
    return (b'{"op":"put","client":%d,"queue":"a","value":"%02x%08x"}\n{"op":"take","client":%d,"queue":"a"}\n'
            % (client, client, number, client))


def play(port, client, begin, end, results):
    """Makes the pairs of these numbers, and hands over which items of each client were taken, in their order."""
    connection, replies = connect(port)
    taken = [[] for _ in range(CONNECTIONS)]
    for number in range(begin, end, AT_ONCE):
        several = range(number, min(end, number + AT_ONCE))
        connection.sendall(b"".join(pair(client, each) for each in several))
        for _ in several:
            done, got = replies.readline().rstrip(), replies.readline().rstrip()
            match = GOT.match(got)
            if done != b'{"reply":"done"}' or not match:
                results.put((client, f"{done} {got}"))
                return
            taken[int(match[1], 16)].append(int(match[2], 16))
    connection.close()
    results.put((client, taken))


def in_order(numbers):
    return all(one < other for one, other in zip(numbers, numbers[1:]))


def run(port, begin, end):
    """All connections make the pairs of these numbers. What came out is what went in."""
    results = multiprocessing.Queue()
    players = [multiprocessing.Process(target=play, args=(port, client, begin, end, results))
               for client in range(CONNECTIONS)]
    for player in players:
        player.start()
    found = [results.get()[1] for _ in players]
    for player in players:
        player.join()
    for taken in found:
        if isinstance(taken, str):
            raise Wrong(taken)
    for client in range(CONNECTIONS):
        if not all(in_order(taken[client]) for taken in found):
            raise Wrong(f"an item of client {client} was overtaken")
        if sorted(number for taken in found for number in taken[client]) != list(range(begin, end)):
            raise Wrong(f"an item of client {client} was lost or doubled")


def resident(process):
    """Kilobytes: now, and at most at any moment so far."""
    with open(f"/proc/{process.pid}/status") as status:
        said = status.read()
    return tuple(int(re.search(rf"{name}:\s*(\d+)", said)[1]) for name in ("VmRSS", "VmHWM"))


def ask(port, line):
    connection, replies = connect(port)
    connection.sendall(line)
    reply = replies.readline()
    connection.close()
    return reply


def main(pqd, records, pairs):
    # As many workers as connections: one more would begin with some later connection, and take a stack of its own then.
    words = [pqd, "serve", "--renew", "--clients", CONNECTIONS, "--records", records, "--port", 0]
    words += ["--workers", CONNECTIONS]
    server = subprocess.Popen(list(map(str, words)), stdout=subprocess.PIPE, text=True)
    try:
        port = int(re.search(r"(\d+)\s*$", server.stdout.readline())[1])
        ask(port, b'{"op":"create","queue":"a","kind":"durable"}\n')
        made, first = 0, None
        for stage in [stage for stage in STAGES if stage < pairs] + [pairs]:
            begun = time.monotonic()
            run(port, made // CONNECTIONS, stage // CONNECTIONS)
            rate = (stage - made) / (time.monotonic() - begun)
            made, (now, most) = stage, resident(server)
            first = first or (now, most)
            print(f"{made:,} pairs, each item once and in order: {rate:,.0f} a second; {now:,} KB, "
                  f"{now / first[0]:.2f} of the first, and at most {most:,}, {most / first[1]:.2f} of that", flush=True)
        ask(port, b'{"op":"stop"}\n')
        server.wait(timeout=60)
    finally:
        server.kill()


try:
    main(sys.argv[1], sys.argv[2], int(sys.argv[3]))
except Wrong as wrong:
    print("wrong:", wrong)
    sys.exit(1)
