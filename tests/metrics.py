"""metrics.py PQD READER: plays `pqd serve --metrics`, and prints a line for each case: its name, a tab, and what is
wrong, or nothing. READER is a Python that has prometheus_client, or no word at all."""
import http.client
import json
import os
import re
import socket
import subprocess
import sys
import tempfile
import time

PQD, READER = sys.argv[1], sys.argv[2]
# How long a connection may be silent, as crates/scraping has it, and how often it is read from.
SILENT, READS = 1.0, 8
# What each sample of /metrics is in /stats.
PLAIN = {"uptime_seconds": "uptime", "connections": "connections", "workers": "workers", "replies_total": "replies",
         "ready": "ready"}
OF_QUEUE = {"queue_items": "items", "queue_clients": "clients", "queue_records": "records"}
OF_JOURNAL = {"journal_bytes": "bytes", "journal_kept_bytes": "kept", "journal_batches_total": "batches",
              "journal_failures_total": "failures"}
READS_IT = """
import json, sys
from prometheus_client.parser import text_string_to_metric_families as families
found = [[f.name, f.type, [[s.name, s.labels, s.value] for s in f.samples]] for f in families(sys.stdin.read())]
json.dump(found, sys.stdout)
"""


def judge(name, said=""):
    print(name, str(said).replace("\n", " ").replace("\t", " "), sep="\t")


def expect(name, found, wanted):
    judge(name, "" if found == wanted else f"found {found!r}, and not {wanted!r}")


class Server:
    """A `pqd serve` with these options, its two ports, and a connection to it."""

    def __init__(self, *words):
        how = {"stdout": subprocess.PIPE, "stderr": subprocess.PIPE, "text": True}
        self.process = subprocess.Popen([PQD, "serve", "--port", "0", "--metrics", "0", *words], **how)
        self.port, self.metrics = (self.port_in(it) for it in ("listening", "metrics"))
        self.lines = self.connect(self.port).makefile("rw")

    def port_in(self, word):
        line = self.process.stdout.readline()
        found = re.fullmatch(word + r" 127\.0\.0\.1:([0-9]+)\n", line)
        if not found:
            sys.exit(f"pqd said {line!r}, and not its {word}")
        return int(found[1])

    def connect(self, port):
        return socket.create_connection(("127.0.0.1", port), timeout=20)

    def ask(self, **request):
        self.lines.write(json.dumps(request) + "\n")
        self.lines.flush()
        return json.loads(self.lines.readline())

    def get(self, path, method="GET"):
        """The status, the kind, the headers and the body of an answer."""
        connection = http.client.HTTPConnection("127.0.0.1", self.metrics, timeout=20)
        connection.request(method, path)
        answer = connection.getresponse()
        body = answer.read().decode()
        connection.close()
        return answer.status, answer.getheader("Content-Type"), answer.headers, body

    def stats(self):
        return json.loads(self.get("/stats")[3])

    def stats_when(self, **wanted):
        """What it tells once it tells this, or ten seconds later: a count follows what it counts."""
        deadline = time.monotonic() + 10
        while True:
            stats = self.stats()
            if time.monotonic() > deadline or all(stats[it] == value for it, value in wanted.items()):
                return stats
            time.sleep(0.05)

    def raw(self, text):
        """All that is answered to these bytes, up to the end of the connection."""
        connection, said = self.connect(self.metrics), b""
        connection.sendall(text)
        try:
            while piece := connection.recv(65536):
                said += piece
        except ConnectionResetError:
            pass
        return said

    def stop(self):
        """The status with which it ends, and what it said meanwhile."""
        self.lines.write('{"op":"stop"}\n')
        self.lines.flush()
        said = self.process.communicate(timeout=30)
        return self.process.returncode, said


def samples(text):
    """What prometheus_client reads: the types of the families, and the samples by name and labels."""
    ran = subprocess.run([READER, "-c", READS_IT], input=text, capture_output=True, text=True)
    if ran.returncode:
        raise ValueError(ran.stderr.strip().splitlines()[-1])
    families = json.loads(ran.stdout)
    kinds = {name: kind for name, kind, _samples in families}
    values = {(name, *sorted(labels.values())): value for *_f, rows in families for name, labels, value in rows}
    return kinds, values


def wanted_samples(stats):
    """What /metrics says where /stats says this."""
    wanted = {(f"wistaku_{name}",): float(stats[key]) for name, key in PLAIN.items()}
    for queue in stats["queues"]:
        for name, key in OF_QUEUE.items():
            wanted[(f"wistaku_{name}", *sorted((queue["kind"], queue["queue"])))] = float(queue[key])
    if stats["journal"]:
        wanted |= {(f"wistaku_{name}",): float(stats["journal"][key]) for name, key in OF_JOURNAL.items()}
        wanted[("wistaku_journal_failed", stats["journal"]["sync"])] = float(stats["journal"]["failed"])
    return wanted


def same_numbers(name, server):
    """Both pages tell the same, but for the time: asked again where a second went by."""
    if not READER:
        return
    for _ in range(5):
        before, (status, kind, _headers, text), after = server.stats(), server.get("/metrics"), server.stats()
        if before == after:
            break
    expect(f"{name}: the kind of /metrics", (status, kind), (200, "text/plain; version=0.0.4; charset=utf-8"))
    try:
        kinds, values = samples(text)
    except ValueError as error:
        return judge(f"{name}: /metrics is read", error)
    expect(f"{name}: /metrics", values, wanted_samples(before))
    counters = {it for it, kind in kinds.items() if kind == "counter"}
    of_journal = {"wistaku_journal_batches", "wistaku_journal_failures"} if before["journal"] else set()
    expect(f"{name}: counters", counters, {"wistaku_replies"} | of_journal)


def numbers(server):
    """What /stats says while queues, items, replies and connections change."""
    stats = server.stats_when(connections=1)
    expect("at the beginning", {**stats, "uptime": 0}, {
        "connections": 1, "journal": None, "queues": [], "ready": True, "replies": 0, "uptime": 0, "workers": 3})
    server.ask(op="create", queue="jobs", kind="log")
    server.ask(op="create", queue="d-1", kind="durable")
    for number in range(1, 6):
        server.ask(op="put", client=0, queue="jobs", number=number, value="00")
    server.ask(op="take", client=1, queue="jobs", number=1)
    stats = server.stats_when(replies=8)
    counts = {"clients": 2, "records": 8}
    expect("queues and their items", stats["queues"], [
        {"items": 4, "kind": "log", "queue": "jobs", **counts},
        {"items": 0, "kind": "durable", "queue": "d-1", **counts}])
    expect("replies", stats["replies"], 8)
    same_numbers("two queues", server)
    others = [server.connect(server.port) for _ in range(5)]
    expect("open connections", server.stats_when(connections=6)["connections"], 6)
    for it in others:
        it.close()
    expect("connections that were closed", server.stats_when(connections=1)["connections"], 1)
    server.ask(op="crash")
    expect("down", [server.stats()[it] for it in ("ready", "queues")], [False, []])
    same_numbers("down", server)
    server.ask(op="recover")
    expect("ready again", [it["items"] for it in server.stats()["queues"]], [4, 0])


def refused(server):
    """What is no request for the numbers."""
    for path in ("/metric", "/metrics/", "/stats?x=1", "//", "/favicon.ico"):
        expect(f"GET {path}", server.get(path)[0], 404)
    for method in ("POST", "PUT", "HEAD", "OPTIONS"):
        for path in ("/", "/metrics", "/stats"):
            answer = server.get(path, method)
            expect(f"{method} {path}", (answer[0], answer[2]["Allow"]), (405, "GET"))
    expect("POST of nothing", server.get("/x", "POST")[0], 404)
    head = b"GET /stats HTTP/1.1\r\n"
    for name, text, status in (
            ("no HTTP", b"hello\n\r\n", b"400"), ("no host", head + b"\r\n", b"400"),
            ("two hosts", head + b"Host: a\r\nHost: b\r\n\r\n", b"400"),
            ("a bare line feed", head[:-2] + b"\n\n", b"400"),
            ("many lines", head + b"Host: a\r\n" + b"a: b\r\n" * 80 + b"\r\n", b"431"),
            ("a long path", b"GET /" + b"a" * 20_000, b"414")):
        said = server.raw(text)
        judge(name, "" if said.startswith(b"HTTP/1.1 " + status + b" ") else said)
    expect("HTTP/1.0", server.raw(b"GET /stats HTTP/1.0\r\n\r\n").split(b"\r\n")[0], b"HTTP/1.0 200 OK")
    answer = server.raw(head + b"Host: a\r\n\r\n" + head + b"Host: a\r\n\r\n")
    expect("one request a connection", answer.count(b"HTTP/1.1 200 OK"), 1)


def page(server):
    status, kind, _headers, text = server.get("/")
    expect("the page", (status, kind), (200, "text/html; charset=utf-8"))
    judge("the page asks for the numbers", "" if 'fetch("stats")' in text else "it does not")
    judge("the page loads nothing else", re.findall(r"https?://\S+|src=\S+|@import", text) or "")


def slow(server):
    """Connections that keep others waiting, but not long."""
    silent = server.connect(server.metrics)
    begun = time.monotonic()
    server.stats()
    took = time.monotonic() - begun
    judge("behind a silent connection", "" if took < 3 * SILENT else f"{took:.1f} s")
    expect("a silent connection is closed", silent.recv(1), b"")
    trickling = server.connect(server.metrics)
    begun, sent = time.monotonic(), 0
    try:
        while sent < 40:
            trickling.sendall(b"G")
            sent += 1
            time.sleep(SILENT / 5)
    except OSError:
        pass
    judge("a trickling connection is closed", "" if sent <= READS + 4 else f"after {sent} bytes")
    expect("behind it", server.get("/stats")[0], 200)


def table(server):
    """What `pqd stats` prints, once and again."""
    words = [PQD, "stats", "--port", str(server.metrics)]
    ran = subprocess.run(words, capture_output=True, text=True, timeout=20)
    expect("pqd stats", (ran.returncode, ran.stderr), (0, ""))
    rows = [line.split() for line in ran.stdout.splitlines()]
    stats = server.stats()
    expect("pqd stats: the server", [row for row in rows[:6] if row[0] != "up"], [
        ["state", "ready"], ["connections", "1"], ["workers", "3"], ["replies", str(stats["replies"])],
        ["journal", "none"]])
    expect("pqd stats: queues", rows[7:9], [
        ["queue", "kind", "items", "clients", "records"], ["jobs", "log", "4", "2", "8"]])
    with subprocess.Popen([*words, "--watch"], stdout=subprocess.PIPE, text=True) as watching:
        lines = [watching.stdout.readline() for _ in range(25)]
        watching.kill()
    expect("pqd stats --watch", sum(line.startswith("state ") for line in lines) >= 2, True)
    ran = subprocess.run([PQD, "stats", "--port", str(server.port)], capture_output=True, text=True, timeout=20)
    expect("pqd stats at another port", (ran.returncode, ran.stderr), (1, "pqd: no server tells its numbers there\n"))


def in_memory():
    server = Server("--clients", "2", "--records", "8", "--workers", "3")
    numbers(server)
    refused(server)
    page(server)
    table(server)
    slow(server)
    silent = server.connect(server.metrics)
    status, said = server.stop()
    expect("its end, beside a silent connection", (status, *said), (0, "", ""))
    silent.close()


def with_journal(sync, folder):
    journal = os.path.join(folder, sync)
    server = Server("--clients", "2", "--records", "64", "--journal", journal, "--sync", sync)
    server.ask(op="create", queue="a", kind="log")
    for number in range(1, 21):
        server.ask(op="put", client=0, queue="a", number=number, value="0a")
    time.sleep(1.5 if sync == "second" else 0)
    stats = server.stats()["journal"]
    with open(journal, "rb") as it:
        text = it.read()
    # Behind the journal's bytes the file has room, which is zeros.
    bytes_there = len(text.rstrip(b"\0"))
    judge(f"{sync}: bytes", "" if bytes_there <= stats["bytes"] < bytes_there + 8 else f"{stats} and {bytes_there} there")
    found = stats["sync"], stats["failed"], stats["failures"]
    expect(f"{sync}: how it goes", found, (sync, False, 0))
    judge(f"{sync}: batches", "" if 20 <= stats["batches"] <= 25 else stats)
    judge(f"{sync}: synced", "" if (stats["kept"] == stats["bytes"]) == (sync != "never") else stats)
    same_numbers(sync, server)
    expect(f"{sync}: its end", server.stop()[0], 0)


def port_taken():
    with socket.create_server(("127.0.0.1", 0)) as taken:
        words = [PQD, "serve", "--port", "0", "--metrics", str(taken.getsockname()[1])]
        ran = subprocess.run(words, capture_output=True, text=True, timeout=20)
    expect("a port that is taken", (ran.returncode, ran.stdout, ran.stderr), (1, "", "pqd: listen failed\n"))


in_memory()
with tempfile.TemporaryDirectory() as room:
    for when in ("always", "second", "never"):
        with_journal(when, room)
port_taken()
