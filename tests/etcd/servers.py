"""Servers over one log: one that serves, and others that stand by. Each that ends begins again, and stands by, as
systemd would have it."""
import json
import os
import signal
import socket
import subprocess
import threading
import time

from ports import free_ports

PLACES = 3
HARMS = ("killed", "killed and taken", "paused", "stopping")
# What changes nothing, and yet may not be answered by who has the log no more.
QUESTIONS = ({"op": "told", "client": 0, "queue": "jobs"}, {"op": "list"}, {"op": "nonsense"})
# With what a server may end that was not killed: another one has the log, or etcd did not answer for its patience.
FAIR = ("34 TakenOver", "31 NotKept", "35 NoEngine")
ENDS_WITHIN = 90


def is_stopped(process):
    """Whether no thread of a process runs any more, which may be some time behind the signal. One that has ended is
    none to stop."""
    states = set()
    for task in os.listdir(f"/proc/{process}/task"):
        with open(f"/proc/{process}/task/{task}/stat", encoding="utf-8") as it:
            states.add(it.read().rpartition(")")[2].split()[0])
    if states & {"Z", "X"}:
        raise ProcessLookupError(process)
    return states == {"T"}


def asked(port, request):
    """A connection on which this was asked."""
    connection = socket.create_connection(("127.0.0.1", port), timeout=ENDS_WITHIN)
    connection.sendall(json.dumps(request).encode() + b"\n")
    return connection


def heard(connection):
    """What came on a connection, to its end."""
    try:
        with connection:
            return connection.recv(1024)
    except OSError:
        return b""


class Server:
    """A `pqd serve`, which stands by, serves, or has ended."""

    def __init__(self, words, port, place, said):
        self.port, self.place, self.said = port, place, said
        self.serves, self.is_killed, self.is_paused = threading.Event(), False, False
        with open(said, "wb") as it:
            self.process = subprocess.Popen(words, stdout=subprocess.PIPE, stderr=it)

    def wait_to_serve(self):
        """Waits until it says that it listens; not if it ends before."""
        if self.process.stdout.readline().startswith(b"listening"):
            self.serves.set()

    def is_there(self):
        """Whether it serves, for all that is known here."""
        return self.serves.is_set() and not self.is_paused and self.process.poll() is None

    def kill(self):
        self.is_killed = True
        self.process.kill()
        self.process.wait()

    def reason(self):
        """Why it ended: the last line that it said."""
        with open(self.said, encoding="utf-8", errors="replace") as it:
            said = it.read().splitlines()
        return said[-1].removeprefix("pqd: ") if said else f"status {self.process.returncode}"


class Servers:
    """As many as there are places, of which one serves."""

    def __init__(self, pqd, journal, folder, clients):
        self.pqd, self.journal, self.folder, self.clients = pqd, journal, folder, clients
        self.ports = free_ports(PLACES)
        self.counts = dict.fromkeys(HARMS, 0)
        self.answered_late = self.questions = self.starts = 0
        # What of those that ended by themselves each said last, and how often.
        self.ends, self.unfair = {}, []
        self.lock, self.is_ended, self.at = threading.RLock(), False, {}
        for place in range(PLACES):
            self.start(place)
        self.watcher = threading.Thread(target=self.watch, daemon=True)
        self.watcher.start()
        self.other_than(None)

    def addresses(self):
        return [f"127.0.0.1:{port}" for port in self.ports]

    def start(self, place, how="--standby"):
        """A server at this place, where there is none."""
        port = self.ports[place]
        # Found by a name, by an address that is given, and where it listens.
        names = (["--announce", f"localhost:{port}"], ["--announce", f"127.0.0.1:{port}"], [])
        words = [self.pqd, "serve", "--port", str(port), "--journal", self.journal, how, "--records", "64",
                 "--clients", str(self.clients), "--workers", "16", "--renew", *names[place]]
        self.starts += 1
        server = Server(words, port, place, f"{self.folder}/said{self.starts}")
        self.at[place] = server
        threading.Thread(target=server.wait_to_serve, daemon=True).start()
        return server

    def other_than(self, server):
        """Waits until another one serves than this, and answers which."""
        until = time.monotonic() + 4 * ENDS_WITHIN
        while time.monotonic() < until:
            with self.lock:
                found = [it for it in self.at.values() if it is not server and it.is_there()]
            if found:
                return found[-1]
            time.sleep(0.02)
        raise RuntimeError("nobody takes the log: " + "; ".join(it.reason() for it in self.at.values()))

    def watch(self):
        """Each that ended begins again."""
        while not self.is_ended:
            time.sleep(0.05)
            with self.lock:
                for place, server in list(self.at.items()):
                    if server.process.poll() is not None and not self.is_ended:
                        self.note_end(server)
                        self.start(place)

    def note_end(self, server):
        if server.is_killed:
            return
        why = server.reason() if server.process.returncode else "in order"
        self.ends[why] = self.ends.get(why, 0) + 1
        if server.process.returncode and why not in FAIR:
            self.unfair.append(why)

    def take_elsewhere(self, server):
        """A server at the next place takes the log at once, and whoever stood by there is killed. It tries until it has
        it: while etcd does not answer, or another one is first, it ends."""
        place = (server.place + 1) % PLACES
        while True:
            with self.lock:
                self.at[place].kill()
                taker = self.start(place, "--take-over")
            while not taker.serves.wait(0.05):
                if taker.process.poll() is not None:
                    break
            if taker.serves.is_set():
                return taker

    def harm(self, kind, draws):
        """The one that serves is killed, or paused, or told to stop, and another one goes on."""
        server = self.other_than(None)
        try:
            getattr(self, kind.replace(" ", "_"))(server, draws)
            self.counts[kind] += 1
        except (ProcessLookupError, FileNotFoundError, ConnectionError):
            # It has ended by itself meanwhile, or else it goes on as one of the others.
            server.is_paused = False

    def killed(self, server, _):
        server.kill()
        self.other_than(server)

    def killed_and_taken(self, server, draws):
        server.kill()
        time.sleep(draws.random() * 1.5)
        self.take_elsewhere(server)

    def stopping(self, server, draws):
        """It is told to stop, and killed while it serves those on who are connected."""
        heard(asked(server.port, {"op": "stop"}))
        time.sleep(draws.random())
        server.kill()
        self.other_than(server)

    def paused(self, server, _):
        """It is paused, another one takes the log, and it wakes up: it may answer nothing, and ends."""
        server.is_paused = True
        os.kill(server.process.pid, signal.SIGSTOP)
        try:
            while not is_stopped(server.process.pid):
                time.sleep(0.001)
            late = [asked(server.port, request) for request in QUESTIONS]
            self.take_elsewhere(server)
        finally:
            os.kill(server.process.pid, signal.SIGCONT)
        self.answered_late += sum(heard(connection) != b"" for connection in late)
        self.questions += len(late)
        try:
            server.process.wait(ENDS_WITHIN)
        except subprocess.TimeoutExpired:
            self.unfair.append("a server that was taken over did not end")
            server.kill()

    def end(self):
        with self.lock:
            self.is_ended = True
            for server in self.at.values():
                server.kill()
        self.watcher.join()

    def said(self):
        harms = ", ".join(f"{name} {count}" for name, count in self.counts.items())
        ends = ", ".join(f"{why} {count}" for why, count in sorted(self.ends.items())) or "none"
        return (f"servers that served: {harms}; {self.starts} starts; ended by themselves: {ends}; "
                f"{self.questions} late questions, answered {self.answered_late}")
