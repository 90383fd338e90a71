"""kill_journal.py PQD PQX LIBRARY MINUTES: what bench/kill.sh --journal does. LIBRARY is tests/killing.c, built."""

import os
import random
import resource
import select
import signal
import subprocess
import sys
import time
from collections import Counter
from pathlib import Path

sys.path.insert(1, str(Path(__file__).parent.parent / "plain"))

import image
import journal
import load
import orders
from kill import Killed, live, play, told_of
from layout import block_size
from load import CLIENTS, PLAYERS, Connection, Different, Server
from power import Disk, left
from resending import Resending

RECORDS = int(os.environ.get("RECORDS", 64))
TURNS = 12
POLICIES = ["always", "second", "never"]
# The bytes of a journal's head, and the least that a frame has in which a queue is renewed.
HEAD = journal.HEAD + 8 * (34 + 8 * block_size(CLIENTS, RECORDS))
RENEWAL = 2000
# How far a journal grows before it is full, and goes on as a shorter one: without renewals, and with them.
GROWTH = {False: 20000, True: 3 * journal.CHANGE * block_size(CLIENTS, RECORDS)}
# The moments of the library within a compaction, and those about a frame in which a queue is renewed.
COMPACTING = ["open", "after-open", "fdatasync", "after-fdatasync", "rename", "after-rename", "fsync", "after-fsync"]
WRITING = ["write", "within-write", "after-write"]


class Life(Killed):
    """A broker's life over kills and stops, in a journal."""

    def __init__(self, pqd, pqx, library, folder, pool):
        super().__init__(pqd, folder, pool, [Resending(client) for client in range(PLAYERS)], play)
        self.pqx = pqx
        self.library = library
        self.journal = f"{folder}/journal"
        self.told = f"{folder}/told"
        self.crashes = []
        self.begin_time = 0.1
        self.begin("kill")
        load.create_queues(self.server.port)

    def started(self, most, **killed):
        """How a server is begun whose files are full at so many bytes, and which is killed so."""
        def prepare():
            signal.signal(signal.SIGXFSZ, signal.SIG_IGN)
            resource.setrlimit(resource.RLIMIT_FSIZE, (most, most))
        Path(self.told).unlink(missing_ok=True)
        environment = {**os.environ, "LD_PRELOAD": self.library, "KEPT": "1", "SYNCED": self.told, **killed}
        how = {"env": environment, "preexec_fn": prepare, "restore_signals": False}
        return {**how, "stderr": subprocess.DEVNULL}

    def moment(self, how):
        """When the library kills the server, if it does."""
        if how == "compaction":
            if random.random() < 0.3:
                return {"KILLED": random.choice(WRITING), "LEAST": str(HEAD), "TURN": str(random.randint(2, 4))}
            return {"KILLED": random.choice(COMPACTING), "TURN": str(random.randint(2, 4))}
        if how == "renewal":
            return {"KILLED": random.choice(WRITING), "LEAST": str(RENEWAL), "TURN": str(random.randint(2, 12))}
        if how == "start":
            return {"KILLED": random.choice(COMPACTING + WRITING), "TURN": "1"}
        return {}

    def begin(self, how):
        """A server that begins on the journal, for a turn of this kind. The last one renews, so that all can be taken."""
        renews = how in ("renewal", "last") or random.random() < 0.5
        most = HEAD + GROWTH[renews] if how in ("compaction", "full") else resource.RLIM_INFINITY
        self.policy = random.choice(POLICIES)
        options = ["--journal", self.journal, "--sync", self.policy, *(["--renew"] if renews else [])]
        begin = time.monotonic()
        self.server = Server(self.pqd, self.image, RECORDS, options, **self.started(most, **self.moment(how)))
        self.begin_time = time.monotonic() - begin
        self.count_torn()
        if renews:
            for player in self.players:
                player.open = sorted(load.KINDS)

    def count_torn(self):
        """Whether a torn frame was left out."""
        torn = Path(self.journal + ".torn")
        if torn.exists():
            torn.unlink()
            self.seen["torn frames left out"] += 1

    def kill_within_start(self):
        """At a moment of the library, or after a while that no start takes much longer than."""
        words = [self.pqd, "serve", "--clients", str(CLIENTS), "--records", str(RECORDS), "--port", "0"]
        self.policy = random.choice(POLICIES)
        words += ["--journal", self.journal, "--sync", self.policy]
        words += ["--renew"] if random.random() < 0.5 else []
        killed = self.moment("start") if random.random() < 0.5 else {}
        started = self.started(resource.RLIM_INFINITY, **killed)
        process = subprocess.Popen(words, stdout=subprocess.PIPE, **started)
        if killed:
            process.wait(60)
        else:
            time.sleep(random.uniform(0, 1.1) * self.begin_time)
        process.kill()
        said = process.communicate()[0]
        self.seen["kills right after a start" if said else "kills within a start"] += 1
        self.lose_power()

    def lose_power(self):
        """Now and then the kill is a loss of power, where all that was answered is synced."""
        if self.policy != "always" or random.random() < 0.5:
            return
        disk = Disk(self.journal, self.told)
        kept = random.choice(list(disk.journals()))
        if kept != disk.found(""):
            # The renaming is undone.
            os.replace(f"{self.journal}.{disk.renamed}", self.journal)
        data = random.choice(list(left(random, *kept)))
        Path(self.journal).write_bytes(data)
        self.seen["losses of power"] += 1

    def kill_at_moment(self, how, seconds=3):
        """The library kills the server at its moment; else it is killed now."""
        try:
            self.server.process.wait(seconds)
            self.server.process.stdout.close()
            self.seen[f"kills within a {how}"] += 1
        except subprocess.TimeoutExpired:
            self.kill()
        if self.server.process.returncode != -signal.SIGKILL:
            raise Different(f"the server ended with status {self.server.process.returncode}")

    def kill_within_recovery(self, seconds):
        """The broker stops and recovers, while all call, and is killed meanwhile or soon after."""
        time.sleep(seconds)
        connection = Connection(self.server.port)
        connection.ask(op="crash")
        connection.socket.sendall(b'{"op":"recover"}\n')
        time.sleep(10 ** random.uniform(-5, -2))
        is_ready = bool(select.select([connection.socket], [], [], 0)[0])
        self.end_server()
        self.seen["kills right after a recovery" if is_ready else "kills within a recovery"] += 1
        connection.close()

    def stop(self):
        """An orderly stop: the journal leaves the words of the image."""
        self.server.stop()
        self.seen["stops"] += 1
        data = Path(self.journal).read_bytes()
        _, words, cut = journal.reading(data)
        if journal.torn(data, cut) != 0 or words != image.words_of(Path(self.image).read_bytes()):
            raise Different("at a stop the journal leaves other words than the image")

    def check(self):
        """What each client is told, before anybody calls."""
        connection = Connection(self.server.port)
        for player in self.players:
            player.check_told(connection)
        connection.close()

    def turn(self, how, following):
        """The server that was begun for a turn of this kind, to its end, and the beginning of the following one."""
        seconds = random.uniform(0.02, 0.5)
        if how in ("compaction", "renewal"):
            self.play(seconds, lambda _: self.kill_at_moment(how))
        elif how == "recovery":
            self.play(seconds, self.kill_within_recovery)
        else:
            self.play(seconds, self.kill if how == "kill" else None)
        if how in ("stop", "full"):
            self.stop()
        else:
            self.crashes.append(time.monotonic_ns())
            self.lose_power()
        while random.random() < 0.3:
            self.kill_within_start()
        self.begin(following)
        self.check()

    def run(self, until):
        how = "kill"
        for _ in range(TURNS):
            if time.monotonic() > until or not all(player.open for player in self.players):
                break
            following = random.choice(["kill", "kill", "stop", "full", "recovery", "compaction", "renewal"])
            self.turn(how, following)
            how = following
        self.end_server()
        self.crashes.append(time.monotonic_ns())
        self.begin("last")
        return self.ended()

    def ended(self):
        """All is taken that is left, and each queue's history is explained, by the journal's order too."""
        self.check()
        connection = Connection(self.server.port)
        for player in self.players:
            player.resolve(connection)
        connection.close()
        drainers = load.drain(self.server.port)
        self.stop()
        load.check(self.players + drainers)
        files = orders.files_of(self.journal)
        self.seen["files of journals"] += len(files)
        self.seen["effects in their order"] += orders.check_order(self.players + drainers, files)
        self.seen["lines of recordings"] += orders.check_recordings(self.pqx, self.players, drainers, self.crashes)
        return self.seen + sum((player.seen for player in self.players), Counter())


def main(pqd, pqx, library, minutes):
    orders.test()
    live(
        lambda folder, pool: Life(pqd, pqx, library, folder, pool),
        minutes,
        "acknowledged and lost 0, doubled 0, each kept reply the same; the order of the journal's files explains each\n"
        "queue's history over all kills, and `pqx check` explains its recording",
    )


if __name__ == "__main__":
    told_of(main)
