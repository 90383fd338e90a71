#!/usr/bin/env python3
"""Servers over one log, which take it over from each other while clients put and take, and what these were told.

  python3 story.py PQD PQX plain|etcd [SECONDS [SEED]]

`plain` has its engine from engine.py, whose exchanges go wrong by drawn faults. `etcd` has three members of etcd, which
are killed, stopped and parted, and lose their folders, beside the servers. One server serves, and two stand by. It is
killed (`kill -9`), also while it stops, or paused (SIGSTOP), taken over and woken up: then it may answer nothing. Each
client sends a number until it is answered, at whichever address. At the end all that is left is taken, each value that
was acknowledged was taken once, and `pqx check` explains the recording.
"""
import os
import random
import subprocess
import sys
import tempfile
import threading
import time

TOP = os.path.dirname(os.path.dirname(os.path.dirname(os.path.abspath(__file__))))
sys.path[:0] = [f"{TOP}/clients/python", f"{TOP}/examples", os.path.dirname(os.path.abspath(__file__))]
sys.dont_write_bytecode = True
import engine
import members
import servers
from recorder import Recorder
from wistaku import Broker, Refused

CLIENTS = 8
# For how many seconds a client sends a call again. None is to be left in doubt.
PATIENCE = 600
# After how many seconds it says each time how far it is.
SAYS_EACH = 300


class Load:
    """Clients that put and take, and what they were answered."""

    def __init__(self, servers, seed):
        self.servers, self.random = servers, random.Random(seed)
        self.enough, self.recorder, self.lock = threading.Event(), Recorder(), threading.Lock()
        self.put, self.taken, self.failures = [], [], []

    def work(self, client, seed):
        draws = random.Random(seed)
        try:
            with Broker(self.servers.addresses(), client=client, patience=PATIENCE) as broker:
                queue = broker.log("jobs", last=0)
                while not self.enough.is_set():
                    self.act(client, queue, draws)
        except Exception as error:
            self.failures.append(f"client {client}: {type(error).__name__}: {error}")
            print(self.failures[-1], flush=True)

    def act(self, client, queue, draws):
        if draws.random() < 0.5:
            value = draws.getrandbits(63).to_bytes(8, "big")
            try:
                self.recorder.put(str(client), value.hex(), lambda: queue.put(value))
                self.put.append(value)
            except Refused:
                self.recorder.refused(str(client))
        else:
            found = self.recorder.take(str(client), lambda: hexed(queue.take()))
            if found is not None:
                self.taken.append(bytes.fromhex(found))

    def begin(self):
        self.threads = [threading.Thread(target=self.work, args=(client, self.random.getrandbits(64)))
                        for client in range(CLIENTS)]
        for thread in self.threads:
            thread.start()

    def end(self):
        self.enough.set()
        for thread in self.threads:
            thread.join()

    def drain(self):
        with Broker(self.servers.addresses(), client=CLIENTS, patience=PATIENCE) as broker:
            queue = broker.log("jobs", last=0)
            while (found := self.recorder.take(str(CLIENTS), lambda: hexed(queue.take()))) is not None:
                self.taken.append(bytes.fromhex(found))


def hexed(value):
    return None if value is None else value.hex()


def differences(load):
    """What was acknowledged and is lost, and what was taken twice or never put."""
    lost = set(load.put) - set(load.taken)
    doubled = len(load.taken) - len(set(load.taken))
    unknown = set(load.taken) - set(load.put)
    return {"lost": len(lost), "doubled": doubled, "of nobody": len(unknown)}


def explained(pqx, load, folder):
    """What `pqx check` says of the recording."""
    with open(f"{folder}/recording", "w+", encoding="utf-8") as it:
        load.recorder.write(it)
        it.seek(0)
        said = subprocess.run([pqx, "check"], stdin=it, capture_output=True, text=True)
    return said.returncode, said.stdout.splitlines()[:1] or said.stderr.splitlines()[-1:]


class Harms:
    """What happens, in a drawn order in which each kind comes before any comes again."""

    def __init__(self, kinds, harm, draws, until, failures):
        self.kinds, self.harm, self.draws, self.until, self.failures = kinds, harm, draws, until, failures
        self.thread = threading.Thread(target=self.work)
        self.thread.start()

    def work(self):
        left = []
        try:
            while not self.until():
                time.sleep(0.1 + self.draws.random())
                left = left or self.draws.sample(self.kinds, len(self.kinds))
                self.harm(left.pop(), self.draws)
        except Exception as error:
            self.failures.append(f"{type(error).__name__}: {error}")
            print(self.failures[-1], flush=True)


def harmed(all_servers, place, load, seconds, seed):
    """For so long servers and members are harmed. What failed of that."""
    begun, said, failures = time.monotonic(), 0, []

    def is_over():
        return time.monotonic() - begun >= seconds or bool(load.failures or failures)
    kinds = ((servers.HARMS, all_servers.harm), (place.harms, place.harm))
    harms = [Harms(list(names), harm, random.Random(seed + at), is_over, failures)
             for at, (names, harm) in enumerate(kinds) if names]
    while not is_over():
        time.sleep(0.2)
        if time.monotonic() - begun >= (said + 1) * SAYS_EACH:
            said += 1
            print(f"{said * SAYS_EACH} s: {len(load.put)} puts; {all_servers.said()}; {place.said()}", flush=True)
    for it in harms:
        it.thread.join()
    return failures


def played(all_servers, pqx, place, seconds, seed, folder):
    with Broker(all_servers.addresses(), client=0, patience=PATIENCE) as broker:
        broker.log("jobs", create=True)
    # While nobody calls, nothing that an owner of the past appends is refused, so a question alone can find out.
    all_servers.harm("paused", random.Random(seed))
    load = Load(all_servers, seed)
    load.begin()
    failures = harmed(all_servers, place, load, seconds, seed)
    place.heal()
    load.end()
    load.drain()
    all_servers.harm("paused", random.Random(seed))
    found = differences(load)
    status, verdict = explained(pqx, load, folder)
    failures += load.failures + all_servers.unfair
    print(f"{len(load.put)} puts acknowledged, {len(load.taken)} values taken;",
          ", ".join(f"{name} {count}" for name, count in found.items()))
    print(all_servers.said(), place.said(), sep="\n")
    print("pqx check:", *verdict)
    print(*all_servers.unfair, sep="\n", end="\n" if all_servers.unfair else "")
    return 1 if any(found.values()) or status or all_servers.answered_late or failures else 0


class Plain:
    """The plain engine, at three ports."""

    harms = ()

    def __init__(self, seed):
        self.faults = engine.Drawn(seed, 8)
        log = engine.Engine()
        self.members = [engine.Server(log, self.faults) for _ in range(3)]
        ports = ",".join(f"127.0.0.1:{it.port}" for it in self.members)
        self.journal = f"etcd://{ports}/test/story"

    def harm(self, kind, draws):
        pass

    def heal(self):
        self.faults.share = 0

    def said(self):
        return "exchanges: " + ", ".join(f"{name} {count}" for name, count in sorted(self.faults.counts.items()))

    def end(self):
        pass


def main(pqd, pqx, kind, seconds="15", seed="1"):
    with tempfile.TemporaryDirectory() as folder:
        place = Plain(int(seed)) if kind == "plain" else members.Members(folder)
        try:
            all_servers = servers.Servers(pqd, place.journal, folder, CLIENTS + 1)
            try:
                return played(all_servers, pqx, place, float(seconds), int(seed), folder)
            finally:
                all_servers.end()
        finally:
            place.end()


if __name__ == "__main__":
    sys.exit(main(*sys.argv[1:]))
