"""Three members of etcd on this machine, which are killed, stopped and parted, and lose their folders."""
import json
import os
import shutil
import signal
import subprocess
import time
import urllib.error
import urllib.request

from ports import free_ports
from relays import Partings, Relay

HARMS = ("killed", "stopped", "parted", "cut off", "most killed", "all killed", "emptied")


def asked(port, path, request, timeout=5):
    """What the member at this port answers."""
    message = urllib.request.Request(f"http://127.0.0.1:{port}{path}", json.dumps(request).encode())
    with urllib.request.urlopen(message, timeout=timeout) as answer:
        return json.load(answer)


class Members:
    """Three members, as etcd's own command starts them. Each other, and who asks, reach them by relays alone, if there
    are any."""

    harms = HARMS

    def __init__(self, folder, has_relays=True):
        self.folder, self.processes, self.names = folder, {}, {}
        self.counts = dict.fromkeys(HARMS, 0)
        self.partings, self.relays = Partings(), []
        ports = free_ports(6)
        self.clients, self.peers = ports[:3], ports[3:]
        self.asked_at, self.known_at = list(self.clients), list(self.peers)
        if has_relays:
            self.begin_relays()
        self.addresses = ",".join(f"127.0.0.1:{port}" for port in self.asked_at)
        self.journal = f"etcd://{self.addresses}/test/story"
        for name in range(3):
            self.start(name)
        self.wait()

    def begin_relays(self):
        clients = [Relay(self.partings, name, port, {}) for name, port in enumerate(self.clients)]
        peers = [Relay(self.partings, name, port, self.names) for name, port in enumerate(self.peers)]
        self.asked_at, self.known_at = [it.port for it in clients], [it.port for it in peers]
        self.relays = clients + peers

    def peer_address(self, name):
        return f"http://127.0.0.1:{self.known_at[name]}"

    def start(self, name, state="new"):
        client = f"http://127.0.0.1:{self.clients[name]}"
        all_peers = ",".join(f"m{it}={self.peer_address(it)}" for it in range(3))
        words = {"name": f"m{name}", "data-dir": f"{self.folder}/data{name}", "listen-client-urls": client,
                 "advertise-client-urls": client, "listen-peer-urls": f"http://127.0.0.1:{self.peers[name]}",
                 "initial-advertise-peer-urls": self.peer_address(name), "initial-cluster": all_peers,
                 "initial-cluster-token": "story", "initial-cluster-state": state, "logger": "zap",
                 "log-outputs": f"{self.folder}/log{name}", "auto-compaction-mode": "revision",
                 "auto-compaction-retention": "1000"}
        command = ["etcd", *(f"--{word}={value}" for word, value in words.items()), "--pre-vote"]
        quiet = {"stdout": subprocess.DEVNULL, "stderr": subprocess.DEVNULL}
        self.processes[name] = subprocess.Popen(command, **quiet)

    def answers(self, name):
        """Whether a member knows what was answered last, which it has to ask a majority for."""
        try:
            asked(self.clients[name], "/v3/kv/range", {"key": "YQ=="})
            return True
        except (OSError, ValueError):
            return False

    def wait(self, seconds=600):
        """Until each of them answers. Whether it does."""
        until = time.monotonic() + seconds
        while time.monotonic() < until:
            if all(self.answers(name) for name in range(3)):
                self.learn_names()
                return True
            time.sleep(0.2)
        return False

    def listed(self):
        return asked(self.clients[0], "/v3/cluster/member/list", {})["members"]

    def learn_names(self):
        """Whose the numbers are by which members call themselves."""
        ports = {port: name for name, port in enumerate(self.known_at)}
        for it in self.listed():
            self.names[f"{int(it['ID']):x}"] = ports[int(it["peerURLs"][0].rsplit(":", 1)[1])]

    def kill(self, name):
        self.processes[name].kill()
        self.processes[name].wait()

    def harm(self, kind, draws):
        """Something happens to one of them, or to more."""
        if getattr(self, kind.replace(" ", "_"))(draws.randrange(3), draws) is not False:
            self.counts[kind] += 1

    def killed(self, name, draws):
        self.kill(name)
        time.sleep(draws.random())
        self.start(name)

    def stopped(self, name, draws):
        os.kill(self.processes[name].pid, signal.SIGSTOP)
        time.sleep(draws.random() * 3)
        os.kill(self.processes[name].pid, signal.SIGCONT)

    def parted(self, name, draws):
        """What is sent to one and what it sends is held back."""
        self.partings.part(name, holds=True)
        time.sleep(draws.random() * 4)
        self.partings.heal()

    def cut_off(self, name, draws):
        """All connections of one end, and none is made."""
        self.partings.part(name, holds=False)
        time.sleep(draws.random() * 4)
        self.partings.heal()

    def most_killed(self, name, draws):
        others = [it for it in range(3) if it != name]
        for it in others:
            self.kill(it)
        time.sleep(draws.random())
        for it in others:
            self.start(it)

    def all_killed(self, _, draws):
        for it in range(3):
            self.kill(it)
        time.sleep(draws.random())
        for it in range(3):
            self.start(it)

    def emptied(self, name, _):
        """The folder of one is lost. It leaves, and another one comes in its place, with nothing."""
        if not self.wait(60):
            return False
        found = [it["ID"] for it in self.listed() if it.get("name") == f"m{name}"]
        if not found:
            return False
        self.kill(name)
        shutil.rmtree(f"{self.folder}/data{name}")
        other = self.clients[(name + 1) % 3]
        until_done(lambda: asked(other, "/v3/cluster/member/remove", {"ID": found[0]}), "404")
        until_done(lambda: asked(other, "/v3/cluster/member/add", {"peerURLs": [self.peer_address(name)]}), "exists")
        self.start(name, "existing")
        if not self.wait():
            raise RuntimeError(f"member {name}, begun anew, does not answer: {self.why(name)}")
        return True

    def why(self, name):
        """What is known of a member that does not answer: its status, if it has ended, and what it said last."""
        with open(f"{self.folder}/log{name}", encoding="utf-8", errors="replace") as it:
            return f"status {self.processes[name].poll()}; {it.readlines()[-1:]}"

    def heal(self):
        self.partings.heal()
        self.wait()

    def said(self):
        return "members of etcd: " + ", ".join(f"{name} {count}" for name, count in self.counts.items())

    def end(self):
        for process in self.processes.values():
            process.kill()
            process.wait()
        for it in self.relays:
            it.end()


def until_done(call, done):
    """Calls until it is answered, or with an error that says that it was done before."""
    for _ in range(200):
        try:
            return call()
        except urllib.error.HTTPError as error:
            text = error.read().decode(errors="replace")
            if done in text or done in str(error.code):
                return None
        except OSError:
            pass
        time.sleep(0.2)
    raise RuntimeError(f"etcd does not answer: {call}")
