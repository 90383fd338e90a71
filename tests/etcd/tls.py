#!/usr/bin/env python3
"""A log in three members of etcd that are asked by TLS alone, also by each other, and want certificates, through
examples/stunnel/etcd.conf.

  python3 tls.py PQD          a line for each case: its name, a tab, and what is wrong, or nothing
"""
import contextlib
import os
import re
import subprocess
import sys
import tempfile
import time

sys.dont_write_bytecode = True
sys.path[:0] = [os.path.dirname(os.path.dirname(os.path.abspath(__file__))), os.path.dirname(os.path.abspath(__file__))]
from journal_story import PQD, STORY, Broker, resend
from ports import free_ports

TOP = os.path.dirname(os.path.dirname(os.path.dirname(os.path.abspath(__file__))))
QUIET = {"stdout": subprocess.DEVNULL, "stderr": subprocess.DEVNULL}


def certified(folder, name, authority):
    """A key, and a certificate of this authority, for 127.0.0.1."""
    def ran(*words):
        subprocess.run(["openssl", *words], cwd=folder, check=True, **QUIET)
    if not os.path.exists(f"{folder}/{authority}.pem"):
        ran("req", "-x509", "-newkey", "rsa:2048", "-nodes", "-keyout", f"{authority}.key", "-out", f"{authority}.pem",
            "-subj", f"/CN={authority}", "-days", "2")
    with open(f"{folder}/{name}.ext", "w", encoding="utf-8") as it:
        it.write("subjectAltName=IP:127.0.0.1\nextendedKeyUsage=serverAuth,clientAuth\n")
    ran("req", "-newkey", "rsa:2048", "-nodes", "-keyout", f"{name}.key", "-out", f"{name}.csr", "-subj", f"/CN={name}")
    ran("x509", "-req", "-in", f"{name}.csr", "-CA", f"{authority}.pem", "-CAkey", f"{authority}.key", "-CAcreateserial",
        "-days", "2", "-extfile", f"{name}.ext", "-out", f"{name}.pem")


@contextlib.contextmanager
def running(*words, folder):
    process = subprocess.Popen(words, cwd=folder, **QUIET)
    try:
        yield process
    finally:
        process.kill()
        process.wait()


def member(folder, at, clients, peers):
    """A member that answers who has a certificate of the authority."""
    client, peer = f"https://127.0.0.1:{clients[at]}", f"https://127.0.0.1:{peers[at]}"
    return running(
        "etcd", "--name", f"m{at}", "--data-dir", f"data{at}", "--listen-client-urls", client,
        "--advertise-client-urls", client, "--listen-peer-urls", peer, "--initial-advertise-peer-urls", peer,
        "--initial-cluster", ",".join(f"m{it}=https://127.0.0.1:{port}" for it, port in enumerate(peers)), "--pre-vote",
        "--cert-file", "member.pem", "--key-file", "member.key", "--client-cert-auth", "--trusted-ca-file", "ca.pem",
        "--peer-cert-file", "member.pem", "--peer-key-file", "member.key", "--peer-client-cert-auth",
        "--peer-trusted-ca-file", "ca.pem", "--logger", "zap", "--log-outputs", f"log{at}", folder=folder)


def tunnel(folder, ports, clients, **files):
    """The tunnel as the example has it, at these ports to those, with other files in the place of some."""
    with open(f"{TOP}/examples/stunnel/etcd.conf", encoding="utf-8") as it:
        text = it.read()
    for at in range(3):
        text = text.replace(f"127.0.0.1:{2381 + at}\n", f"127.0.0.1:{ports[at]}\n")
        text = text.replace(f"10.0.0.{1 + at}:2379", f"127.0.0.1:{clients[at]}")
    text = re.sub(r"checkIP = .*", "checkIP = 127.0.0.1", text)
    text = re.sub(r"/etc/stunnel/(\w+)\.(\w+)", lambda it: f"{folder}/{files.get(it[1], it[1])}.{it[2]}", text)
    with open(f"{folder}/tunnel.conf", "w", encoding="utf-8") as it:
        it.write(text)
    return running("stunnel4", "tunnel.conf", folder=folder)


def served(journal):
    """The story, by a server that is killed at its end, and its last request once more at another one. What is wrong."""
    until, at = time.monotonic() + 60, 0
    # (no member answers yet, perhaps)
    while at == 0 and time.monotonic() < until:
        broker = Broker(journal)
        at = broker.play(0)
        broker.process.kill()
        broker.end()
    if at < len(STORY):
        return f"{at} requests were answered"
    broker = Broker(journal)
    resend(broker, len(STORY) - 1)
    status, said = broker.end()
    return "" if status == 0 else f"status {status}: {said}"


def refused(journal):
    """No member answers. What is wrong."""
    words = [PQD, "pipe", "--journal", journal, "--patience", "2"]
    ran = subprocess.run(words, stdin=subprocess.DEVNULL, capture_output=True, text=True)
    return "" if (ran.returncode, ran.stderr) == (1, "pqd: 35 NoEngine\n") else f"status {ran.returncode}: {ran.stderr}"


def main():
    with tempfile.TemporaryDirectory() as folder:
        ports = free_ports(9)
        ports, clients, peers = ports[:3], ports[3:6], ports[6:]
        for name, authority in ("member", "ca"), ("pqd", "ca"), ("stranger", "other"):
            certified(folder, name, authority)
        journal = "etcd://" + ",".join(f"127.0.0.1:{port}" for port in ports) + "/test/tls"
        with contextlib.ExitStack() as members:
            for at in range(3):
                members.enter_context(member(folder, at, clients, peers))
            with tunnel(folder, ports, clients):
                print("TLS: served", served(journal), sep="\t")
            with tunnel(folder, ports, clients, pqd="stranger"):
                print("TLS: a client of another authority", refused(journal), sep="\t")
            with tunnel(folder, ports, clients, ca="other"):
                print("TLS: a member of another authority", refused(journal), sep="\t")


if __name__ == "__main__":
    main()
