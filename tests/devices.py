"""devices.py WHAT WORD..: devices that a shell cannot make fail, for tests/devices.sh.

cut COMMAND..            runs a command whose input fails behind what is given to it
reset COMMAND..          runs a command whose output is a connection that was reset
nobody COMMAND..         runs a command as a user who has no rights
limited BYTES COMMAND..  runs a command that is ended by the system where it writes more to a file
full BYTES COMMAND..     runs a command whose files are full at so many bytes
connections PORT         connections that are cut off in every way, beside one that is not; it ends with a stop
descriptors PQD          a server that has descriptors for a few connections alone
crowd PQD                a server of as many connections as it takes, and one more
strays PQD               a server that was given no input and no standard error
"""

import json
import os
import pty
import resource
import signal
import socket
import struct
import subprocess
import sys
import tempfile
import time
import tty


def limited(size, command, ignores):
    """Runs it with files of so many bytes at most. A write beyond fails, or ends the process. Answers the status."""
    def prepare():
        signal.signal(signal.SIGXFSZ, signal.SIG_IGN if ignores else signal.SIG_DFL)
        resource.setrlimit(resource.RLIMIT_CORE, (0, 0))
        resource.setrlimit(resource.RLIMIT_FSIZE, (size, size))
    return subprocess.run(command, preexec_fn=prepare, restore_signals=False).returncode


def as_nobody(command):
    return subprocess.run(command, user=65534, group=65534, extra_groups=[]).returncode


def cut(command):
    """Its input is a terminal whose other side is gone: what was sent is read, and then reading fails."""
    near, far = pty.openpty()
    tty.setraw(far)
    os.write(far, sys.stdin.buffer.read())
    os.close(far)
    return subprocess.run(command, stdin=near).returncode


def reset(sock):
    """Ends a connection at once, without a last word."""
    sock.setsockopt(socket.SOL_SOCKET, socket.SO_LINGER, struct.pack("ii", 1, 0))
    sock.close()


def to_reset(command):
    """Its output is a connection whose other side has reset it."""
    listener = socket.create_server(("127.0.0.1", 0))
    ours = socket.create_connection(listener.getsockname())
    theirs, _ = listener.accept()
    reset(ours)
    time.sleep(0.05)
    return subprocess.run(command, stdout=theirs).returncode


class Steady:
    """A connection that nothing happens to: its replies are those of a plain list."""

    def __init__(self, port):
        self.socket = socket.create_connection(("127.0.0.1", port))
        self.replies = self.socket.makefile("rb")
        self.count = 0

    def ask(self, wanted, **request):
        self.socket.sendall(json.dumps(request).encode() + b"\n")
        reply = self.replies.readline()
        if reply != wanted + b"\n":
            print(f"{request} was answered {reply}, and not {wanted}")

    def go_on(self, after):
        """A put and a take. What is in the queue beside is nobody's."""
        self.count += 1
        self.ask(b'{"reply":"done"}', op="put", client=0, queue="a", value=f"{self.count:08x}")
        self.ask(b'{"got":"%08x","reply":"got"}' % self.count, op="take", client=0, queue="a")
        self.ask(b'{"reply":"empty"}', op="take", client=0, queue="a")
        print(f"{after}: the others go on")


def connect(port, sent):
    """A connection that is to be cut off."""
    global cuts
    cuts += 1
    sock = socket.create_connection(("127.0.0.1", port))
    sock.settimeout(20)
    sock.sendall(sent)
    return sock


def read(sock, length):
    """So many bytes, or what comes before the end."""
    got = b""
    while len(got) < length and (part := sock.recv(length - len(got))):
        got += part
    return got


def read_all(sock):
    """What comes to the end."""
    parts = []
    while part := sock.recv(65536):
        parts.append(part)
    sock.close()
    return b"".join(parts)


cuts = 0
PUT = b'{"op":"put","client":1,"queue":"a","value":"4d"}'
LIST = b'{"op":"list"}\n'
LISTED = b'{"queues":[{"kind":"durable","queue":"a"}]}\n'


def cut_lines(port, steady):
    """Connections that end in the middle of a line: what was whole has its reply, and the rest is served or not."""
    reset(connect(port, b""))
    steady.go_on("reset before a line")
    for at in range(1, len(PUT)):
        sock = connect(port, LIST + PUT[:at])
        if read(sock, len(LISTED)) != LISTED:
            print("the whole line has another reply")
        reset(sock)
    steady.go_on(f"reset within a line, at each of {len(PUT) - 1} places")
    sock = connect(port, LIST + PUT[:-1])
    sock.shutdown(socket.SHUT_WR)
    print("closed for sending within a line:", read_all(sock).decode().split())
    steady.go_on("closed for sending within a line")
    sock = connect(port, LIST + LIST[:-1])
    sock.shutdown(socket.SHUT_WR)
    print("closed for sending behind a line:", read_all(sock) == LISTED + LISTED)
    steady.go_on("closed for sending behind a line")


def cut_replies(port, steady):
    """Connections that end while replies are on their way."""
    for length in range(1, len(LISTED)):
        sock = connect(port, LIST * 3)
        read(sock, length)
        reset(sock)
    steady.go_on(f"reset within a reply, at each of {len(LISTED) - 1} places")
    for _ in range(3):
        sock = connect(port, LIST * 3000)
        read(sock, 10)
        reset(sock)
    steady.go_on("reset before 3,000 replies")
    sock = connect(port, b"")
    sock.shutdown(socket.SHUT_RD)
    sock.sendall(LIST * 30)
    sock.shutdown(socket.SHUT_WR)
    sock.close()
    steady.go_on("closed for replies")
    sock = connect(port, LIST * 3000)
    sock.shutdown(socket.SHUT_WR)
    time.sleep(0.2)
    print("replies that are read late:", read_all(sock) == LISTED * 3000)


def connections(port):
    steady = Steady(port)
    steady.ask(b'{"reply":"created","slot":0}', op="create", queue="a", kind="durable")
    steady.go_on("at first")
    cut_lines(port, steady)
    cut_replies(port, steady)
    steady.socket.close()
    steady.replies.close()
    # The stop's own connection is reset within its reply: what was accepted is done.
    sock = connect(port, b'{"op":"stop"}\n')
    print("stop:", read(sock, 5).decode())
    reset(sock)
    print(f"cut off: {cuts}")
    return 0


def is_answered(sock, seconds):
    """Whether a reply comes in time."""
    sock.settimeout(seconds)
    try:
        return sock.recv(100) == b'{"queues":[]}\n'
    except TimeoutError:
        return False


def serving(pqd, prepare, play, warned=subprocess.DEVNULL):
    """Plays with the port of a server that began as it was prepared, and answers its status."""
    command = [pqd, "serve", "--port", "0", "--workers", "8"]
    server = subprocess.Popen(command, stdout=subprocess.PIPE, stderr=warned, preexec_fn=prepare)
    try:
        play(int(server.stdout.readline().rsplit(b":", 1)[1]))
        return server.wait(20)
    finally:
        server.kill()


def descriptors(port):
    """Where none is left a connection waits for the end of another one, and the others go on; a stop is a stop."""
    socks = [connect(port, LIST)]
    while len(socks) < 9 and is_answered(socks[-1], 1):
        socks.append(connect(port, LIST))
    print("one waits:", 2 < len(socks) < 9)
    socks[0].close()
    print("it is served once another one has ended:", is_answered(socks[-1], 20))
    waiting = connect(port, LIST)
    socks[1].sendall(LIST)
    print("the others go on:", is_answered(socks[1], 20))
    socks[1].sendall(b'{"op":"stop"}\n')
    print("stop:", read(socks[1], 21).decode().strip())
    for sock in [*socks[1:], waiting]:
        sock.close()


def with_few_descriptors(pqd):
    """It warns once when no more can be opened, and not at each of the hundred tries a second that fail then."""
    few = lambda: resource.setrlimit(resource.RLIMIT_NOFILE, (25, 25))
    with tempfile.TemporaryFile() as warned:
        status = serving(pqd, few, descriptors, warned)
        warned.seek(0)
        print("few warnings:", warned.read().count(b"could not be taken") in range(1, 5))
    return status


def admitted(port):
    """A connection that is not told Full, nor anything else."""
    for _ in range(200):
        sock = connect(port, b"")
        sock.settimeout(0.2)
        try:
            sock.recv(100)
        except TimeoutError:
            return sock
    raise TimeoutError


def crowd(port):
    """As many connections as there may be, of which one speaks; and one more."""
    silent = [socket.create_connection(("127.0.0.1", port)) for _ in range(1022)]
    half = connect(port, LIST[:5])
    speaks = connect(port, LIST)
    print("silent ones keep nobody:", is_answered(speaks, 20))
    half.sendall(LIST[5:])
    print("half a line keeps nobody, and is served once it is whole:", is_answered(half, 20))
    print("one too many:", read(connect(port, b""), 27).decode().strip())
    silent.pop().close()
    after = admitted(port)
    after.sendall(LIST)
    print("one has ended, and another one is served:", is_answered(after, 20))
    speaks.sendall(b'{"op":"stop"}\n')
    print("stop:", read(speaks, 21).decode().strip())
    for sock in [*silent, half, speaks, after]:
        sock.close()


def with_a_crowd(pqd):
    most = resource.getrlimit(resource.RLIMIT_NOFILE)[1]
    many = lambda: resource.setrlimit(resource.RLIMIT_NOFILE, (min(most, 2048), most))
    many()
    return serving(pqd, many, crowd)


def without_places():
    """No standard input, and no standard error."""
    os.close(0)
    os.close(2)


def strays(port):
    """No connection is sent the warnings of another one."""
    first = connect(port, LIST)
    print("the first one is answered:", is_answered(first, 20))
    for _ in range(5):
        other = connect(port, LIST + LIST[:3])
        is_answered(other, 20)
        reset(other)
    first.sendall(LIST + b'{"op":"stop"}\n')
    first.shutdown(socket.SHUT_WR)
    print(read_all(first).decode().split("\n"))


def main(what, *words):
    if what == "strays":
        return serving(words[0], without_places, strays)
    if what == "connections":
        return connections(int(words[0]))
    if what == "crowd":
        return with_a_crowd(words[0])
    if what == "descriptors":
        return with_few_descriptors(words[0])
    if what in ("limited", "full"):
        return limited(int(words[0]), words[1:], what == "full")
    return {"cut": cut, "reset": to_reset, "nobody": as_nobody}[what](words)


if __name__ == "__main__":
    status = main(*sys.argv[1:])
    # A process that a signal ended has the status that a shell gives it.
    sys.exit(status if status >= 0 else 128 - status)
