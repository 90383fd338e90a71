"""Relays before the ports of members, which part a member from the others, or from who asks: what goes through is held
back, or every connection ends."""
import re
import socket
import threading
import time

from ports import Port

SENDER = re.compile(rb"\r\nX-Server-From: ([0-9a-f]+)\r\n", re.I)
MOST_HEAD_BYTES = 65_536


def head_of(connection):
    """What came up to the end of the first request's head."""
    text = b""
    while b"\r\n\r\n" not in text and len(text) < MOST_HEAD_BYTES:
        data = connection.recv(4096)
        if not data:
            break
        text += data
    return text


class Partings:
    """Who is parted from whom: names of members, and None of who asks them."""

    def __init__(self):
        self.lock, self.parted, self.holds = threading.Lock(), set(), True

    def part(self, name, holds):
        """This one is parted from all: what is sent is held back, or connections end."""
        with self.lock:
            self.parted, self.holds = {name}, holds

    def heal(self):
        with self.lock:
            self.parted = set()

    def between(self, one, other):
        """Whether they are parted, and whether what is sent is held back then."""
        with self.lock:
            return bool({one, other} & self.parted), self.holds


class Relay(Port):
    """A port that leads to a member's. Members say in their requests' heads who they are: `names` has whose a number
    is."""

    def __init__(self, partings, name, port, names):
        self.partings, self.name, self.target, self.names = partings, name, port, names
        super().__init__()

    def may_pass(self, sender):
        """Waits while what is sent is held back. Whether the connection goes on."""
        while True:
            parted, holds = self.partings.between(self.name, sender)
            if not parted or not holds:
                return not parted
            time.sleep(0.02)

    def talk(self, connection):
        try:
            with connection:
                head = head_of(connection)
                said = SENDER.search(head)
                sender = self.names.get(said[1].decode()) if said else None
                if not head or not self.may_pass(sender):
                    return
                with socket.create_connection(("127.0.0.1", self.target), timeout=5) as member:
                    member.settimeout(None)
                    member.sendall(head)
                    back = threading.Thread(target=self.pump, args=(member, connection, sender), daemon=True)
                    back.start()
                    self.pump(connection, member, sender)
                    back.join()
        except OSError:
            pass

    def pump(self, source, target, sender):
        """Hands on what comes, until either side ends or the two are parted."""
        try:
            while (data := source.recv(65_536)) and self.may_pass(sender):
                target.sendall(data)
        except OSError:
            pass
        for it in source, target:
            try:
                it.shutdown(socket.SHUT_RDWR)
            except OSError:
                pass
