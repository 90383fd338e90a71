"""The connection to a broker: its addresses, tried in turn, and lines of JSON with one reply each, in their order."""

from __future__ import annotations

import io
import json
import socket
import time
from typing import Any, BinaryIO, Dict, Sequence

from .errors import RETRIED, Denied, Unreachable, WistakuError, refusal

Request = Dict[str, Any]
Reply = Dict[str, Any]
# The longest rest between two tries, in seconds: each is twice the one before.
LONGEST_REST = 1.0


class Lost(WistakuError):
    """The connection is gone, or a reply did not come in time."""


def line_of(request: Request) -> bytes:
    return json.dumps(request, separators=(",", ":"), ensure_ascii=False).encode() + b"\n"


class Patience:
    """How long something is tried again, and how long the rests between the tries are."""

    def __init__(self, rest: float, patience: float | None) -> None:
        self.pause = rest
        self.until = None if patience is None else time.monotonic() + patience

    def rest(self) -> bool:
        """Rests; False where the time is over."""
        if self.until is not None and time.monotonic() + self.pause > self.until:
            return False
        time.sleep(self.pause)
        self.pause = min(2 * self.pause, LONGEST_REST)
        return True


class Link:
    """At most one connection, to the address that is tried now. A failure of it is `Lost`; then the next one is."""

    def __init__(self, addresses: Sequence[str], secret: str | None, timeout: float) -> None:
        self.addresses = [self.parted(it) for it in addresses]
        if not self.addresses:
            raise ValueError("a broker has one address at least")
        self.secret, self.timeout = secret, timeout
        self.at = 0
        self.socket: socket.socket | None = None
        self.replies: BinaryIO = io.BytesIO()
        # How many replies are still to come on this connection.
        self.unread = 0
        self.is_closed = False

    @staticmethod
    def parted(address: str) -> tuple[str, int]:
        host, colon, port = address.rpartition(":")
        if not colon or not port.isdecimal():
            raise ValueError(f"an address is 'host:port', and not {address!r}")
        return host, int(port)

    def open(self) -> None:
        """Sees to it that there is a connection, which has said the secret: to each address in turn, once.

        One on which replies were left, as by an exception of another kind, is not used again: they are of other calls.
        """
        if self.is_closed:
            raise WistakuError("the broker is closed")
        if self.unread:
            self.drop()
        for _ in self.addresses:
            if self.socket is not None:
                return
            try:
                self.connect()
            except Lost as lost:
                problem = lost
        if self.socket is None:
            raise problem

    def connect(self) -> None:
        try:
            self.socket = socket.create_connection(self.addresses[self.at], self.timeout)
            self.socket.setsockopt(socket.IPPROTO_TCP, socket.TCP_NODELAY, 1)
            self.replies = self.socket.makefile("rb")
        except OSError as error:
            self.drop()
            raise Lost(str(error)) from error
        if self.secret is not None:
            self.send([{"op": "hello", "secret": self.secret}])
            error = refusal(self.receive())
            if error is not None:
                self.drop()
                if isinstance(error, RETRIED):
                    raise Lost(str(error)) from error
                raise Denied() from error

    def drop(self) -> None:
        """Leaves the connection, if there is one. The next one is to the next address."""
        self.at = (self.at + 1) % len(self.addresses)
        if self.socket is not None:
            self.replies.close()
            self.socket.close()
            self.socket = None
        self.unread = 0

    def send(self, requests: list[Request]) -> None:
        assert self.socket is not None
        self.unread += len(requests)
        try:
            self.socket.sendall(b"".join(map(line_of, requests)))
        except OSError as error:
            self.drop()
            raise Lost(str(error)) from error

    def receive(self) -> Reply:
        """The next reply. Half a line is none."""
        try:
            line = self.replies.readline()
            reply = json.loads(line) if line.endswith(b"\n") else None
        except (OSError, ValueError) as error:
            self.drop()
            raise Lost(str(error)) from error
        if not isinstance(reply, dict):
            self.drop()
            raise Lost("the connection ended before a reply")
        self.unread -= 1
        return reply

    def ask(self, request: Request, patience: Patience) -> Reply:
        """The reply to a request that may be made more than once. It is asked again until one comes."""
        while True:
            try:
                self.open()
                self.send([request])
                reply = self.receive()
            except Lost as lost:
                problem: WistakuError = Unreachable(str(lost))
            else:
                error = refusal(reply)
                if not isinstance(error, RETRIED) and reply.get("reply") != "interrupted":
                    return reply
                problem = error or Unreachable("interrupted")
            if not patience.rest():
                raise problem
