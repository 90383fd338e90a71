"""A broker, as one client of it."""

from __future__ import annotations

import os
import threading
from types import TracebackType
from typing import Any, Sequence

from .errors import Exists, refusal
from .link import Link, Patience, Reply
from .queues import DurableQueue, LogQueue
from .state import State


class Broker:
    """The broker at these addresses (`"host:port"`), for the client with this number.

    The addresses are of one broker: where it may come up again, or ways to it. One process at a time has a client's
    number. Threads may share a `Broker`: it has one lock, held for each call to its end, also while it is in doubt.

    - `secret` is said first on each connection.
    - `state` is the path of a file in which the client remembers its numbers and what is under way. It is written and
      synced before each call, and locked by `PATH.lock`.
    - `timeout` is how long a connection or a reply is waited for, in seconds, before it is tried anew.
    - `rest` is the first rest between two tries; each is twice the one before, up to a second.
    - `patience` is how long a call is tried while nothing is answered, in seconds; None is for ever.
    """

    def __init__(
        self,
        addresses: Sequence[str],
        client: int,
        secret: str | None = None,
        state: str | os.PathLike[str] | None = None,
        timeout: float = 5.0,
        rest: float = 0.02,
        patience: float | None = 60.0,
    ) -> None:
        if isinstance(addresses, str):
            raise ValueError("addresses are a list of texts")
        self.client, self.rest, self.patience = client, rest, patience
        self.lock = threading.RLock()
        self._link = Link(addresses, secret, timeout)
        self._state = None if state is None else State(os.fspath(state), client)
        self._logs: dict[str, LogQueue] = {}
        self._durables: dict[str, DurableQueue] = {}

    def log(self, name: str, create: bool = False, last: int | None = None) -> LogQueue:
        """The log queue of this name, whose calls take effect once each, whatever happens meanwhile.

        With `create` it is made if it is not there. `last` is for who knows the client's last number in it, as 0 of a
        number that nobody used: then it is not looked for. What the state file says goes before.
        """
        with self.lock:
            # A queue that is new has no numbers yet.
            if create and self._is_created(name, "log"):
                last = 0
            return self._logs.setdefault(name, LogQueue(self, name, last))

    def durable(self, name: str, create: bool = False) -> DurableQueue:
        """The durable queue of this name. With `create` it is made if it is not there."""
        with self.lock:
            if create:
                self._is_created(name, "durable")
            return self._durables.setdefault(name, DurableQueue(self, name))

    def queues(self) -> dict[str, str]:
        """The names of all queues, and the kind of each, `log` or `durable`."""
        with self.lock:
            found = self._ask(op="list")["queues"]
        return {it["queue"]: it["kind"] for it in found}

    def close(self) -> None:
        """Ends the connection. What was handed out counts as worked on: by the state file nobody gets it again."""
        with self.lock:
            for queue in self._logs.values():
                queue._end()
            self._leave()

    def _leave(self) -> None:
        self._link.drop()
        self._link.is_closed = True
        if self._state is not None:
            self._state.close()
            self._state = None

    def __enter__(self) -> Broker:
        return self

    def __exit__(self, kind: type[BaseException] | None, _: BaseException | None, __: TracebackType | None) -> None:
        """Closes it. After an exception what was handed out last is not known to be worked on."""
        if kind is None:
            self.close()
        else:
            with self.lock:
                self._leave()

    def _is_created(self, name: str, kind: str) -> bool:
        try:
            self._ask(op="create", queue=name, kind=kind)
        except Exists:
            return False
        return True

    def _patience(self) -> Patience:
        return Patience(self.rest, self.patience)

    def _ask(self, **request: Any) -> Reply:
        """The reply to a request that may be made more than once; a refusal of it is raised."""
        reply = self._link.ask(request, self._patience())
        error = refusal(reply)
        if error is not None:
            raise error
        return reply
