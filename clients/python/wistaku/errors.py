"""What may be raised in place of a result. Each error of docs/WIRE.md has a class of its name, with its number.

| raised | when | what became of the call |
|---|---|---|
| `NoMemory`, `Busy`, `NotReady`, `Full` | asked again, with rests, until the patience is over | it was not made |
| `NoRoom`, `NoClient`, `NoQueue`, `WrongKind`, `Gap`, `Old` | at once | it was not made |
| `BadName`, `Exists`, `DirectoryFull`, `AlreadyReady` | at once, of a creation or an operator | it was not made |
| `TooLong`, `BadJson`, `BadRequest`, and a name that is not known: `Refused` | at once | it was not made |
| `Denied` | at once: the server does not take the secret, or asks for one | it was not made |
| `NotOurs` | at once: the number is of another call | it was not made |
| `Unreachable` | the patience is over, and the call was never sent | it was not made |
| `InDoubt` | the patience is over (log), or at once (durable), and the call was sent | not known |

Lost connections, replies that do not come in time, `interrupted` and `unfinished` are no errors of a log queue: the
same number is sent again. Once a number was sent and not answered, no refusal settles its call, since the line may
still be on its way: then `InDoubt` is raised from the refusal.
"""

from __future__ import annotations

from typing import Any


class WistakuError(Exception):
    """Any error of this package. `answered` says of `put_many` how many of its values, the first ones, were put."""

    answered = 0


class InDoubt(WistakuError):
    """A call was sent, and nobody knows here whether it took effect.

    In a log queue it stays open: the next call, or `settle`, sends the same number again first. So do not put the value
    again. In a durable queue it is never sent again, and may still take effect.
    """


class Unreachable(WistakuError):
    """No address gave a connection, and the call was not sent."""


class NotOurs(WistakuError):
    """The number that was sent is of another call: somebody else has this client's number, or an older state file."""


class Refused(WistakuError):
    """The broker refused a request. `number` and `name` are those of docs/WIRE.md."""

    number = 0

    def __init__(self, name: str = "", number: int = 0) -> None:
        self.name = name or type(self).__name__
        self.number = number or type(self).number
        super().__init__(f"{self.number} {self.name}")


class NoMemory(Refused):
    """Memory was refused."""

    number = 6


class Busy(Refused):
    """Another connection uses the client's seat, or the client's last call could not be finished."""

    number = 10


class NoRoom(Refused):
    """The client has begun as many calls in this queue as it may; with `serve --renew`, the queue is nearly full."""

    number = 11


class NotReady(Refused):
    """The broker has crashed, and has not recovered yet."""

    number = 12


class NoClient(Refused):
    """The server has fewer clients (`--clients`)."""

    number = 13


class AlreadyReady(Refused):
    """There is nothing to recover from."""

    number = 15


class BadName(Refused):
    """A queue's name is 1 to 16 bytes of `a-z`, `0-9`, `_` and `-`."""

    number = 16


class Exists(Refused):
    """There is a queue of this name."""

    number = 17


class DirectoryFull(Refused):
    """There are eight queues."""

    number = 18


class Gap(Refused):
    """The broker does not know the client's last numbers: it lost them, or is another one."""

    number = 19


class Old(Refused):
    """The broker knows later numbers of this client: somebody else has its number, or the state file is older."""

    number = 20


class NoQueue(Refused):
    """There is no queue of this name."""

    number = 21


class WrongKind(Refused):
    """The queue is of the other kind."""

    number = 22


class TooLong(Refused):
    """A line has more than 512 bytes."""

    number = 23


class BadJson(Refused):
    """A line is no JSON."""

    number = 24


class BadRequest(Refused):
    """A line is no request."""

    number = 25


class Full(Refused):
    """The server has as many connections as it serves at once, and has closed this one."""

    number = 31


class Denied(Refused):
    """The server does not take the secret, or asks for none and was told one; or it asks for one that was not told."""

    number = 37


NAMED = {it.__name__: it for it in Refused.__subclasses__()}
RETRIED = (NoMemory, Busy, NotReady, Full)


def refusal(reply: dict[str, Any]) -> Refused | None:
    """The error that a reply is, if it is one."""
    if "error" not in reply:
        return None
    name = str(reply.get("name"))
    return NAMED.get(name, Refused)(name, int(reply["error"]))
