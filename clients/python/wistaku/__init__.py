"""A client of the Wistaku broker that does in doubt what has to be done. README.md beside it has ten lines of use."""

from .broker import Broker
from .errors import Denied, InDoubt, NotOurs, Refused, Unreachable, WistakuError
from .queues import DurableQueue, LogQueue, Settled
from .state import BadState

__all__ = [
    "BadState",
    "Broker",
    "Denied",
    "DurableQueue",
    "InDoubt",
    "LogQueue",
    "NotOurs",
    "Refused",
    "Settled",
    "Unreachable",
    "WistakuError",
]
__version__ = "0.1.0"
