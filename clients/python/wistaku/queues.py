"""Queues of a broker, as one client uses them."""

from __future__ import annotations

import time
from collections import deque
from dataclasses import dataclass
from typing import TYPE_CHECKING, Any, Iterable, NamedTuple, Sequence

from .errors import RETRIED, Gap, InDoubt, NoRoom, NotOurs, Old, Unreachable, WistakuError, WrongKind, refusal
from .link import LONGEST_REST, Lost, Reply

if TYPE_CHECKING:
    from .broker import Broker

LONGEST_VALUE = 24
# How many puts are on their way at once. Their lines and replies fit the buffers of any socket.
WINDOW = 128
# How many calls a client may have made in a queue since it was told of its last one: the most records that it has.
RECORDS = 4096


@dataclass
class Call:
    """A call of a log queue, and whether a line of it may have been served, or still be on its way, without a reply."""

    number: int
    op: str
    value: bytes = b""
    doubt: bool = False


class Settled(NamedTuple):
    """What a call came to: the value that was put, or got, or None where a take found nothing."""

    number: int
    op: str
    value: bytes | None


class Queue:
    """What both kinds share. A message is 0 to 24 bytes."""

    def __init__(self, broker: Broker, name: str) -> None:
        self.broker, self.name = broker, name
        self._items: deque[Settled] = deque()

    def put(self, value: bytes) -> None:
        """Puts a message."""
        self.put_many([value])

    def put_many(self, values: Iterable[bytes]) -> None:
        """Puts messages, in this order. An error says in `answered` how many, the first ones, were put."""
        values = [bytes(it) for it in values]
        for it in values:
            if len(it) > LONGEST_VALUE:
                raise ValueError(f"a message has at most {LONGEST_VALUE} bytes, and not {len(it)}")
        with self.broker.lock:
            self._put_all(values)

    def take(self, wait: float = 0.0) -> bytes | None:
        """The next message; None where the queue is empty, and stays so for `wait` seconds.

        While it waits it asks again and again, with rests that grow up to a second, and others may use the broker. Each
        time that it asks is a call, and uses up a record of the client's (`--records`), also where nothing is found.
        """
        until = time.monotonic() + wait
        pause = self.broker.rest
        while True:
            taken = self.take_many(1)
            left = until - time.monotonic()
            if taken or left <= 0:
                return taken[0] if taken else None
            time.sleep(min(pause, left))
            pause = min(2 * pause, LONGEST_REST)

    def take_many(self, most: int) -> list[bytes]:
        """At most so many messages, one take after another; fewer where the queue is empty before.

        No two takes are on their way at once: a broker keeps the reply of a client's last call alone. At an error what
        was taken before is handed out by the next takes.
        """
        with self.broker.lock:
            self._begin()
            while len(self._items) < most and self._take():
                pass
            return [self._hand_out().value or b"" for _ in range(min(most, len(self._items)))]

    def told(self) -> Reply:
        """What the client was told when the broker last began or recovered (docs/WIRE.md, "What a client is told")."""
        with self.broker.lock:
            return self.broker._ask(op="told", client=self.broker.client, queue=self.name)

    def _request(self, op: str, value: bytes, **more: int) -> dict[str, Any]:
        request = {"op": op, "client": self.broker.client, "queue": self.name, **more}
        return {**request, "value": value.hex()} if op == "put" else request

    def _hand_out(self) -> Settled:
        return self._items.popleft()

    def _got(self, number: int, reply: Reply) -> bool:
        """Notes the message that a take got, if it got one."""
        if reply["reply"] == "got":
            self._items.append(Settled(number, "take", bytes.fromhex(reply["got"])))
        return bool(reply["reply"] == "got")

    def _begin(self) -> None:
        """What has to be done before another call."""

    def _put_all(self, values: list[bytes]) -> None:
        raise NotImplementedError

    def _take(self) -> bool:
        """Takes one message more into `_items`, if there is one."""
        raise NotImplementedError


class DurableQueue(Queue):
    """A queue whose calls have no numbers. `Broker.durable` makes it.

    A call whose line was sent and not answered is never sent again: `InDoubt` is raised. Of a put nothing more is ever
    known, and it may still take effect. Of a take `told` says more, once the broker has recovered or was started again:
    what the last *announced* take came to, which may be the one before. So whoever has to know takes a log queue.

    Batches are one call after another, so that at most one call is in doubt.
    """

    def _put_all(self, values: list[bytes]) -> None:
        for at, value in enumerate(values):
            try:
                self._call("put", value)
            except WistakuError as problem:
                problem.answered = at
                raise

    def _take(self) -> bool:
        return self._got(0, self._call("take", b""))

    def _call(self, op: str, value: bytes) -> Reply:
        patience = self.broker._patience()
        link = self.broker._link
        while True:
            try:
                link.open()
            except Lost as lost:
                problem: WistakuError = Unreachable(str(lost))
            else:
                reply = self._sent_once(op, value)
                error = refusal(reply)
                if error is None:
                    return reply
                problem = error
            if not isinstance(problem, (Unreachable, *RETRIED)) or not patience.rest():
                raise problem

    def _sent_once(self, op: str, value: bytes) -> Reply:
        link = self.broker._link
        try:
            link.send([self._request(op, value)])
            reply = link.receive()
        except Lost as lost:
            raise InDoubt(f"{op} in {self.name}: {lost}") from lost
        if reply.get("reply") in ("interrupted", "unfinished"):
            raise InDoubt(f"{op} in {self.name} was {reply['reply']}")
        return reply


class LogQueue(Queue):
    """A queue whose calls are numbered, so that each takes effect once. `Broker.log` makes it.

    In doubt a call is sent again with its number until it is answered, and nothing else is sent before. When the
    patience is over `InDoubt` is raised and the call stays open: `settle`, or the next call, goes on with it first.

    With a state file a process goes on where the one before it stopped: its first call settles what was under way. Then
    a put is made, once. A message that was got is handed out again by the next take, unless the process before made
    another call of this queue after it, or ended by `close`: whether it had been worked on, nobody knows here.

    Without one, or where the file has nothing of this queue, the client's last number is found: `told` says what it was
    when the broker last recovered, and numbers since then are looked for from there, by at most 4,098 requests. What an
    earlier process had on its way cannot be known then, so that one has to have ended.
    """

    def __init__(self, broker: Broker, name: str, last: int | None) -> None:
        super().__init__(broker, name)
        # The next number, if it is known.
        self._number = None if last is None else last + 1
        # The calls that were made last, one or a batch, and how many of them, the first ones, are settled.
        self._calls: list[Call] = []
        self._done = 0
        self._is_noted = True
        # The number that is too high from which a call comes down to the first one that is not, while it does.
        self._top: int | None = None
        # How many of `_items` the state file has, if it has no others.
        self._items_noted: int | None = None
        record = broker._state.records.get(name) if broker._state else None
        if record is not None:
            self._number, self._top = record["number"] or self._number, record["top"]
            calls = enumerate(record["calls"], record["number"] or 0)
            self._calls = [Call(at, op, bytes.fromhex(it), True) for at, (op, it) in calls]
            self._items.extend(Settled(at, "take", bytes.fromhex(it)) for at, it in record["items"])

    def settle(self) -> list[Settled]:
        """Sends what is under way until it is answered, and says what it came to, and which messages nobody took yet.

        What is under way is the call or the batch that `InDoubt` was raised of, or another exception, as
        KeyboardInterrupt, has ended; and by the state file the last one of the process before. Messages that this
        answers are handed out: no take has them again.
        """
        with self.broker.lock:
            open_calls = self._calls if self._done < len(self._calls) else []
            self._settle()
            items = {it.number: it for it in self._items}
            self._items.clear()
            self._items_noted = None
            for call in open_calls:
                items.setdefault(call.number, Settled(call.number, call.op, call.value if call.op == "put" else None))
            return [items[number] for number in sorted(items)]

    def reset(self) -> None:
        """Forgets the numbers and what is under way, and finds the last number anew at the next call.

        It is for after `Gap`, `Old` or `NotOurs`: where a server lost what it had replied, as after a loss of power
        without `--sync always`, or the state file is of another time.
        """
        with self.broker.lock:
            self._number = self._top = None
            self._calls, self._done = [], 0
            self._note()

    def _end(self) -> None:
        """Notes that nothing is under way, where that is so, and that all that was handed out was worked on."""
        if self._done == len(self._calls):
            self._calls, self._done = [], 0
            self._note()

    def _begin(self) -> None:
        self._settle()
        if self._number is None:
            self._find()

    def _put_all(self, values: list[bytes]) -> None:
        self._begin()
        # One call alone comes down to its number.
        first = 0 if self._top is None else 1
        try:
            self._call("put", values[:first])
            self._call("put", values[first:], self._calls)
        except WistakuError as problem:
            problem.answered = self._done
            raise

    def _take(self) -> bool:
        before = len(self._items)
        self._call("take", [b""])
        return len(self._items) > before

    def _hand_out(self) -> Settled:
        self._items_noted = None
        return super()._hand_out()

    def _call(self, op: str, values: list[bytes], before: Sequence[Call] = ()) -> None:
        """Numbers new calls, which may be of a batch that began with others, and settles them."""
        assert self._number is not None
        self._calls = [*before, *(Call(number, op, it) for number, it in enumerate(values, self._number))]
        self._done = len(before)
        self._is_noted = not values
        self._settle()

    def _note(self, syncs: bool = True) -> None:
        """Writes into the state file, if there is one, what a process has to know that goes on from here."""
        state = self.broker._state
        self._is_noted = state is None
        if state is None:
            return
        calls = [[it.op, it.value.hex()] for it in self._calls]
        number = self._calls[0].number if self._calls else self._number
        items = [[it.number, (it.value or b"").hex()] for it in self._items][self._items_noted or 0 :]
        record = {"queue": self.name, "number": number, "top": self._top, "calls": calls}
        state.write({**record, "items" if self._items_noted is None else "more": items}, syncs)
        self._items_noted = len(self._items)
        self._is_noted = True

    def _settle(self) -> None:
        """Sends what is pending until all of it is answered, or gives up. What can't be noted is not sent, nor kept."""
        try:
            if not self._is_noted:
                self._note()
        except OSError:
            del self._calls[self._done :]
            raise
        patience = self.broker._patience()
        while self._done < len(self._calls):
            before = self._done
            problem = self._round()
            if isinstance(problem, Gap) and self._top is not None:
                self._descend(self._calls[self._done])
            elif problem is not None:
                if self._done > before:
                    patience = self.broker._patience()
                if not isinstance(problem, (Lost, Unreachable, Open, *RETRIED)) or not patience.rest():
                    self._give_up(problem)

    def _round(self) -> WistakuError | None:
        """Sends the first pending calls and reads their replies, up to the first one that does not settle its call."""
        link = self.broker._link
        window = [(it, it.doubt) for it in self._calls[self._done : self._done + WINDOW]]
        try:
            link.open()
        except Lost as lost:
            return Unreachable(str(lost))
        # Whatever ends this, what was not answered is in doubt.
        for call, _ in window:
            call.doubt = True
        try:
            link.send([self._request(it.op, it.value, number=it.number) for it, _ in window])
            return self._read(window)
        except Lost as lost:
            return lost

    def _read(self, window: list[tuple[Call, bool]]) -> WistakuError | None:
        """Reads the replies to these calls, which were in doubt before or not, and says what the first problem is."""
        problem: WistakuError | None = None
        for call, was_in_doubt in window:
            reply = self.broker._link.receive()
            call.doubt = was_in_doubt or problem is not None and "error" not in reply
            problem = problem or self._judged(call, reply)
        return problem

    def _judged(self, call: Call, reply: Reply) -> WistakuError | None:
        """Settles the first pending call by its reply; or why it is not settled."""
        error, said = refusal(reply), reply.get("reply")
        if said in ("interrupted", "unfinished"):
            call.doubt = True
            return Open(str(said))
        # A later number ran, so this one took effect; of a put nothing more is to be known.
        is_done = said == "done" or isinstance(error, Old) and call.doubt
        is_answer = is_done if call.op == "put" else said in ("got", "empty")
        if is_answer and call.number != self._top:
            self._done += 1
            self._number, self._top = call.number + 1, None
            if call.op == "take":
                self._got(call.number, reply)
            return None
        return error or NotOurs(f"number {call.number} of {self.name}, a {call.op}, was answered {reply}")

    def _give_up(self, problem: WistakuError) -> None:
        """Raises why what is pending is not settled. If nothing of it is in doubt it was not made, nor will be."""
        pending = self._calls[self._done :]
        if any(it.doubt for it in pending):
            raise InDoubt(f"{self.name}: {pending[0].op} {pending[0].number}: {problem}") from problem
        if self._top is not None and not isinstance(problem, NoRoom):
            self._number = None
        self._top = None
        del self._calls[self._done :]
        # Whoever goes on from the state file has to know, too.
        self._note()
        raise problem

    def _find(self) -> None:
        """Finds the client's next number, or a higher one from which its next call comes down to it.

        Told that number N took effect, that one or a later one is the last. Sent again it is Old while a later one is
        known, and answered as before where it is the last: neither runs anything. Told another thing, none is known to
        be used, so a number that is asked for may be the next one, which runs. Then the next call itself comes down
        from one that is Gap for sure: the first number that is not Gap was never used before.
        """
        told = self.told()
        number = int(told.get("number", 1))
        if "told" not in told:
            raise WrongKind
        if told["told"] != "taken":
            self._number = self._top = number + RECORDS + 1
            return
        while self._is_old(number):
            number += 1
        self._number = number + 1

    def _is_old(self, number: int) -> bool:
        try:
            self.broker._ask(**self._request("take", b"", number=number))
        except Old:
            return True
        return False

    def _descend(self, call: Call) -> None:
        """The number is Gap: the next lower one. Where a line of it may be on its way yet, a rest lets it arrive.

        Some thousand syncs would take many seconds, so these steps are written and not synced: a loss of the client's
        power within them may make this one call twice.
        """
        if call.doubt:
            time.sleep(LONGEST_REST)
        call.number, call.doubt = call.number - 1, False
        self._number = call.number
        self._note(syncs=False)


class Open(WistakuError):
    """A call was answered that it is not answered yet."""
