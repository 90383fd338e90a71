"""Clients that do one thing wrong, each of which kills.py has to catch."""

from wistaku.errors import Gap, Old, refusal
from wistaku.link import Lost
from wistaku.queues import LogQueue


class NewNumber(LogQueue):
    """In doubt it sends the next number in place of the same one; where that is too high, the same one after all."""

    def _round(self):
        for call in self._calls[self._done :]:
            call.number, call.doubt = call.number + call.doubt, False
        problem = super()._round()
        if isinstance(problem, Gap):
            for call in self._calls[self._done :]:
                call.number -= 1
            return Lost("once more")
        return problem


class TrustsTold(LogQueue):
    """It goes on from the number that it is told, though that is of when the broker last recovered: from there it takes
    the first number that is not Old for a new one."""

    def _find(self):
        told = self.told()
        self._number = told.get("number", 1) + (told["told"] == "taken")

    def _round(self):
        problem = super()._round()
        if isinstance(problem, Old):
            for call in self._calls[self._done :]:
                call.number += 1
            return Lost("the next one")
        return problem


class Forgets(LogQueue):
    """It goes on from the number in its state file, and forgets that a call with it was under way."""

    def __init__(self, broker, name, last):
        super().__init__(broker, name, last)
        if self._calls:
            self._number = self._calls[0].number
        self._calls = []


class NotNoted(LogQueue):
    """It notes a call once it was made, and not before."""

    def _call(self, op, values, before=()):
        self._note, noted = (lambda syncs=True: None), self._note
        try:
            super()._call(op, values, before)
        finally:
            del self._note
        noted()


class TakesAtOnce(LogQueue):
    """It has many takes on their way at once, and takes the number of one that is Old for settled."""

    def take_many(self, most):
        with self.broker.lock:
            self._begin()
            if self._top is not None:
                return super().take_many(most)
            self._call("take", [b""] * most)
            found = [it.value for it in self._items]
            self._items.clear()
            self._items_noted = None
            return found

    def _judged(self, call, reply):
        if call.op == "take" and call.doubt and isinstance(refusal(reply), Old):
            self._done += 1
            return None
        return super()._judged(call, reply)


BENT = {it.__name__: it for it in (NewNumber, TrustsTold, Forgets, NotNoted, TakesAtOnce)}
