"""A broker as a plain list for each queue, by docs/WIRE.md, docs/MODEL.md and the table of numbers in docs/TABLES.md:
one request after another, each to its end."""

import json
import re

from lines import lines_of, meaning

SLOTS = 8
ERRORS = {
    "NoRoom": 11, "NotReady": 12, "NoClient": 13, "AlreadyReady": 15, "BadName": 16, "Exists": 17, "DirectoryFull": 18,
    "Gap": 19, "Old": 20, "NoQueue": 21, "WrongKind": 22, "TooLong": 23, "BadJson": 24, "BadRequest": 25,
}
NAME = re.compile(r"[a-z0-9_-]{1,16}")
NOTHING = {"durable": {"row": "nocall"}, "log": {"told": "none"}}


class Queue:
    def __init__(self, name, kind, clients):
        self.name = name
        self.kind = kind
        self.values = []
        # Of each client: how many calls it has begun, what it would be told now, and what it was told.
        self.begun = [0] * clients
        self.kept = [NOTHING[kind]] * clients
        self.told = [NOTHING[kind]] * clients
        # Of each client: its last number that is known, and the reply to it, or None where it was not taken.
        self.last = [None] * clients

    def tell(self):
        """What recovery does: each client is told what the kept words tell, and its number is known by that."""
        self.told = list(self.kept)
        if self.kind == "log":
            self.last = [verdict_of(told) for told in self.told]

    def serve(self, client, value):
        """The plain queue: the reply, and what a client is told of the call that got it."""
        if value is not None:
            self.values.append(value)
            return {"reply": "done"}
        if not self.values:
            return {"reply": "empty"}
        return {"got": self.values.pop(0), "reply": "got"}

    def run(self, client, value, number, records):
        if self.begun[client] == records:
            return refused("NoRoom")
        self.begun[client] += 1
        reply = self.serve(client, value)
        if self.kind == "log":
            self.kept[client] = {**reply, "number": number, "told": "taken"}
            self.last[client] = (number, reply)
        elif value is None:
            self.kept[client] = {"got": reply["got"], "row": "got"} if "got" in reply else {"row": "empty"}
        return reply

    def by_number(self, client, number):
        """The kept reply or the refusal of a number, or None where it runs."""
        known = self.last[client]
        if known is None:
            return None if number == 1 else refused("Gap")
        last, reply = known
        if number < last:
            return refused("Old")
        if number == last:
            return reply
        return None if reply is not None and number == last + 1 else refused("Gap")


def verdict_of(told):
    if told["told"] == "none":
        return None
    reply = {key: value for key, value in told.items() if key in ("reply", "got")}
    return told["number"], reply or None


def refused(name):
    return {"error": ERRORS[name], "name": name}


class Broker:
    def __init__(self, clients, records):
        self.clients = clients
        self.records = records
        # By slot; None where it is free.
        self.queues = [None] * SLOTS
        self.is_down = False

    def find(self, name):
        return next((queue for queue in self.queues if queue and queue.name == name), None)

    def create(self, request):
        if not NAME.fullmatch(request["queue"]):
            return refused("BadName")
        if self.is_down:
            return refused("NotReady")
        if self.find(request["queue"]):
            return refused("Exists")
        if None not in self.queues:
            return refused("DirectoryFull")
        slot = self.queues.index(None)
        self.queues[slot] = Queue(request["queue"], request["kind"], self.clients)
        return {"reply": "created", "slot": slot}

    def list(self, _):
        if self.is_down:
            return refused("NotReady")
        return {"queues": [{"kind": queue.kind, "queue": queue.name} for queue in self.queues if queue]}

    def call(self, request):
        if request["client"] >= self.clients:
            return refused("NoClient")
        if self.is_down:
            return refused("NotReady")
        queue = self.find(request["queue"])
        if queue is None:
            return refused("NoQueue")
        number = request.get("number")
        if (number is not None) != (queue.kind == "log"):
            return refused("WrongKind")
        found = queue.by_number(request["client"], number) if number else None
        return found or queue.run(request["client"], request.get("value"), number, self.records)

    def told(self, request):
        if request["client"] >= self.clients:
            return refused("NoClient")
        if self.is_down:
            return refused("NotReady")
        queue = self.find(request["queue"])
        return queue.told[request["client"]] if queue else refused("NoQueue")

    def crash(self, _):
        self.is_down = True
        return {"reply": "crashed"}

    def recover(self, _):
        if not self.is_down:
            return refused("AlreadyReady")
        self.restart()
        return {"reply": "ready"}

    def restart(self):
        self.is_down = False
        for queue in self.queues:
            if queue:
                queue.tell()

    def stop(self, _):
        return {"reply": "stopping"}

    def answer(self, request):
        if isinstance(request, str):
            return refused(request)
        name = request["op"]
        return getattr(self, "call" if name in ("put", "take") else name)(request)


def text_of(reply):
    return json.dumps(reply, sort_keys=True, separators=(",", ":")).encode() + b"\n"


def replies(broker, data):
    """The text of the replies to an input, up to and with the first accepted stop."""
    texts = []
    for line in lines_of(data):
        request = meaning(line)
        texts.append(text_of(broker.answer(request)))
        if isinstance(request, dict) and request["op"] == "stop":
            break
    return b"".join(texts)
