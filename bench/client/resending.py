"""A client over kills: it knows which of its calls has no answer yet, learns what became of it, and sends its number
again. It keeps lines for a recording of each queue (docs/HISTORIES.md)."""

import time

import load
from kill import Remembering
from load import KINDS, Different

NOT_TAKEN = {"told": "nottaken"}


class Resending(Remembering):
    def __init__(self, client):
        super().__init__(client)
        # The call without an answer, and when it was made first.
        self.pending = None
        # What the client was told of it since the last kill; None where it may be under way yet.
        self.learnt = None
        self.lines = {queue: [] for queue in KINDS}

    def line(self, queue, **said):
        self.lines[queue].append((time.monotonic_ns(), {"client": self.client, **said}))

    def line_of_call(self, request):
        self.learnt = None
        self.line(request["queue"], **{key: request[key] for key in ("op", "value") if key in request})

    def line_of_reply(self, request, reply):
        """What a reply says of the call; of an interrupted one what is told, which `told_next` has then."""
        if reply.get("reply") == "interrupted" and request["op"] == "take":
            told = self.learnt
            reply = {"reply": "refused"} if told == NOT_TAKEN else told or {"reply": "unknown"}
            self.line(request["queue"], **{key: reply[key] for key in reply if key != "told"})
        elif reply.get("reply") == "interrupted":
            self.line(request["queue"], reply="unknown")
        else:
            self.line(request["queue"], **(reply if "reply" in reply else {"reply": "refused"}))

    def call(self, connection, queue, is_put):
        request = self.request(queue, is_put)
        self.pending = (request, time.monotonic_ns())
        self.line_of_call(request)
        self.finish(connection, self.answered(connection, request))

    def finish(self, connection, reply):
        """Notes what the pending call was answered, in the end."""
        request, begin = self.pending
        if reply.get("reply") == "interrupted":
            self.interrupted(connection)
        else:
            self.note(connection, request, reply, begin)
        self.line_of_reply(request, reply)
        self.pending = None

    def interrupted(self, connection):
        """The pending call, which has no number, was interrupted: what it came to, as far as that is told."""
        request, begin = self.pending
        queue = request["queue"]
        told = self.told(connection, queue)
        self.learnt = self.meaning(told)
        load.Player.note(self, connection, request, {"reply": "interrupted"}, begin)
        self.calls += 1
        self.told_next[queue] = told

    def meaning(self, told):
        """What this says of the pending call: a line of a recording, or None."""
        request, _ = self.pending
        if "number" in request:
            return told if told.get("number") == request["number"] and told["told"] == "taken" else NOT_TAKEN
        if request["op"] == "put":
            return None
        if told != self.told_next[request["queue"]] and told["row"] in ("got", "empty"):
            return {"told": "taken", "reply": told["row"]} | {key: told[key] for key in told if key == "got"}
        # Also a take that is not announced yet took no effect. An empty row may be of the take before.
        return None if told["row"] == "empty" else NOT_TAKEN

    def check_told(self, connection):
        """After a kill: each queue tells of the last call that was answered, or of the pending one."""
        for queue, wanted in self.told_next.items():
            told = connection.ask(op="told", client=self.client, queue=queue)
            if self.pending is not None and self.pending[0]["queue"] == queue:
                self.learn(told)
            elif told != wanted:
                raise Different(f"client {self.client} is told {told} in {queue}, and not {wanted}")

    def learn(self, told):
        """What became of the pending call. It is told once, and is the same at each kill until it is made again."""
        queue, learnt = self.pending[0]["queue"], self.meaning(told)
        if self.learnt is not None and self.learnt != learnt:
            raise Different(f"client {self.client} is told {told} in {queue}, and was told {self.learnt}")
        if self.learnt is None and learnt is not None:
            self.line(queue, **{key: learnt[key] for key in learnt if key != "number"})
        self.learnt = learnt

    def resolve(self, connection):
        """What became of the pending call: a number is sent again, another call was interrupted."""
        if self.pending is None:
            return
        request, begin = self.pending
        if "number" not in request:
            self.interrupted(connection)
            self.pending = None
            return
        taken = self.learnt if self.learnt != NOT_TAKEN else None
        if taken is None:
            self.line_of_call(request)
        reply = self.answered(connection, request)
        if taken is None:
            self.finish(connection, reply)
            return
        if reply != {key: taken[key] for key in taken if key in ("reply", "got")}:
            raise Different(f"{request}, sent again, was answered {reply}, and was told {taken}")
        self.seen["kept replies, sent again"] += 1
        self.note(connection, request, reply, begin)
        self.pending = None
