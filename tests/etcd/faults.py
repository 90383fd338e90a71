#!/usr/bin/env python3
"""Each exchange of `pqd` with an engine goes wrong in each way, over the plain engine of engine.py: its answer is lost
before the request is done or behind that, cut at each byte, in pieces, doubled, of another status, or no answer of
etcd's; the server is killed meanwhile, and the next one goes on. Each reply is the story's.

  python3 faults.py PQD          a line for each case: its name, a tab, and what is wrong, or nothing
"""
import concurrent.futures
import itertools
import os
import sys
import tempfile
import threading

sys.dont_write_bytecode = True
sys.path[:0] = [os.path.dirname(os.path.dirname(os.path.abspath(__file__))), os.path.dirname(os.path.abspath(__file__))]
import engine
from engine import Fate
from journal_story import STORY, Broker, Wrong, require, resend

# Of a start on a log that is there: behind the question whose it is, the one for its tail, and the taking.
FIRST_READ = 3
LANES = min(len(os.sched_getaffinity(0)), 4)
# Where the answers to a start are cut: most are no longer. Those of pieces are, and are cut at their ends.
FIRST_BYTES, LAST_BYTES = 240, 40
# Texts in the place of an answer, of which etcd gives none with this status: they are taken for lost ones.
ODD_BODIES = (
    b"", b"{", b"{}", b"[]", b"null", b"true", b"0", b'""', b"\xff", b"<html></html>", b'{"succeeded":true}', b'{"kvs":[]}',
    b'{"header":{},"kvs":[]}', b'{"header":{},"kvs":{},"responses":[]}', b'{"header":{},"kvs":[{"value":5}],"succeeded":1}',
    b'{"header":{},"kvs":[{"value":"!"}],"succeeded":"true"}', b'{"header":{},"succeeded":true,"kvs":[{"value":"%%%%"}]} x',
    b'{"error":"etcdserver: request timed out","code":14}', b"[" * 4000, b"{" + b"9" * 70_000,
)
# Framings that are none, or of another length than what follows.
ODD_TEXTS = (
    b"\r\n\r\n", b"HTTP/1.1\r\n\r\n", b"HTTP/2 200\r\n\r\n", b"HTTP/1.1 200 OK\r\nContent-Length: x\r\n\r\n{}",
    b"HTTP/1.1 200 OK\r\nTransfer-Encoding: chunked\r\n\r\nzz\r\n", b"HTTP/1.1 204 No Content\r\n\r\n",
    b"HTTP/1.1 301 Moved\r\nLocation: /\r\nContent-Length: 0\r\n\r\n", b"HTTP/1.1 200 OK\r\n" + b"A: b\r\n" * 100 + b"\r\n",
    b"HTTP/1.1 429 Too Many Requests\r\nContent-Length: 2\r\n\r\n{}",
)
ODD = [engine.framed(b"200 OK", it, 0) for it in ODD_BODIES] + list(ODD_TEXTS)


class Turns(engine.Fates):
    """Exchanges have fates in turns, as a function of the turn gives them, and are answered in between."""

    def __init__(self, of_turn=lambda turn: (Fate(),)):
        super().__init__()
        self.begin(of_turn)

    def begin(self, of_turn):
        with self.lock:
            self.turn, self.count, self.of_turn, self.waiting = 0, 0, of_turn, []

    def fate(self):
        with self.lock:
            if not self.waiting:
                self.waiting = list(self.of_turn(self.turn))
                self.turn += 1
            self.count += 1
            return self.waiting.pop(0)


class Log:
    """A log in a plain engine of its own, which is asked at two ports."""

    def __init__(self):
        self.engine, self.fates = engine.Engine(), Turns()
        self.members = [engine.Server(self.engine, self.fates) for _ in range(2)]
        ports = ",".join(f"127.0.0.1:{it.port}" for it in self.members)
        self.journal = f"etcd://{ports}/test/story"

    def __enter__(self):
        return self

    def __exit__(self, *_):
        for member in self.members:
            member.end()

    def is_same_behind(self, requests):
        """Whether nothing changes where these arrive once more."""
        before = dict(self.engine.values)
        for request in requests:
            self.engine.answer(*request)
        return self.engine.values == before


def ended(broker):
    status, said = broker.end()
    require(status == 0, f"status {status}", said)


def at_exchange(number, fate):
    """The fates of exchanges of which that one has this fate, and the others are answered."""
    return lambda turn: (fate if turn == number else Fate(),)


def exchanges():
    """How many exchanges the story has."""
    with Log() as log:
        broker = Broker(log.journal)
        require(broker.play(0) == len(STORY))
        ended(broker)
        return log.fates.count


def played_with(number, fate):
    """The story, of which one exchange has this fate."""
    with Log() as log:
        log.fates.begin(at_exchange(number, fate))
        broker = Broker(log.journal)
        at = broker.play(0)
        require(at == len(STORY), f"{at} requests were answered")
        ended(broker)


def killed_at(number, kind):
    """The server is killed while it waits for an answer, and another one goes on. What was on its way arrives once that
    one has the log, and once more at the end, and changes nothing then."""
    with Log() as log:
        log.fates.begin(at_exchange(number, Fate(kind)))
        broker = Broker(log.journal)
        killer = threading.Thread(target=lambda: log.fates.reached.wait() and broker.process.kill())
        killer.start()
        at = broker.play(0)
        log.fates.reached.set()
        killer.join()
        broker.end()
        late = list(log.engine.held)
        broker = Broker(log.journal)
        if at < len(STORY):
            resend(broker, at)
        require(log.is_same_behind(late), "what came late changed something")
        require(broker.play(at + 1) >= len(STORY), "the next server did not answer all")
        ended(broker)
        require(log.is_same_behind(late), "what came late changed something at the end")


def played_to(broker, at, end):
    """The story from there to the end of a part, by a server that is killed then."""
    for request, wanted in STORY[at:end]:
        reply = broker.ask(request)
        require(reply == wanted, f"{request} was answered {reply}, and not {wanted}")
    broker.process.kill()
    broker.end()


def moved():
    """The journal of a file goes to the log, and back to another file, by an image, as docs/CLUSTER.md says. Each server
    gives the last reply once more, and goes on."""
    third = len(STORY) // 3
    with Log() as log, tempfile.TemporaryDirectory() as folder:
        image, places = f"{folder}/image", (f"{folder}/journal", log.journal, f"{folder}/other")
        played_to(Broker(places[0]), 0, third)
        for at, (place, other) in enumerate(itertools.pairwise(places), 1):
            ended(Broker(place, "--image", image))
            broker = Broker(other, "--image", image)
            resend(broker, at * third - 1)
            played_to(broker, at * third, (at + 1) * third if at == 1 else len(STORY))


def read_while_taken():
    """A server waits for a piece of the log that it took, and another one takes the log, puts its pieces anew and removes
    the old ones. The first one says whose the log is, and not that it is bad."""
    with Log() as log:
        played_to(Broker(log.journal), 0, len(STORY) - 1)
        log.fates.begin(at_exchange(FIRST_READ, Fate("unheard")))
        first = Broker(log.journal)
        require(log.fates.reached.wait(10), "it did not read")
        second = Broker(log.journal)
        resend(second, len(STORY) - 1)
        status, said = first.end()
        require((status, said) == (1, "pqd: 34 TakenOver\n"), f"status {status}", said)
        ended(second)


class Caller:
    """Puts and takes of one client, one after another, in a queue where nothing else is."""

    def __init__(self, log, *options, records=1024):
        self.broker, self.number = Broker(log.journal, *options, records=records), 0
        told = self.broker.ask({"op": "told", "client": 0, "queue": "a"})
        if told.get("name") == "NoQueue":
            created = self.broker.ask({"op": "create", "queue": "a", "kind": "log"})
            require(created == {"reply": "created", "slot": 0}, f"the creation was answered {created}")
        elif told != {"told": "none"}:
            # All that was replied is there.
            require(told["told"] == "taken", f"told was answered {told}")
            self.number = told["number"]

    def call(self):
        self.number += 1
        call = {"client": 0, "queue": "a", "number": self.number}
        if self.number % 2:
            self.ask({"op": "put", **call, "value": f"{self.number:04x}"}, {"reply": "done"})
        else:
            self.ask({"op": "take", **call}, {"got": f"{self.number - 1:04x}", "reply": "got"})

    def question(self):
        self.ask({"op": "list"}, {"queues": [{"kind": "log", "queue": "a"}]})

    def ask(self, request, wanted):
        reply = self.broker.ask(request)
        require(reply == wanted, f"{request} was answered {reply}, and not {wanted}")

    def end(self):
        ended(self.broker)


def cut_at(chunk):
    """Each answer is cut at the next byte; then the request is answered that was sent again."""
    return lambda turn: (Fate("cut", turn, chunk), Fate())


def cut_again_at(chunk):
    """The first answer is lost, and the next one, which says that the request was done before, is cut."""
    return lambda turn: (Fate("behind"), Fate("cut", turn, chunk), Fate())


def slow_at(chunk):
    """Each answer comes in two pieces."""
    return lambda turn: (Fate("slow", turn, chunk, 0.002),)


def odd(turn):
    """Each answer is an odd one; then the request is answered that was sent again."""
    return Fate("odd", text=ODD[turn % len(ODD)]), Fate()


def at_each_turn(of_turn, act, turns=None):
    """A server whose exchanges go so, until each byte of the longest answer had its turn, or for so many turns."""
    with Log() as log:
        caller = Caller(log)
        log.fates.begin(of_turn)
        log.fates.longest = 0
        while log.fates.turn <= (turns or log.fates.longest):
            act(caller)
        log.fates.begin(lambda turn: (Fate(),))
        caller.end()


def starting(fates):
    """Starts on one log, of which each has its exchanges go as one of these says."""
    with Log() as log:
        Caller(log, records=16).end()
        for of_turn in fates:
            log.fates.begin(of_turn)
            caller = Caller(log, "--renew", records=16)
            caller.call()
            log.fates.begin(lambda turn: (Fate(),))
            caller.end()


def each_cut_at(byte, chunk):
    """Each answer is cut there; then the request is answered that was sent again."""
    return lambda turn: (Fate("cut", byte, chunk), Fate())


def cases():
    """Each case: its name, and the call that plays it."""
    count = exchanges()
    for number, kind in itertools.product(range(count), ("before", "behind", "twice", "status")):
        yield f"exchange {number} of {count}: {kind}", lambda it=(number, Fate(kind)): played_with(*it)
    for number, kind in itertools.product(range(count), engine.STILL):
        yield f"killed at exchange {number} of {count}: {kind}", lambda it=(number, kind): killed_at(*it)
    for chunk, (name, of_turn) in itertools.product((0, 9, 65_536), {"cut": cut_at, "cut again": cut_again_at}.items()):
        for act in (Caller.call, Caller.question):
            yield (f"each answer to {act.__name__} {name}, in chunks of {chunk}",
                   lambda it=(of_turn(chunk), act): at_each_turn(*it))
    for chunk in (0, 3):
        yield f"each answer in two pieces, in chunks of {chunk}", lambda it=chunk: at_each_turn(slow_at(it), Caller.call)
    yield "a journal is moved to a log and back", moved
    yield "a log is read while another server takes it", read_while_taken
    yield "odd answers", lambda: at_each_turn(odd, Caller.call, len(ODD))
    yield "odd answers to starts", lambda: starting([lambda turn, it=it: odd(it) for it in range(len(ODD))])
    for chunk, apart in (65_536, 7), (0, 1):
        bytes_of = [*range(0, FIRST_BYTES, apart), *range(-LAST_BYTES, 0, apart)]
        yield (f"starts with each answer cut, in chunks of {chunk}",
               lambda it=(bytes_of, chunk): starting([each_cut_at(byte, it[1]) for byte in it[0]]))


def tried(name, play):
    try:
        play()
        return name, ""
    except Wrong as why:
        return name, " ".join(map(str, why.args))
    except Exception as error:
        return name, repr(error)


def main():
    with concurrent.futures.ThreadPoolExecutor(LANES) as pool:
        # (the longest ones come last, and begin first)
        for name, wrong in pool.map(lambda it: tried(*it), reversed(list(cases()))):
            print(name, wrong.replace("\n", "; ").replace("\t", " "), sep="\t", flush=True)


if __name__ == "__main__":
    main()
