"""cut.py PQD: a connection that is cut at every place of a line and of its reply, and a client's process that dies at
every moment of a call. Each time the queue has to hold what was put, once and in its order, and nothing else."""

import itertools
import sys
import tempfile
import time

from harness import MOMENTS, Died, Proxy, Server, case, die_at, name_of, raised, say

from wistaku import Broker

texts = (b"%d" % it for it in itertools.count())


def some(count):
    return list(itertools.islice(texts, count))


# What is cut: a call of a queue that holds these many messages, and what it answers.
CALLS = {
    "put": (0, lambda queue, values: queue.put(values[0]), 1),
    "put_many": (0, lambda queue, values: queue.put_many(values), 3),
    "take": (2, lambda queue, _: [queue.take()], 0),
    "take, empty": (0, lambda queue, _: [queue.take()], 0),
    "take_many": (3, lambda queue, _: queue.take_many(4), 0),
}


class Cuts:
    """A queue behind a proxy, filled and drained by another client."""

    def __init__(self, server, operator, name):
        self.proxy = Proxy(server.port)
        self.other = operator.log("jobs")
        self.name, (self.held, self.call, self.putting) = name, CALLS[name]

    def wrong(self, cut, broker):
        """What is wrong where the connection of this call is cut so; whether it was cut at all."""
        held, values = some(self.held), some(self.putting)
        self.other.put_many(held)
        broker._link.drop()
        self.proxy.cut(**cut)
        before = self.proxy.cuts
        found = raised(self.call, broker.log("jobs"), values)
        self.proxy.cut()
        left = self.other.take_many(9)
        if self.putting:
            wanted = found is None and left == values
        elif self.name == "take_many":
            wanted = found == held and not left
        else:
            wanted = found == (held[:1] or [None]) and left == held[1:]
        return "" if wanted else f"{cut}: {found!r}, and left {left} of {held or values}", self.proxy.cuts > before


def cut_everywhere(server, operator, folder, name):
    """Every other place is of a client that has a state file."""
    cuts = Cuts(server, operator, name)
    how = {"addresses": [cuts.proxy.address], "rest": 0.001}
    with Broker(client=2, **how) as plain, Broker(client=3, state=f"{folder}/state", **how) as noting:
        for broker in plain, noting:
            broker.log("jobs", last=0)
        for way in "sent", "got":
            said, count = [], 0
            for count in itertools.count():
                wrong, was_cut = cuts.wrong({way: count}, noting if count % 2 else plain)
                said += [wrong] if wrong else []
                if not was_cut:
                    break
            said += ["nothing was cut"] * (count < 10)
            say(f"cut: {name}, {way}, {count} places", "; ".join(said))


def cut_durable(server, operator):
    """A durable queue: what is in doubt is there once, perhaps late, or never, and what was answered is there."""
    proxy = Proxy(server.port)
    broker = Broker([proxy.address], client=2, rest=0.001)
    other = operator.durable("plain", create=True)
    for way in "sent", "got":
        values, found = [], []
        for count in itertools.count():
            values += some(1)
            broker._link.drop()
            before = proxy.cuts
            proxy.cut(**{way: count})
            found.append(name_of(raised(broker.durable("plain").put, values[-1])))
            proxy.cut()
            if proxy.cuts == before:
                break
        time.sleep(0.1)
        left = other.take_many(1000)
        answered = {value for value, it in zip(values, found) if it == "NoneType"}
        is_right = set(found) == {"InDoubt", "NoneType"} and answered <= set(left) <= set(values)
        is_once = len(set(left)) == len(left) >= (10 if way == "got" else 1)
        wrong = "" if is_right and is_once else f"{found}, and left {left}"
        say(f"cut: durable put, {way}, {len(found)} places", wrong)


def deaths(server, operator, folder, name):
    """The process dies at each moment of a call, and the next one goes on by the state file. Or it lives, as where the
    exception is a KeyboardInterrupt that somebody catches, and goes on itself."""
    held, call, putting = CALLS[name]
    other = operator.log("jobs")
    for moment, lives in itertools.product(MOMENTS, (False, True)):
        said, turns = [], 0
        for turn in itertools.count(1):
            path = f"{folder}/death"
            values, wanted = some(putting), some(held)
            other.put_many(wanted)
            broker = Broker([server.address], client=4, state=path)
            queue = broker.log("jobs", last=0)
            queue.settle()
            die_at(broker, moment, turn)
            found, died = dying(call, queue, values)
            turns += died
            if died and lives:
                found += [it.value for it in queue.settle() if it.value is not None]
            broker._leave()
            if died and not lives:
                found += settled(server, path)
            if found not in (values, []) if putting else found != wanted[: len(found)]:
                said.append(f"turn {turn}: {found}")
            left = other.take_many(9)
            if left != (found if putting else wanted[len(found) :]):
                said.append(f"turn {turn}: {found}, and left {left} of {values or wanted}")
            if not died:
                break
        said += [] if turns else ["it never died"]
        say(f"{'stopped' if lives else 'death'}: {name}, {moment}, {turns} times", "; ".join(said))


def dying(call, queue, values):
    """What a call answered, if its process did not die meanwhile."""
    try:
        result = call(queue, values)
        return [it for it in result or values if it is not None], False
    except Died:
        return [], True


def settled(server, path):
    """What the next process is told: what the one before it put, or got, and was not handed out."""
    with Broker([server.address], client=4, state=path) as broker:
        return [it.value for it in broker.log("jobs").settle() if it.value is not None]


def main(pqd):
    for name in CALLS:
        with tempfile.TemporaryDirectory() as folder:
            server = Server(pqd, None, "--records", "4096", "--clients", "8")
            operator = Broker([server.address], client=1)
            operator.log("jobs", create=True)
            cut_everywhere(server, operator, folder, name)
            deaths(server, operator, folder, name)
            if name == "put":
                cut_durable(server, operator)
            server.kill()


if __name__ == "__main__":
    main(sys.argv[1])
