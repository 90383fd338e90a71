"""calls.py PQD: each call of the client on its happy path, each error by name, and what is sent again."""

import re
import socket
import sys
import tempfile
import threading
import time

from harness import TOP, Played, Server, case, name_of, raised, say

from wistaku import Broker, Refused, Settled, errors, state

DONE, EMPTY = {"reply": "done"}, {"reply": "empty"}
GOT = {"reply": "got", "got": "6869"}


def error(name):
    return {"error": errors.NAMED[name].number, "name": name}


def happy(address, folder):
    with Broker([address], client=3) as broker:
        queue = broker.log("jobs", create=True)
        queue.put(b"hello")
        case("put and take", (queue.take(), queue.take()), (b"hello", None))
        values = [b"%d" % it for it in range(300)]
        queue.put_many(values)
        case("batches", [queue.take_many(it) for it in (299, 5, 5)], [values[:299], values[299:], []])
        queue.put_many([])
        queue.put(b"")
        queue.put(bytes(range(24)))
        case("the empty message, and the longest", queue.take_many(3), [b"", bytes(range(24))])
        case("a longer message", name_of(raised(queue.put, bytes(25))), "ValueError")
        case("nothing is under way", queue.settle(), [])
        case("the same queue again", broker.log("jobs") is queue, True)
        durable = broker.durable("plain", create=True)
        durable.put(b"1")
        durable.put_many([b"2", b"3"])
        case("durable", (durable.take(), durable.take_many(5), durable.take()), (b"1", [b"2", b"3"], None))
        case("told", (queue.told(), durable.told()), ({"told": "none"}, {"row": "nocall"}))
        case("queues", broker.queues(), {"jobs": "log", "plain": "durable"})


def waiting(address):
    taker, putter = Broker([address], client=0), Broker([address], client=1)
    queue, other = taker.log("jobs", last=0), putter.log("jobs", last=0)
    begin = time.monotonic()
    found = queue.take(wait=0.2)
    case("a wait that ends", (found, 0.2 <= time.monotonic() - begin < 5), (None, True))
    threading.Timer(0.2, other.put, [b"late"]).start()
    case("a wait that something ends", queue.take(wait=20.0), b"late")
    taker.close(), putter.close()


def threads(address):
    """Threads that share a broker: their puts are numbered one after another."""
    with Broker([address], client=2) as broker:
        queue = broker.log("jobs", last=0)

        def put(name):
            for it in range(40):
                queue.put(b"%d:%d" % (name, it))

        running = [threading.Thread(target=put, args=(name,)) for name in range(4)]
        [it.start() for it in running]
        [it.join() for it in running]
        got = [it.split(b":") for it in queue.take_many(1000)]
    for name in range(4):
        case(f"threads: {name}", [int(it) for of, it in got if int(of) == name], list(range(40)))


def table():
    """The errors are those of docs/WIRE.md, by name and number."""
    with open(f"{TOP}/docs/WIRE.md") as file:
        rows = dict(re.findall(r"^\| (\d+) \| (\w+) \|", file.read(), re.M)[::-1])
    case("the table of errors", {str(it.number): name for name, it in errors.NAMED.items()}, rows)
    for name, kind in errors.NAMED.items():
        server = Played(error(name))
        found = raised(Broker([server.address], client=0, patience=0).log("a", last=0).put, b"")
        case(f"a put that is answered {name}", (type(found), found.number, found.name), (kind, kind.number, name))
    server = Played({"error": 99, "name": "Strange"})
    found = raised(Broker([server.address], client=0).log("a", last=0).put, b"")
    case("an unknown error", (type(found), found.number, found.name), (Refused, 99, "Strange"))


def refused(server, folder):
    """Each error that a right server can be brought to say."""
    broker = Broker([server.address], client=0, patience=0.1)
    queue = broker.log("jobs")
    case("NoClient", name_of(raised(Broker([server.address], client=8).log("jobs").put, b"")), "NoClient")
    case("NoQueue", name_of(raised(broker.log("none").put, b"")), "NoQueue")
    case("NoQueue of a durable queue", name_of(raised(broker.durable("none").take)), "NoQueue")
    case("WrongKind", name_of(raised(broker.durable("jobs").take)), "WrongKind")
    case("WrongKind of a log queue", name_of(raised(broker.log("plain", last=0).take)), "WrongKind")
    case("BadName", name_of(raised(broker.log, "Jobs", create=True)), "BadName")
    case("AlreadyReady", name_of(raised(broker._ask, op="recover")), "AlreadyReady")
    case("BadRequest", name_of(raised(broker._ask, op="nonsense")), "BadRequest")
    case("TooLong", name_of(raised(broker._ask, op="x" * 600)), "TooLong")
    case("Denied", name_of(raised(Broker([server.address], client=0, secret="s").queues)), "Denied")
    queue.put_many([b"x", b"w"])
    used = Broker([server.address], client=0).log("jobs", last=0)
    case("Old", name_of(raised(used.put, b"v")), "Old")
    far = Broker([server.address], client=0).log("jobs", last=1000)
    case("Gap", name_of(raised(far.put, b"x")), "Gap")
    far.reset()
    case("Gap, and reset", (raised(far.put, b"y"), far.take_many(9)), (None, [b"x", b"w", b"y"]))
    for it in range(6):
        broker.durable(f"more-{it}", create=True)
    case("DirectoryFull", name_of(raised(broker.log, "another", create=True)), "DirectoryFull")
    case("NoRoom", no_room(server), ("NoRoom", 64, True))
    server.ask({"op": "crash"})
    case("NotReady", name_of(raised(queue.put, b"z")), "NotReady")
    case("NotReady of a durable queue", name_of(raised(broker.durable("plain").put, b"z")), "NotReady")
    server.ask({"op": "recover"})
    case("after NotReady", (raised(queue.reset), raised(queue.put, b"z"), queue.take()), (None, None, b"z"))


def no_room(server):
    """A batch for which a client has not room enough: what was put of it, and that its number is not used up."""
    with tempfile.TemporaryDirectory() as folder, Broker([server.address], 6, state=f"{folder}/state") as broker:
        queue = broker.log("jobs", last=0)
        found = raised(queue.put_many, [b"%d" % it for it in range(100)])
        broker._leave()
        with Broker([server.address], 6, state=f"{folder}/state") as again:
            settled = len(again.log("jobs").settle()) == 64
        taker = Broker([server.address], client=7).log("jobs", last=0)
        return name_of(found), found.answered, settled and len(taker.take_many(64)) == 64


def again():
    """What is sent again, and with which numbers."""
    doubts = error("Busy"), None, {"reply": "interrupted"}, error("NotReady"), {"reply": "unfinished"}
    server = Played(*doubts, DONE, GOT)
    queue = Broker([server.address], client=0, rest=0.001).log("a", last=4)
    queue.put(b"x")
    case("the same number again", (queue.take(), server.numbers()), (b"hi", [5, 5, 5, 5, 5, 5, 6]))
    server = Played(DONE, DONE, None, error("Old"), DONE)
    queue = Broker([server.address], client=0, rest=0.001).log("a", last=0)
    queue.put_many([b"1", b"2", b"3", b"4"])
    case("from the first one without a reply", server.numbers()[-2:], [3, 4])
    server = Played(DONE, error("NoRoom"), error("Gap"), error("Gap"), DONE)
    queue = Broker([server.address], client=0).log("a", last=0)
    found = raised(queue.put_many, [b"1", b"2", b"3", b"4"])
    queue.put(b"5")
    said = name_of(found), found.answered, server.numbers()[-1]
    case("a batch that is refused", said, ("NoRoom", 1, 2))
    server = Played(None, error("NoRoom"), error("NoRoom"), DONE)
    queue = Broker([server.address], client=0, rest=0.001).log("a", last=0)
    found = [name_of(raised(queue.put, b"1")) for _ in range(2)]
    case("a refusal in doubt", (found, queue.settle(), server.numbers()), (
        ["InDoubt", "InDoubt"], [Settled(1, "put", b"1")], [1, 1, 1, 1]))
    server = Played(GOT)
    queue = Broker([server.address], client=0).log("a", last=0)
    case("the number of another call", name_of(raised(queue.put, b"1")), "NotOurs")


def doubt():
    """The patience is over: what is raised, and that the call stays open."""
    server = Played(None, GOT, DONE, EMPTY)
    queue = Broker([server.address], client=0, patience=0).log("a", last=0)
    case("InDoubt", name_of(raised(queue.take)), "InDoubt")
    queue.put(b"x")
    case("a take in doubt is handed out later", (queue.take(), queue.take()), (b"hi", None))
    case("and keeps its number", server.numbers(), [1, 1, 2, 3])
    for op in "put", "take":
        for reply in None, {"reply": "interrupted"}, {"reply": "unfinished"}:
            server = Played(error("Busy"), reply, DONE)
            durable = Broker([server.address], client=0, rest=0.001).durable("a")
            found = raised(durable.put, b"x") if op == "put" else raised(durable.take)
            case(f"durable, {op}: {reply}", (name_of(found), len(server.lines)), ("InDoubt", 2))
    server = Played(DONE, None)
    found = raised(Broker([server.address], client=0).durable("a").put_many, [b"1", b"2", b"3"])
    case("durable: a batch in doubt", (name_of(found), found.answered), ("InDoubt", 1))
    server = Played(GOT, None, EMPTY)
    durable = Broker([server.address], client=0).durable("a")
    found = name_of(raised(durable.take_many, 3)), durable.take_many(3)
    case("durable: what was taken before the doubt", found, ("InDoubt", [b"hi"]))


def addresses(pqd, folder):
    dead = "127.0.0.1:1"
    case("Unreachable", name_of(raised(Broker([dead, dead], 0, patience=0.1).log("a", last=0).put, b"")), "Unreachable")
    durable = Broker([dead], 0, patience=0.1).durable("a")
    case("Unreachable of a durable queue", name_of(raised(durable.take)), "Unreachable")
    case("no addresses", name_of(raised(Broker, [], 0)), "ValueError")
    case("an address without a port", name_of(raised(Broker, ["localhost"], 0)), "ValueError")
    server = Server(pqd, folder)
    with Broker([dead, server.address], client=0) as broker:
        queue = broker.log("jobs", create=True)
        queue.put(b"by the second address")
        case("the first address is dead", queue.take(), b"by the second address")
    with socket.create_server(("127.0.0.1", 0)) as silent:
        address = "127.0.0.1:%d" % silent.getsockname()[1]
        with Broker([address, server.address], client=1, timeout=0.1) as broker:
            queue = broker.log("jobs", last=0)
            queue.put(b"at last")
            case("the first address accepts, and says nothing", queue.take(), b"at last")
    with Broker([server.address, dead], client=0, timeout=0.5) as broker:
        queue = broker.log("jobs")
        queue.put(b"before")
        server.kill()
        server.port = 0
        server.start()
        broker._link.addresses[1] = ("127.0.0.1", server.port)
        queue.put(b"behind")
        case("the server comes up at the next address", queue.take_many(3), [b"before", b"behind"])
    server.kill()


def found_numbers(pqd, folder):
    """A client without a memory, on a server that goes on and on one that was started again."""
    server = Server(pqd, folder, "--records", "4096")
    operator = Broker([server.address], client=0)
    operator.log("jobs", create=True)

    def anew(*ops):
        with Broker([server.address], client=3) as broker:
            return [raised(getattr(broker.log("jobs"), op), *words) for op, *words in ops]

    put, take = (lambda it: ("put", it)), ("take",)
    case("found: the first process", anew(put(b"1"), put(b"2")), [None, None])
    case("found: after two puts, told nothing", anew(put(b"3")), [None])
    case("found: after a put", anew(take, take, take, take), [b"1", b"2", b"3", None])
    case("found: after an empty take", anew(put(b"4")), [None])
    server.kill()
    server.start()
    case("found: the server was killed", anew(put(b"5")), [None])
    case("found: told an earlier number", anew(put(b"6"), take), [None, b"4"])
    case("found: after a take", anew(take, take, take), [b"5", b"6", None])
    server.kill()


def states(pqd, folder):
    """The state file: torn, damaged, of another client, in use, full; and what a process hands on to the next one."""
    server = Server(pqd, None, "--records", "4096")
    path = f"{folder}/state"
    with Broker([server.address], client=1, state=path) as broker:
        queue = broker.log("jobs", create=True)
        queue.put_many([b"1", b"2", b"3"])
        case("in use", name_of(raised(Broker, [server.address], 1, state=path)), "BadState")
        case("taken at last", queue.take(), b"1")
    with Broker([server.address], client=1, state=path) as broker:
        queue = broker.log("jobs")
        case("after close", (queue.settle(), queue.take()), ([], b"2"))
        broker._leave()
    with Broker([server.address], client=1, state=path) as broker:
        case("after a death: handed out again", broker.log("jobs").take_many(9), [b"2", b"3"])
        raised(broker.__exit__, ValueError, None, None)
    with Broker([server.address], client=1, state=path) as broker:
        found = [it[1:] for it in broker.log("jobs").settle()]
        case("after a death: settle says", found, [("take", b"2"), ("take", b"3"), ("take", None)])
    case("of another client", name_of(raised(Broker, [server.address], 2, state=path)), "BadState")
    with open(path, "rb") as file:
        data = file.read()
    files(server, path, data)
    server.kill()


def files(server, path, data):
    lines = data.splitlines(keepends=True)
    for cut in range(len(data) - len(lines[-1]) + 1, len(data)):
        with open(path, "wb") as file:
            file.write(data[:cut])
        broker = raised(Broker, [server.address], 1, state=path)
        if not isinstance(broker, Broker):
            say(f"a state that is torn at {cut}", broker)
            return
        broker._leave()
    say("a state that is torn anywhere in its last line")
    with open(path, "wb") as file:
        file.write(data.replace(b"jobs", b"jobz", 1) + lines[-1])
    case("a damaged line", name_of(raised(Broker, [server.address], 1, state=path)), "BadState")
    long, state.LONGEST = state.LONGEST, 400
    with open(path, "wb") as file:
        file.write(data)
    with Broker([server.address], client=1, state=path) as broker:
        queue = broker.log("jobs")
        for it in range(100):
            queue.put(b"%d" % it)
            queue.take()
        size = broker._state.size
        broker._leave()
    state.LONGEST = long
    case("a state that is written anew", size < 1000, True)
    with Broker([server.address], client=1, state=path) as broker:
        case("and read again", broker.log("jobs").take(), b"99")
        queue = broker.log("jobs")
        queue.put(b"noted")
        broker._state.size = -1
        found = name_of(raised(queue.put, b"not noted")), name_of(raised(queue.put, b"nor this"))
        case("a state that can't be written", found, ("OSError", "OSError"))
        broker._leave()
    with Broker([server.address], client=1, state=path) as broker:
        case("what was not noted was not sent", broker.log("jobs").take_many(9), [b"noted"])


def main(pqd):
    table()
    again()
    doubt()
    with tempfile.TemporaryDirectory() as folder:
        server = Server(pqd, None, "--clients", "8", "--records", "4096")
        happy(server.address, folder)
        waiting(server.address)
        threads(server.address)
        server.kill()
    with tempfile.TemporaryDirectory() as folder:
        server = Server(pqd, None, "--clients", "8", "--records", "64")
        Broker([server.address], client=5).log("jobs", create=True)
        Broker([server.address], client=5).durable("plain", create=True)
        refused(server, folder)
        server.kill()
    for part in addresses, found_numbers, states:
        with tempfile.TemporaryDirectory() as folder:
            part(pqd, folder)


if __name__ == "__main__":
    main(sys.argv[1])
