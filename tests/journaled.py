"""journaled.py PQD KILLING REFUSING: `pqd --journal` that is stopped, or whose device fails, at each call of the system
by which it writes its journal (the library tests/killing.c), or which is refused memory (tests/refusing.c). A client
plays a story of requests, and after each stop sends again the one that was not answered, to a server that begins on
what is left: every reply is the story's. Journals are cut off, damaged, and locked. Prints what was seen, and what is
wrong."""

import json
import os
import socket
import subprocess
import sys
import tempfile
import time
from itertools import count
from pathlib import Path

sys.path.insert(0, str(Path(__file__).parent.parent / "bench" / "plain"))

import image
import journal
from journal_story import CALLS, MOMENTS, MOST, PQD, STORY, THERE, Broker, Wrong, clear, go_on, is_torn, require

LIBRARY, REFUSING = sys.argv[2:]
# How many of the story's requests are made while memory is refused.
SHORT = 7


def stopped_everywhere(file, policy):
    """A stop before and after each call of the system."""
    stops = torn = 0
    for moment in MOMENTS:
        for turn in count(1):
            clear(file)
            broker = Broker(file, "--sync", policy, KILLED=moment, TURN=str(turn), LD_PRELOAD=LIBRARY)
            at = broker.play(0)
            status, said = broker.end()
            if status == 0:
                break
            require(status == -9, f"{moment} {turn}: status {status}", said)
            require(os.path.exists(file) or at == 0, f"{moment} {turn}: no journal is left, and {at} were answered")
            torn += is_torn(go_on(file, at, "--sync", policy))
            stops += 1
    return f"--sync {policy}: stopped at {stops} moments, {torn} frames torn; each reply is the story's"


def failing_everywhere(file, policy):
    """Each call of the system fails once, or from there on."""
    once = over = began = 0
    for name in CALLS:
        for failing in ({}, {"FAILING": "1"}):
            for turn in count(1):
                clear(file)
                broker = Broker(file, "--sync", policy, FAILED=name, TURN=str(turn), LD_PRELOAD=LIBRARY, **failing)
                at = broker.play(0)
                status, said = broker.end()
                if status == 0 and at == len(STORY) and not happened(name, turn, policy, file):
                    break
                if status == 0:
                    require(at == len(STORY), f"{name} {turn}: it ended well, with {at} answered", said)
                    once += 1
                elif said == "pqd: 27 WriteFailed\n":
                    require(at == 0, f"{name} {turn}: it could not begin, with {at} answered")
                    began += 1
                else:
                    require(status == 1 and said == "pqd: 31 NotKept\n", f"{name} {turn}: status {status}", said)
                    over += 1
                go_on(file, at, "--sync", policy) if at < len(STORY) else None
    return f"--sync {policy}: {once} failures overcome, {over} ended it, {began} before it began; each reply is the story's"


WRITTEN = {}


def happened(name, turn, policy, file):
    """Whether the story without a failure has so many calls of this name."""
    if (name, policy) not in WRITTEN:
        for most in count(1):
            clear(file)
            broker = Broker(file, "--sync", policy, KILLED=name, TURN=str(most), LD_PRELOAD=LIBRARY)
            broker.play(0)
            if broker.end()[0] == 0:
                WRITTEN[name, policy] = most - 1
                break
    return turn <= WRITTEN[name, policy]


def full(file, policy):
    """Files that take so many bytes and no more: a journal that has grown goes on as a shorter one."""
    sizes = over = 0
    for size in range(20000, 28000, 400):
        clear(file)
        broker = Broker(file, "--sync", policy, most=size)
        at = broker.play(0)
        status, said = broker.end()
        if status != 0:
            require(said in ("pqd: 31 NotKept\n", "pqd: 27 WriteFailed\n"), f"full at {size}", said)
            over += 1
        sizes += 1
        if at < len(STORY):
            go_on(file, at, "--sync", policy)
    return f"--sync {policy}: files full at {sizes} sizes, of which {over} ended it; each reply is the story's"


def whole_journal(file, policy):
    """The journal of the whole story, which was not stopped in order."""
    clear(file)
    broker = Broker(file, "--sync", policy)
    at = broker.play(0)
    require(at == len(STORY), at)
    broker.process.kill()
    broker.end()
    data = Path(file).read_bytes()
    cut = journal.reading(data)[2]
    require(journal.torn(data, cut) == 0, "a tail")
    return data[:len(data) - cut]


def ends_of(data):
    """Where the head and each frame ends."""
    key, words, _ = journal.reading(data)
    ends = [len(journal.head_of(key, words))]
    while ends[-1] < len(data):
        changes = int.from_bytes(data[ends[-1] + 16:ends[-1] + 20], "little")
        ends.append(ends[-1] + 28 + 12 * changes)
    return ends


def refused_memory(file):
    """Each allocation is refused in turn. What was refused memory is asked once more; a server that ends left a journal
    from which the next one goes on."""
    said_so = {"pqd: 6 NoMemory\n": 0, "pqd: 31 NotKept\n": 0}
    again = 0
    clear(file)
    broker = Broker(file, REFUSED="0", LD_PRELOAD=REFUSING)
    for request, _ in STORY[:SHORT]:
        broker.ask(request)
    for number in range(1, int(broker.end()[1]) + 1):
        clear(file)
        broker = Broker(file, REFUSED=str(number), LD_PRELOAD=REFUSING)
        at = tries = 0
        while at < SHORT:
            request, wanted = STORY[at]
            reply = broker.ask(request)
            if reply is None:
                break
            if reply.get("name", reply.get("reply")) in ("NoMemory", "unfinished", "Busy") and tries < 4:
                tries += 1
                continue
            there = request["op"] == "create" and reply.get("name") == THERE and tries > 0
            require(there or reply == wanted, f"allocation {number} refused: {request} was answered {reply}")
            at += 1
        again += tries
        status, said = broker.end()
        require(status == (said != "") and (said == "" or said in said_so), f"allocation {number}: {status}", said)
        if said:
            said_so[said] += 1
        require(at == SHORT or said, f"allocation {number}: only {at} were answered")
        go_on(file, at)
    require(again > 0 and all(said_so.values()), again, said_so)
    return "each allocation refused: asked again, or said; each reply is the story's"


def cut_off(file):
    """A journal that is cut off somewhere in a frame tells of it, keeps the file, and leaves a beginning."""
    data = whole_journal(file, "never")
    ends = ends_of(data)
    cuts = 0
    for at, (begin, end) in enumerate(zip(ends, ends[1:])):
        # The first eight bytes are a sum, which is never 0: zeros alone are room, and no torn frame.
        for size in (begin, begin + 8, end - 1):
            clear(file)
            Path(file).write_bytes(data[:size])
            broker = Broker(file)
            reply = broker.ask({"op": "list"})
            require("queues" in reply, f"cut off at {size}: {reply}")
            status, said = broker.end()
            require(status == 0 and is_torn(said) == (size != begin), f"cut off at {size}", status, said)
            kept = Path(file + ".torn")
            require(kept.exists() == (size != begin), f"cut off at {size}: {kept}")
            require(not kept.exists() or kept.read_bytes() == data[:size], f"cut off at {size}: another file is kept")
            cuts += 1
    return f"cut off in {len(ends) - 1} frames, {cuts} times"


def refused(file, said, *options):
    before = Path(file).read_bytes() if os.path.isfile(file) else None
    broker = Broker(file, *options)
    status, found = broker.end()
    require((status, found) == (1, f"pqd: {said}\n"), file, status, found)
    require(before is None or Path(file).read_bytes() == before, f"{file} is another one")


def damaged(file):
    """Bytes that were kept and are others now: the journal is refused, and stays."""
    data = whole_journal(file, "always")
    ends = ends_of(data)
    places = [40, ends[0] - 1, *(end - 9 for end in ends[1:-1])]
    for place in places:
        Path(file).write_bytes(data[:place] + bytes([data[place] ^ 1]) + data[place + 1:])
        refused(file, "33 BadSum")
    Path(file).write_bytes(data[:-9] + bytes([data[-9] ^ 1]) + data[-8:])
    broker = Broker(file)
    require(is_torn(broker.end()[1]), "damage in the last frame is no torn one")
    return f"damaged at {len(places)} kept places: BadSum"


def odd_files(file, folder):
    clear(file)
    for data, said in ((b"", "4 Truncated"), (b"PQJ1", "4 Truncated"), (b"PQW2", "2 BadMagic"), (b"\n" * 99, "2 BadMagic")):
        Path(file).write_bytes(data)
        refused(file, said)
    os.symlink("/dev/zero", f"{folder}/zero")
    os.mkdir(f"{folder}/below")
    os.mkdir(f"{folder}/other.new")
    refused(f"{folder}/zero", "2 BadMagic")
    refused(f"{folder}/below", "26 ReadFailed")
    refused(f"{folder}/other", "27 WriteFailed")
    refused(f"{folder}/none/journal", "27 WriteFailed")
    return "odd files: refused"


def in_use(file):
    """Of two servers on one file the second one is refused, and once the first is killed it is not."""
    clear(file)
    first = Broker(file)
    require(first.ask({"op": "list"}) == {"queues": []}, "it does not serve")
    refused(file, "32 InUse")
    first.process.kill()
    first.end()
    second = Broker(file)
    require(second.ask({"op": "list"}) == {"queues": []}, "it does not serve once the first one is killed")
    second.end()
    clear(file)
    # Its files are full again and again, so that it goes on as another one.
    first = Broker(file, most=MOST)
    for request, wanted in STORY:
        require(first.ask(request) == wanted, request)
        refused(file, "32 InUse")
    first.end()
    return "two servers: the second one is refused, also where the first one compacts its journal"


def with_images(file):
    """A journal begins on an image where there is no journal yet, and an orderly stop leaves the same words in both."""
    clear(file)
    kept = os.path.join(os.path.dirname(file), "image")
    broker = Broker(file, "--image", kept)
    at = broker.play(0)
    broker.end()
    require(at == len(STORY), at)
    words = image.words_of(Path(kept).read_bytes())
    data = Path(file).read_bytes()
    _, left, cut = journal.reading(data)
    require(left == words and journal.torn(data, cut) == 0, "the journal leaves other words than the image")
    clear(file)
    broker = Broker(file, "--image", kept)
    require(len(broker.ask({"op": "list"})["queues"]) == 2, "the image is not begun on")
    broker.end()
    return "an image and a journal: the same words"


def killed_while_served(file, policy):
    """kill -9 of `pqd serve` right behind a reply, over and over: the number sent again has its reply."""
    clear(file)
    for turn in range(1, 13):
        words = [PQD, "serve", "--clients", "2", "--records", "64", "--port", "0", "--journal", file, "--sync", policy]
        server = subprocess.Popen(words, stdout=subprocess.PIPE)
        port = int(server.stdout.readline().rsplit(b":", 1)[1])
        with socket.create_connection(("127.0.0.1", port)) as connection:
            replies = connection.makefile("rb")

            def ask(**request):
                connection.sendall(json.dumps(request).encode() + b"\n")
                return json.loads(replies.readline())

            if turn == 1:
                ask(op="create", queue="a", kind="log")
            else:
                last = ask(op="put", client=0, queue="a", number=turn - 1, value="00")
                require(last == {"reply": "done"}, f"number {turn - 1}, sent again, was answered {last}")
                told = ask(op="told", client=0, queue="a")
                require(told == {"number": turn - 1, "reply": "done", "told": "taken"}, told)
            require(ask(op="put", client=0, queue="a", number=turn, value=f"{turn:02x}") == {"reply": "done"}, turn)
            server.kill()
        server.wait()
        server.stdout.close()
    broker = Broker(file)
    got = [broker.ask({"op": "take", "client": 1, "queue": "a", "number": number}) for number in range(1, 14)]
    broker.end()
    wanted = [{"got": f"{turn:02x}", "reply": "got"} for turn in range(1, 13)] + [{"reply": "empty"}]
    require(got == wanted, got)
    return f"--sync {policy}: killed 12 times behind a reply: nothing lost, nothing doubled"


def main():
    with tempfile.TemporaryDirectory() as folder:
        file = f"{folder}/journal"
        for policy in ("always", "second", "never"):
            print(killed_while_served(file, policy))
        for policy in ("always", "never"):
            print(stopped_everywhere(file, policy))
            print(failing_everywhere(file, policy))
            print(full(file, policy))
        for rows in (refused_memory, cut_off, damaged, in_use, with_images):
            print(rows(file))
        print(odd_files(file, folder))


try:
    main()
except Wrong as wrong:
    print("wrong:", *wrong.args)
