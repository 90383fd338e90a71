"""losing_power.py PQD LIBRARY: `pqd --journal` on a machine that loses its power at each call of the system by which it
writes its journal. The library tests/killing.c ends the program there, and tells which bytes of its files would be
left, and which names. Bytes behind those are dropped, cut off somewhere, zeros, or some blocks of them are zeros; a
renaming of which the folder does not know is undone, or not. A server that begins on what is left has a beginning of
the story that was played, and goes on with it: of --sync always all that was answered. Prints what was seen, and what
is wrong."""

import multiprocessing
import random
import resource
import sys
import tempfile
import time
from itertools import count
from pathlib import Path

sys.path.insert(0, str(Path(__file__).parent.parent / "bench" / "plain"))

import image
import journal
from journal_story import MOMENTS, MOST, STORY, Broker, Wrong, clear, require
from power import Disk, left

LIBRARY = sys.argv[2]
CREATIONS = sum(request["op"] == "create" for request, _ in STORY)


def done_by(told):
    """How many calls of a client are done, by what it is told."""
    return told.get("number", 0) - (told["told"] == "nottaken")


def beginning(tells):
    """The beginning of the story after which two clients are told this; `tells` is empty where there is no queue."""
    done = [0, 0]
    for at in range(CREATIONS, len(STORY) + 1):
        if [done_by(told) for told in tells] == done:
            return at
        if at < len(STORY):
            done[STORY[at][0]["client"]] += 1
    raise Wrong(f"no beginning of the story tells {tells}")


def kept_beginning(data):
    """The beginning of the story that a plain program finds in a journal."""
    queues = image.broker_of_words(journal.reading(data)[1]).queues
    made = sum(queue is not None for queue in queues)
    return made if made < CREATIONS else beginning(queues[0].kept[:2])


def begun(broker):
    """The beginning of the story that a broker has, by its list and by what it tells. Each told reply is the story's,
    and so is the reply to a number that is sent again."""
    listed = broker.ask({"op": "list"})
    if listed is None:
        raise Wrong("a server does not begin on what is left:", broker.end()[1])
    made = len(listed["queues"])
    if made < CREATIONS:
        return made
    tells = [broker.ask({"op": "told", "client": client, "queue": "a"}) for client in (0, 1)]
    at = beginning(tells)
    for client, told in enumerate(tells):
        calls = [(request, reply) for request, reply in STORY[CREATIONS:at] if request["client"] == client]
        if not calls:
            continue
        request, reply = calls[-1]
        if told["told"] == "nottaken":
            continue
        require(told == {**reply, "number": request["number"], "told": "taken"}, f"{told} is told of {request}")
        again = broker.ask(request)
        require(again == reply, f"{request}, sent again, was answered {again}, and not {reply}")
    return at


def begins_on(file, data, least, most):
    """A server begins on these bytes: it has at least and at most so much of the story, and plays the rest of it."""
    clear(file)
    if data is not None:
        Path(file).write_bytes(data)
    broker = Broker(file, "--sync", "never")
    at = begun(broker)
    require(least <= at <= most, f"{at} of the story are left, and not {least} to {most}")
    require(broker.play(at) == len(STORY), "the rest of the story was not answered")
    status, said = broker.end()
    require(status == 0, f"status {status}", said)


def lose_power(draw, file, disk, answered, keeps):
    """Each way in which the power may be lost, when so much of the story was answered. How many there were."""
    journals, losses = list(disk.journals()), 0
    for found in journals:
        if found is None:
            require(answered == 0, f"no journal is left, and {answered} were answered")
            begins_on(file, None, 0, 0)
            losses += 1
            continue
        least = answered if keeps else kept_beginning(found[0][:found[1]])
        for data in left(draw, *found):
            begins_on(file, data, least, answered + 1)
            losses += 1
    return losses


def lost_everywhere(file, policy, keeps, base=None):
    """The power is lost before, within and after each call of the system, while the story is played; or while a server
    begins on a journal of all of it. How often, and in how many ways."""
    draw, moments, ways = random.Random(20261128), 0, 0
    told = file + ".told"
    for moment in MOMENTS:
        for turn in count(1):
            clear(file)
            if base:
                Path(file).write_bytes(base)
            environment = {"KILLED": moment, "TURN": str(turn), "LD_PRELOAD": LIBRARY, "SYNCED": told, "KEPT": "1"}
            most = resource.RLIM_INFINITY if base else MOST
            broker = Broker(file, "--sync", policy, most=most, **environment)
            answered = broker.play(len(STORY) if base else 0)
            status, said = broker.end()
            if status == 0:
                break
            require(status == -9, f"{moment} {turn}: status {status}", said)
            try:
                ways += lose_power(draw, file, Disk(file, told), len(STORY) if base else answered, keeps)
            except Wrong as wrong:
                raise Wrong(f"at {moment} {turn}:", *wrong.args) from None
            moments += 1
    return f"at {moments} moments in {ways} ways"


def whole(file, policy):
    """The journal of the whole story, which was not stopped in order."""
    clear(file)
    broker = Broker(file, "--sync", policy)
    require(broker.play(0) == len(STORY), "not all of the story was answered")
    broker.process.kill()
    broker.end()
    return Path(file).read_bytes()


def each_second(file):
    """Two seconds after a reply its call outlasts a loss of power, and what came later may be lost."""
    told, half = file + ".told", len(STORY) // 2
    clear(file)
    broker = Broker(file, LD_PRELOAD=LIBRARY, SYNCED=told, KEPT="1")
    for request, wanted in STORY[:half]:
        require(broker.ask(request) == wanted, request)
    time.sleep(2.5)
    require(broker.play(half) == len(STORY), "not all of the story was answered")
    broker.process.kill()
    broker.end()
    data, kept = Disk(file, told).found("")
    at = kept_beginning(data[:kept])
    require(half <= at, f"{at} are kept after two seconds, and not {half}")
    begins_on(file, data[:kept], at, at)
    return "--sync second: two seconds after a reply its call is kept"


def is_seen(file):
    """A server that does not sync loses what one would keep that does."""
    try:
        lost_everywhere(file, "never", True)
    except Wrong:
        return "--sync never is seen to lose what was answered"
    raise Wrong("--sync never loses nothing")


def while_played(policy, keeps, left_is):
    return lambda file: f"--sync {policy}: power lost {lost_everywhere(file, policy, keeps)}: {left_is} is left"


def while_begun(policy):
    return lambda file: (
        f"a start, --sync {policy}: power lost {lost_everywhere(file, policy, True, whole(file, policy))}: all is left"
    )


ROWS = [
    while_played("always", True, "all that was answered"),
    while_played("never", False, "one moment"),
    while_begun("always"),
    while_begun("never"),
    each_second,
    is_seen,
]


def row(number):
    """One row, in a folder of its own."""
    with tempfile.TemporaryDirectory() as folder:
        return ROWS[number](f"{folder}/journal")


def main():
    with multiprocessing.get_context("fork").Pool() as pool:
        for line in pool.imap(row, range(len(ROWS))):
            print(line)


try:
    main()
except Wrong as wrong:
    print("wrong:", *wrong.args)
