"""renewing.py PLAIN: words of queues at rest in fresh records, by the plain programs of the folder PLAIN. Drawn words of
both kinds, and words that runs left wherever they stopped, are renewed for the same clients and records or for more.
The new words keep to each rule, hold the same items, and tell each client the same. A machine that recovers on them is
told the same, and its calls take the items in their order. Where they do not fit nothing is written."""

import random
import sys

sys.path.insert(0, sys.argv[1])
import image
import images
import renewal
from form import FORM
from machine import Machine

SHAPES = [(1, 1), (1, 2), (2, 1), (2, 2), (2, 3), (3, 2), (1, 5), (3, 4), (4, 8)]
NOTHING = {"durable": {"row": "nocall"}, "log": {"told": "none"}}


class Wrong(Exception):
    """What should hold, and does not."""


def require(holds, *what):
    if not holds:
        raise Wrong(" ".join(map(str, what)))


def reply_to(machine, client, number, message):
    """The reply to a call that goes on alone."""
    refusal = machine.start(client, number, message)
    if refusal:
        return refusal
    call = None
    while call is None:
        call = machine.step(client)
    return call.reply


def told_at_recovery(machine):
    """What clients are told once the machine has recovered."""
    done = None
    while done is None:
        done = machine.recover_step()
    return done[1]


def drawn_block(draw):
    """A queue's words, which keep to all rules, or None."""
    shape = (draw.choice(["durable", "log"]), *draw.choice(SHAPES))
    words = draw.choice([images.drawn_block, images.played_block])(draw, *shape, FORM)
    block = image.Block(*shape, words, FORM)
    try:
        block.check()
    except image.Broken:
        return None
    return block


def check_calls(new, tells):
    """A machine on these words recovers, is told the same, and takes the items in their order."""
    machine = Machine(new.kind, new.clients, new.records, FORM)
    machine.kept = new.words[:new.size]
    machine.crash()
    told = told_at_recovery(machine)
    require(len(told) == new.clients, told)
    items = [FORM.text(item) for item in new.queue("").values]
    require(machine.content() == items, machine.content(), items)
    for client in range(new.clients):
        if not items or new.begun(client) == new.records:
            continue
        number = tells[client].get("number", 0) + 1
        reply = reply_to(machine, client, number, None)
        require(reply == f"got {items.pop(0)}", client, reply)


def check_renewal(block, clients, records):
    """Whether it fits."""
    old = block.queue("")
    words = renewal.renewed(block, clients, records)
    fits = records >= 2 and len(old.values) <= clients * (records - 2)
    require((words is not None) == fits, "fits", fits)
    if words is None:
        return False
    new = image.Block(block.kind, clients, records, words, FORM)
    new.check()
    found = new.queue("")
    require(found.values == old.values, "content", found.values, old.values)
    tells = old.kept + [NOTHING[block.kind]] * (clients - block.clients)
    require(found.kept == tells, "told", found.kept, tells)
    shares = [len(range(client, len(old.values), clients)) for client in range(clients)]
    require(found.begun == [2 + share for share in shares], "used", found.begun, shares)
    check_calls(new, tells)
    return True


def main():
    draw, count = random.Random(1), {}
    try:
        for _ in range(6000):
            block = drawn_block(draw)
            if block is None:
                continue
            clients = block.clients + draw.choice([0, 0, 1, 2])
            records = draw.choice([block.records, block.records + 1, *range(1, 6)])
            if check_renewal(block, clients, records):
                for told in block.queue("").kept:
                    what = told.get("reply") or told.get("row") or told["told"]
                    count[block.kind, what] = count.get((block.kind, what), 0) + 1
            else:
                count[block.kind, "does not fit"] = count.get((block.kind, "does not fit"), 0) + 1
    except (Wrong, image.Broken) as wrong:
        print(f"renewal differs: {wrong}")
        return 1
    for (kind, what), number in sorted(count.items()):
        print(f"{kind}: {what} {number}")
    return 0


sys.exit(main())
