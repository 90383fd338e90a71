"""renewed.py PLAIN PQD FOLDER: `pqd --renew` on images, beside the plain programs of the folder PLAIN. Drawn images of
both kinds of queue and of both forms, and full queues, are served once with fresh records, for the same clients and
records or for others. What is listed and told is what the old image keeps, also after a crash. The image that is left
holds and tells the same, and few records are used; a log client's last number is answered as before, and its next one
runs. Where items do not fit, or clients are fewer, the file stays as it was. FOLDER is for files."""

import json
import pathlib
import random
import subprocess
import sys

sys.path.insert(0, sys.argv[1])
import image
import images
import migration
import renewal
from broker import ERRORS, NOTHING, SLOTS, verdict_of
from form import FORM, Items
from layout import block_size


class Wrong(Exception):
    """What should hold, and does not."""


def require(holds, *what):
    if not holds:
        raise Wrong(" ".join(map(str, what)))


def served(file, requests, *options):
    """The status, the replies, and what is on standard error."""
    lines = "".join(json.dumps(request) + "\n" for request in requests)
    command = [sys.argv[2], "pipe", "--image", file, *map(str, options)]
    done = subprocess.run(command, input=lines.encode(), capture_output=True, timeout=60, check=False)
    return done.returncode, [json.loads(line) for line in done.stdout.splitlines()], done.stderr.decode()


def drawn_image(draw):
    """An image whose words keep to all rules, of either form, and the broker."""
    while True:
        form = draw.choice([FORM, FORM, FORM.before])
        words = images.drawn_words(draw, form)
        try:
            broker = image.broker_of_words(words if form == FORM else migration.migrated(words))
        except image.Broken:
            continue
        return image.image_of(words, form), broker


def full_image(kind, clients, records, count):
    """An image with one queue of so many items, whose clients made no call that they could be told of."""
    items = [Items.drawn(number) for number in range(count)]
    block = renewal.Renewal(kind, clients, records, items, [NOTHING[kind]] * clients).new.words
    gates = [*images.name_words("a"), 1 if kind == "durable" else 2, 1] + [0] * (4 * (SLOTS - 1))
    words = [clients, records, *gates, *block] + [0] * ((SLOTS - 1) * block_size(clients, records))
    return image.image_of(words), image.broker_of_words(words)


def refusal_of(broker, clients, records):
    if clients < broker.clients:
        return "7 BadClients"
    fit = all(renewal.fits(len(queue.values), clients, records) for queue in broker.queues if queue)
    return None if fit else "11 NoRoom"


def tellings(queue, clients):
    return queue.kept + [NOTHING[queue.kind]] * (clients - len(queue.kept))


def asked(broker, clients):
    """All queues and what each client is told, and what is wanted of that."""
    queues = [queue for queue in broker.queues if queue]
    requests, wanted = [{"op": "list"}], [{"queues": [{"kind": queue.kind, "queue": queue.name} for queue in queues]}]
    for queue in queues:
        for client, told in enumerate(tellings(queue, clients)):
            requests.append({"op": "told", "client": client, "queue": queue.name})
            wanted.append(told)
    stops = [{"op": "crash"}, {"op": "recover"}]
    return requests + stops + requests, wanted + [{"reply": "crashed"}, {"reply": "ready"}] + wanted


def check_left(old, new, clients, records):
    """The image that is left has the queues of the old one in fresh records."""
    require((new.clients, new.records) == (clients, records), "counts", new.clients, new.records)
    for was, now in zip(old.queues, new.queues):
        require((was is None) == (now is None), "slots")
        if was is None:
            continue
        require((now.name, now.kind, now.values) == (was.name, was.kind, was.values), was.name, now.values, was.values)
        require(now.kept == tellings(was, clients), "told", now.kept)
        shares = [len(range(client, len(was.values), clients)) for client in range(clients)]
        require(now.begun == [2 + share for share in shares], "used", now.begun, shares)


def check_calls(file, old, clients, records):
    """Last numbers sent again, and a call of each client with room, in a further run on what was left."""
    requests, wanted = [], []
    for queue in filter(None, old.queues):
        items, count = list(queue.values), len(queue.values)
        for client, told in enumerate(tellings(queue, clients)):
            number, take = None, {"op": "take", "client": client, "queue": queue.name}
            if queue.kind == "log":
                number, reply = verdict_of(told) or (0, None)
                if reply is not None:
                    requests.append({**take, "number": number})
                    wanted.append(reply)
                    number += 1
                take["number"] = max(1, number)
            requests.append(take)
            if records - 2 == len(range(client, count, clients)):
                wanted.append({"error": ERRORS["NoRoom"], "name": "NoRoom"})
            else:
                wanted.append({"got": items.pop(0), "reply": "got"} if items else {"reply": "empty"})
    status, replies, fault = served(file, requests)
    require((status, replies, fault) == (0, wanted, ""), requests, replies, wanted, fault)


def check_image(file, data, old, clients, records):
    """Which way it went."""
    pathlib.Path(file).write_bytes(data)
    requests, wanted = asked(old, clients)
    options = ["--renew", "--clients", clients, "--records", records]
    status, replies, fault = served(file, requests, *options)
    refusal = refusal_of(old, clients, records)
    if refusal:
        require((status, replies, fault) == (1, [], f"pqd: {refusal}\n"), status, replies, fault, refusal)
        require(pathlib.Path(file).read_bytes() == data, refusal, "and the file has changed")
        return refusal
    require((status, replies, fault) == (0, wanted, ""), options, replies, wanted, fault)
    check_left(old, image.broker_of(pathlib.Path(file).read_bytes()), clients, records)
    check_calls(file, old, clients, records)
    return "other counts" if (clients, records) != (old.clients, old.records) else "the same counts"


def check_drawn(file):
    draw, seen = random.Random(1), {}
    for _ in range(150):
        data, old = drawn_image(draw)
        clients = max(1, old.clients + draw.choice([0, 0, 0, 1, 2, -1]))
        records = draw.choice([old.records, old.records, old.records, *range(1, 8)])
        way = check_image(file, data, old, clients, records)
        seen[way] = seen.get(way, 0) + 1
    for way, number in sorted(seen.items()):
        print(f"{way}: {number}")


def check_full(file):
    """As many items as fit, and one more."""
    for kind in ["durable", "log"]:
        for clients, records in [(1, 2), (1, 3), (2, 3), (3, 4), (16, 3)]:
            most = clients * (records - 2)
            for count in [most, most + 1]:
                data, old = full_image(kind, clients, records + 1, count)
                way = check_image(file, data, old, clients, records)
                require(way == ("other counts" if count == most else "11 NoRoom"), kind, clients, records, count, way)


def main():
    file = f"{sys.argv[3]}/renewed.image"
    try:
        check_drawn(file)
        check_full(file)
    except (Wrong, image.Broken) as wrong:
        print(f"renewed differs: {wrong}")
        return 1
    return 0


sys.exit(main())
