"""Draws images near those that a broker may leave."""

import struct

from broker import SLOTS
from form import FORM
from image import Block, image_of
from layout import HEAD, TAIL, block_size
from machine import Machine

NAMES = ["a", "b", "sixteen-letters-", "x_1", "z", "0", "-", "q"]


def name_words(name):
    return struct.unpack("<2Q", name.encode().ljust(16, b"\0"))


def put_chain(draw, block, issued):
    """Links some of the issued nodes, claims a beginning of them, and answers some of the claims."""
    chain = draw.sample(issued, draw.randrange(len(issued) + 1)) if issued else []
    others = [number for number in issued if block.kind == "durable" or number not in chain]
    claimed = chain[:draw.randrange(min(len(chain), len(others)) + 1)]
    marks = draw.sample(others, len(claimed))
    head = draw.randrange(len(claimed) + 1)
    block.words[HEAD] = claimed[head - 1] if head else 0
    block.words[TAIL] = draw.choice([0, *chain])
    at = 0
    for number in chain:
        block.words[block.node(at, "next")] = number
        at = number
    for place, (number, mark) in enumerate(zip(claimed, marks)):
        block.words[block.node(number, "mark")] = mark
        put_answer(block, mark, number, place < head or draw.random() < 0.5)
    return chain, dict(zip(marks, claimed))


def put_answer(block, mark, number, is_answered):
    if block.kind == "log":
        block.words[block.entry(mark, "kind")] = 2
    if is_answered and block.kind == "durable":
        block.words[block.entry(mark)] = block.form.cell_of(number, block.message_at(number))
    elif is_answered:
        block.words[block.entry(mark, "node")] = number


def put_entries(draw, block, issued, chain, marks):
    """The rest of the entries of a log queue, and which of them are announced."""
    for number in issued:
        at = block.entry(number, "number")
        block.words[at] = draw.choice([0, 1, 2, 3, draw.randrange(1, 2**40)])
        if number in chain:
            block.words[at + 1:at + 4] = [1, draw.choice([0, 1]), number]
            block.words[block.node(number, "insert")] = number
        elif number not in marks:
            kind = draw.choice([0, 1, 2])
            block.words[at + 1] = kind
            block.words[at + 2] = draw.choice([0, 2]) if kind == 2 else 0
            block.words[at + 3] = number if kind == 1 else 0


def drawn_block(draw, kind, clients, records, form):
    """The words of a queue's block, which are sound in most cases."""
    block = Block(kind, clients, records, [0] * block_size(clients, records, form), form)
    issued = []
    for client in range(clients):
        bump = draw.randrange(records + 1)
        block.words[block.bump(client)] = bump
        issued.extend(1 + client * records + record for record in range(bump))
    for number in issued:
        message = form.drawn(draw.choice([0, 5, 2**32 - 1, draw.randrange(2**32)]))
        for word, value in zip(block.message(number), form.words_of(message)):
            block.words[word] = value
    chain, marks = put_chain(draw, block, issued)
    if kind == "log":
        put_entries(draw, block, issued, chain, marks)
    else:
        for number in issued:
            if number not in marks and draw.random() < 0.3:
                block.words[block.entry(number)] = 1
    announce(draw, block, issued)
    return block.words


def announce(draw, block, issued):
    for client in range(block.clients):
        own = [number for number in issued if (number - 1) // block.records == client]
        number = draw.choice([0, *own])
        if number and block.kind == "log":
            at = block.entry(number, "number")
            block.words[at] = max(1, block.words[at])
            if block.words[at + 1] == 0:
                number = 0
        block.words[block.announcement(client)] = number


def played_block(draw, kind, clients, records, form):
    """The words that a queue's calls left when everything stopped."""
    machine, numbers = Machine(kind, clients, records, form), [0] * clients
    for _ in range(draw.randrange(120)):
        client, act = draw.randrange(clients), draw.random()
        if machine.recovery:
            machine.recover_step()
        elif act < 0.1:
            machine.keep(draw.randrange(len(machine.kept)))
        elif act < 0.12:
            machine.crash()
        elif machine.calls[client]:
            machine.step(client)
        else:
            numbers[client] += 1
            number = draw.choice([None, draw.randrange(100)])
            machine.start(client, numbers[client], None if number is None else form.drawn(number))
    return machine.kept + [0] * (block_size(clients, records, form) - len(machine.kept))


def drawn_words(draw, form):
    clients, records = draw.choice([(1, 1), (1, 2), (2, 1), (2, 2), (2, 3), (3, 2), (1, 5)])
    names = draw.sample(NAMES, SLOTS)
    head, blocks = [clients, records], []
    for slot in range(SLOTS):
        if draw.random() < 0.4:
            kind = draw.choice(["durable", "log"])
            head += [*name_words(names[slot]), 1 if kind == "durable" else 2, 1]
            blocks += draw.choice([drawn_block, played_block])(draw, kind, clients, records, form)
        else:
            head += draw.choice([[0, 0, 0, 0], [*name_words(names[slot]), 1, 0], [97, 0, 0, 0]])
            blocks += [0] * block_size(clients, records, form)
    return head + blocks


def change_words(draw, words):
    """Some words have other values: none, one that stands elsewhere, one beside it, or one that is too great."""
    for _ in range(draw.choice([1, 1, 2, 4])):
        used = [at for at, word in enumerate(words) if word]
        at = draw.choice(used if draw.random() < 0.7 else range(len(words)))
        how = draw.randrange(4)
        if how == 0:
            words[at] = 0
        elif how == 1:
            words[at] = words[draw.choice(used)]
        elif how == 2:
            words[at] = max(0, words[at] + draw.choice([-1, 1]))
        else:
            words[at] = draw.choice([1, 2, 3, draw.randrange(8), 2**32, 2**40, 2**40 + 1, 2**63, 2**64 - 1])
        words[at] %= 2**64


def change_bytes(draw, data):
    """Some bytes are other ones, missing, or more."""
    data = bytearray(data)
    how = draw.randrange(5)
    at = draw.randrange(len(data)) if draw.random() < 0.5 else draw.randrange(min(len(data), 300))
    if how == 0:
        return bytes(data[:at])
    if how == 1:
        return bytes(data) + bytes(draw.randrange(1, 20))
    if how == 2:
        data[at] ^= 1 << draw.randrange(8)
    elif how == 3:
        data[draw.randrange(12)] = draw.randrange(256)
    else:
        data[at] = draw.randrange(256)
    return bytes(data)


def drawn_image(draw, left):
    """An image, drawn or one that was left by a broker, and perhaps changed; some are of the form before."""
    form = FORM.before if FORM.before and draw.random() < 0.3 else FORM
    words = drawn_words(draw, form)
    if left is not None and draw.random() < 0.4:
        form = FORM
        words = list(struct.unpack_from(f"<{(len(left) - 12) // 8}Q", left, 12))
    if draw.random() < 0.4:
        change_words(draw, words)
    data = image_of(words, form)
    return change_bytes(draw, data) if draw.random() < 0.15 else data
