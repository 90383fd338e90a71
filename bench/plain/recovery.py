"""Recovery, by docs/TABLES.md: steps over a machine's words, at whose end clients are told what became of their
calls."""

from layout import HEAD, TAIL
from steps import loading, storing


def recovery(machine):
    at = yield "load", HEAD
    has_moved = False
    while True:
        node = yield "load", machine.node(at, "next")
        if node and machine.kind == "log":
            entry = yield "load", machine.node(node, "insert")
            yield from storing(machine.entry(entry, "status"), 1)
        mark = 0
        if node and not has_moved:
            mark = yield "load", machine.node(node, "mark")
        if mark:
            value = None
            if machine.kind == "durable" and not machine.form.cells_name_nodes:
                value = yield from loaded(machine, node)
            yield from storing(*machine.result(mark, node, value))
            at = node
            continue
        if not has_moved:
            yield from storing(HEAD, at)
            has_moved = True
        if not node:
            break
        at = node
    yield from storing(TAIL, at)
    told = []
    for client in range(machine.clients):
        told.append((yield from telling(machine, client)))
    return told


def loaded(machine, node):
    return machine.form.message_of((yield from loading(machine.message(node))))


def telling(machine, client):
    record = yield "load", machine.announcement(client)
    if machine.kind == "log":
        return (yield from of_entry(machine, record)) if record else "none"
    if record == 0:
        return "nocall"
    cell = yield "load", machine.entry(record)
    if cell < 2:
        return "empty" if cell else "open"
    value = (yield from loaded(machine, cell - 2)) if machine.form.cells_name_nodes else cell - 2
    return f"got {machine.form.text(value)}"


def of_entry(machine, record):
    number = yield "load", machine.entry(record, "number")
    kind = yield "load", machine.entry(record, "kind")
    status = yield "load", machine.entry(record, "status")
    if kind == 1:
        if status == 1:
            return f"{number} done"
        mark = yield "load", machine.node(record, "mark")
        return f"{number} done" if mark else f"{number} nottaken"
    if status == 2:
        return f"{number} empty"
    node = yield "load", machine.entry(record, "node")
    if node == 0:
        return f"{number} nottaken"
    value = yield from loaded(machine, node)
    return f"{number} got {machine.form.text(value)}"
