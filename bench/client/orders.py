"""Histories of clients against the order that the files of a journal are, and against `pqx check`."""

import json
import subprocess
from collections import Counter
from pathlib import Path

import histories
import order
from load import KINDS, Different


def files_of(journal):
    """The files of a journal, which were kept as they were replaced, in their order."""
    folder, name = Path(journal).parent, Path(journal).name
    kept = [path for path in folder.iterdir() if path.name.startswith(name + ".") and path.suffix[1:].isdigit()]
    return [*sorted(kept, key=lambda path: int(path.suffix[1:])), Path(journal)]


def broken_calls(calls, order):
    """What is wrong with the places that calls have in an order: calls are (kind, value), when they began, when they
    were answered, and whether they were. The places, too."""
    places = {}
    for at, effect in enumerate(order):
        if effect in places:
            return f"{effect} is twice in the journal", None
        places[effect] = at
    known = {effect: (begin, end) for effect, begin, end, _ in calls}
    for effect, _, _, is_answered in calls:
        if is_answered and effect not in places:
            return f"{effect} was answered, and is not in the journal", None
    latest = 0
    for effect in order:
        if effect not in known:
            return f"{effect} is in the journal, and nobody made it", None
        begin, end = known[effect]
        latest = max(latest, begin)
        if end < latest:
            return f"{effect} is in the journal behind a call that began after its end", None
    return None, places


def broken_empties(calls, places, order, empties):
    """A take that found nothing, and no place in the order where it can have looked."""
    sizes = [0]
    for kind, _ in order:
        sizes.append(sizes[-1] + (1 if kind == "put" else -1))
    for take in empties:
        before = [places[effect] + 1 for effect, _, end, _ in calls if effect in places and end < take.begin]
        behind = [places[effect] for effect, begin, _, _ in calls if effect in places and begin > take.end]
        if 0 not in sizes[max(before, default=0):min(behind, default=len(order)) + 1]:
            return f"it was not empty by the journal: {take}"
    return None


def check_order(players, files):
    """The order of the journal's files explains what the players were answered. How many effects it has."""
    try:
        orders = order.order_of(path.read_bytes() for path in files)
    except order.Broken as broken:
        raise Different(f"the journal's files are no order: {broken}") from None
    for queue in KINDS:
        puts = [put for player in players for put in player.puts[queue]]
        takes = [take for player in players for take in player.takes[queue]]
        calls = [(("put", put.value), put.begin, put.end, put.answered) for put in puts]
        calls += [(("take", take.value), take.begin, take.end, True) for take in takes if take.value is not None]
        found = orders.get(queue, [])
        broken, places = broken_calls(calls, found)
        broken = broken or broken_empties(calls, places, found, [take for take in takes if take.value is None])
        if broken:
            raise Different(f"{queue} ({KINDS[queue]}): {broken}")
    return sum(map(len, orders.values()))


def with_values_put_once(lines):
    """The lines, where a put that was told not to be taken, and made again, has another value than the last one of its
    number: that it was nobody's is told, and a recording has no value twice."""
    tries = Counter()
    for line in reversed(lines):
        if line.get("op") == "put":
            value = line["value"]
            if tries[value]:
                line = {**line, "value": f"{value}, {tries[value]} times again"}
            tries[value] += 1
        yield line


def test():
    """Each kind of wrong order is found, and a right one passes."""
    calls = [(("put", 1), 0, 1, True), (("put", 2), 2, 3, True), (("put", 3), 4, 9, False), (("take", 1), 5, 8, True)]
    effects = [effect for effect, *_ in calls]
    right = [effects[0], effects[1], effects[3]]
    assert broken_calls(calls, right)[0] is None
    assert broken_calls(calls, effects)[0] is None
    assert "answered" in broken_calls(calls, right[:2])[0]
    assert "twice" in broken_calls(calls, [*right, effects[0]])[0]
    assert "nobody" in broken_calls(calls, [*right, ("take", 2)])[0]
    assert "behind" in broken_calls(calls, [effects[1], effects[0], effects[3]])[0]
    places = broken_calls(calls, right)[1]
    assert broken_empties(calls, places, right, [histories.Take(None, 0, 1)]) is None
    assert "not empty" in broken_empties(calls, places, right, [histories.Take(None, 2, 3)])


def recording(queue, players, drainers, crashes):
    """The lines of a queue, in the order in which they happened: also what was taken of it in the end."""
    lines = [line for player in players for line in player.lines[queue]]
    lines += [(crash, {"op": "crash"}) for crash in crashes]
    for drainer in drainers:
        for take in drainer.takes[queue]:
            reply = {"reply": "empty"} if take.value is None else {"reply": "got", "got": take.value}
            lines.append((take.begin, {"client": drainer.client, "op": "take"}))
            lines.append((take.end, {"client": drainer.client, **reply}))
    return list(with_values_put_once([line for _, line in sorted(lines, key=lambda line: line[0])]))[::-1]


def check_recordings(pqx, players, drainers, crashes):
    """`pqx check` explains the recording of each queue. How many lines they have."""
    count = 0
    for queue in KINDS:
        lines = recording(queue, players, drainers, crashes)
        text = "".join(json.dumps(line) + "\n" for line in lines)
        checked = subprocess.run([pqx, "check"], input=text, capture_output=True, text=True)
        if checked.returncode != 0 or not checked.stdout.startswith("explained:"):
            raise Different(f"{queue} ({KINDS[queue]}): pqx check says {checked.stdout}{checked.stderr}")
        count += len(lines)
    return count
