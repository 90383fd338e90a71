#!/usr/bin/env python3
# Draws small recordings of several queues, with crashes of all, and compares what `pqx check` says with brute force on
# each queue alone: its first line with which no order is left, and that the queue of the first such line stands in
# front. COUNT recordings are drawn, from SEED on. PQX names the program.
import random, re, sys
from concurrent.futures import ThreadPoolExecutor
import brute, drawn


def answers(op, line):
    """Whether the line can say what became of a call that puts, or takes, or of none."""
    reply = line.get("reply")
    return op is not None and (reply in (None, "refused", "unknown") or (op == "put") == (reply == "done"))


class Merged:
    """Lines of several queues, one after another: those that no client of the queue can write are left out."""

    def __init__(self, names):
        self.lines, self.own = [], {name: [] for name in names}
        self.under_way = {name: {} for name in names}
        self.interrupted = {name: {} for name in names}
        self.over = set()

    def add_crash(self):
        self.lines.append({"op": "crash"})
        for name, under_way in self.under_way.items():
            if name not in self.over:
                self.own[name].append((len(self.lines), self.lines[-1]))
                self.interrupted[name].update(under_way)
                under_way.clear()

    def fits(self, name, line):
        client = line.get("client")
        if name in self.over or ("base" in line and self.own[name]):
            return False
        if "op" in line:
            return client not in self.under_way[name]
        if "told" in line:
            return client not in self.under_way[name] and answers(self.interrupted[name].get(client), line)
        return client is None or answers(self.under_way[name].get(client), line)

    def add(self, name, line):
        if not self.fits(name, line):
            return
        self.lines.append({"queue": name, **line})
        self.own[name].append((len(self.lines), line))
        client = line.get("client")
        if "final" in line:
            self.over.add(name)
        elif "op" in line:
            self.under_way[name][client] = line["op"]
            self.interrupted[name].pop(client, None)
        elif "told" in line:
            self.interrupted[name].pop(client, None)
        else:
            self.under_way[name].pop(client, None)


def merged(seed):
    draw = random.Random(seed)
    left = {name: drawn.drawn(seed * 3 + number) for number, name in enumerate("abc"[: draw.randint(2, 3)])}
    recording = Merged(left)
    while any(left.values()):
        name = draw.choice([name for name, lines in left.items() if lines])
        line = left[name].pop(0)
        if line.get("op") == "crash":
            if draw.random() < 0.5:
                recording.add_crash()
        else:
            recording.add(name, line)
    return recording


def wanted(own):
    """What is wanted of a queue: the number of its first bad line, or None."""
    line = brute.first_bad([line for _, line in own])
    return None if line is None else own[line - 1][0]


def compare(seed):
    recording = merged(seed)
    status, out, err = drawn.said(recording.lines)
    want = {name: wanted(own) for name, own in recording.own.items() if any("op" not in it or it["op"] != "crash" for _, it in own)}
    said = re.findall(r"^queue (\w+): (?:explained|impossible from line (\d+) on): ", out, re.M)
    got = {name: int(line) if line else None for name, line in said}
    bad = [line for line in want.values() if line is not None]
    in_front = not bad or (said and said[0][1] == str(min(bad)))
    if err == "" and got == want and status == (1 if bad else 0) and in_front:
        return len(want), len(bad), None
    text = "\n".join(map(str, recording.lines))
    return len(want), len(bad), f"FAILED: recording {seed}: wanted {want}, got {status} {out!r} {err!r}\n{text}"


def main():
    count, seed = int(sys.argv[1]), int(sys.argv[2])
    queues, wrong, failed = 0, 0, 0
    with ThreadPoolExecutor(max_workers=4) as pool:
        for own, bad, failure in pool.map(compare, range(seed, seed + count)):
            queues, wrong = queues + own, wrong + bad
            if failure:
                failed += 1
                if failed <= 5:
                    print(failure)
    print(f"drawn recordings of {queues} queues from {seed} on: {wrong} queues that no order explains")
    print(f"{count - failed} passed, {failed} failed")
    sys.exit(1 if failed else 0)


if __name__ == "__main__":
    main()
