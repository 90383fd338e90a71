#!/usr/bin/env python3
# Draws small recordings of queues, and compares what `pqx check` says of each with brute force: whether an order explains
# it, and otherwise the first line with which there is none. COUNT recordings are drawn, from SEED on: runs of a queue that
# is right, such runs with answers changed, and lines that mean anything; some are written as whole calls with times.
# With BATCH, so many are read by one run of the program, each as a queue of its own. PQX names the program.
import json, os, random, re, subprocess, sys
from concurrent.futures import ProcessPoolExecutor
import brute

PROGRAM = os.environ.get("PQX", os.path.join(os.path.dirname(__file__), "../../crates/pqx/out/pqx"))
MOST_CALLS = 9


class Run:
    """A run of a queue that is right, with what clients see of it."""

    def __init__(self, draw):
        self.draw, self.lines, self.queue, self.next = draw, [], [], 1
        self.clients = "abcd"[: draw.randint(1, 4)]
        self.under_way, self.waiting = {}, []
        self.calls_left = draw.randint(1, MOST_CALLS)
        if draw.random() < 0.3:
            self.queue = [self.new_value() for _ in range(draw.randint(0, 2))]
            self.lines.append({"base": list(self.queue)})

    def new_value(self):
        self.next += 1
        return self.next - 1

    def effect(self, call):
        if call["reply"] is not None:
            return
        if call["op"] == "put":
            self.queue.append(call["value"])
            call["reply"] = {"reply": "done"}
        elif self.queue:
            call["reply"] = {"reply": "got", "got": self.queue.pop(0)}
        else:
            call["reply"] = {"reply": "empty"}

    def begin(self, client):
        self.calls_left -= 1
        call = {"client": client, "op": self.draw.choice(["put", "take"]), "reply": None}
        if call["op"] == "put":
            call["value"] = self.new_value()
        self.under_way[client] = call
        self.waiting = [other for other in self.waiting if other["client"] != client]
        self.lines.append({key: call[key] for key in ("client", "op", "value") if key in call})

    def answer(self, client):
        call = self.under_way[client]
        drawn = self.draw.random()
        if drawn < 0.06:
            self.lines.append({"client": client, "reply": "unknown"})
        elif drawn < 0.16 and call["reply"] is None:
            self.lines.append({"client": client, "reply": "refused"})
        else:
            self.effect(call)
            self.lines.append({"client": client, **call["reply"]})
        del self.under_way[client]

    def crash(self):
        self.lines.append({"op": "crash"})
        self.waiting = list(self.under_way.values())
        self.under_way.clear()

    def tell(self):
        call = self.waiting.pop(self.draw.randrange(len(self.waiting)))
        if call["reply"] is None:
            self.lines.append({"client": call["client"], "told": "nottaken"})
        else:
            self.lines.append({"client": call["client"], "told": "taken", **call["reply"]})

    def step(self):
        client = self.draw.choice(self.clients)
        drawn = self.draw.random()
        if drawn < 0.07:
            self.crash()
        elif drawn < 0.2 and self.waiting:
            self.tell()
        elif client not in self.under_way:
            if self.calls_left > 0:
                self.begin(client)
        elif drawn < 0.5:
            self.effect(self.under_way[client])
        else:
            self.answer(client)

    def made(self):
        for _ in range(60):
            if self.calls_left == 0 and not self.under_way:
                break
            self.step()
        if self.draw.random() < 0.15:
            self.lines.append({"final": list(self.queue)})
        return self.lines


def with_changes(draw, lines):
    """The lines, with some answers changed."""
    lines = [dict(line) for line in lines]
    for _ in range(draw.randint(1, 2)):
        replies = [line for line in lines if "reply" in line and line["reply"] in ("got", "empty")]
        if replies:
            line = draw.choice(replies)
            if draw.random() < 0.6:
                line.update(reply="got", got=draw.randint(1, 6))
            else:
                line["reply"] = "empty"
                line.pop("got", None)
    return lines


def lines_at_random(draw):
    """Lines that clients may write, whatever they mean."""
    clients, under_way, waiting, lines, next_value = "abc"[: draw.randint(1, 3)], {}, {}, [], 1
    for _ in range(draw.randint(2, 14)):
        client = draw.choice(clients)
        if draw.random() < 0.08:
            lines.append({"op": "crash"})
            waiting, under_way = dict(under_way), {}
        elif client in waiting and draw.random() < 0.4:
            op = waiting.pop(client)
            told = draw.choice([{"told": "nottaken"}, {"told": "taken", **some_answer(draw, op)}])
            lines.append({"client": client, **told})
        elif client in under_way:
            op = under_way.pop(client)
            odd = draw.random()
            answer = {"reply": "refused"} if odd < 0.1 else {"reply": "unknown"} if odd < 0.15 else some_answer(draw, op)
            lines.append({"client": client, **answer})
        else:
            waiting.pop(client, None)
            under_way[client] = draw.choice(["put", "take"])
            lines.append({"client": client, "op": under_way[client]})
            if under_way[client] == "put":
                lines[-1]["value"] = next_value
                next_value += 1
    return lines


def some_answer(draw, op):
    if op == "put":
        return {"reply": "done"}
    return {"reply": "got", "got": draw.randint(1, 4)} if draw.random() < 0.75 else {"reply": "empty"}


def as_whole_calls(draw, lines):
    """The lines as whole calls with times, in any order, and the line and the time of each."""
    calls, under_way, first, last = [], {}, [], []
    for time, line in enumerate(lines, 1):
        if "base" in line:
            first = [line]
        elif "final" in line:
            last = [line]
        elif line.get("op") == "crash":
            calls.append({"op": "crash", "at": time})
            under_way = {}
        elif "op" in line:
            under_way[line["client"]] = {**line, "from": time}
            calls.append(under_way[line["client"]])
        elif line["reply"] != "unknown":
            under_way[line["client"]].update({"to": time, **line})
    draw.shuffle(calls)
    names = {len(lines): (len(first) + len(calls) + 1, None)}
    for number, call in enumerate(calls, len(first) + 1):
        names.update({call[key]: (number, call[key]) for key in ("from", "to", "at") if key in call})
    return first + calls + last, names


def written(seed):
    """A recording, the lines that it is written in, and the number and the time of each of its lines there."""
    lines = drawn(seed)
    draw = random.Random(-seed)
    if draw.random() < 0.2 and not any("told" in line for line in lines):
        return lines, *as_whole_calls(draw, lines)
    return lines, lines, {number: (number, None) for number in range(1, len(lines) + 1)}


def drawn(seed):
    draw = random.Random(seed)
    kind = draw.random()
    if kind < 0.25:
        return Run(draw).made()
    if kind < 0.7:
        return with_changes(draw, Run(draw).made())
    return lines_at_random(draw)


def said(lines):
    text = "".join(json.dumps(line) + "\n" for line in lines)
    ran = subprocess.run([PROGRAM, "check"], input=text, capture_output=True, text=True)
    return ran.returncode, ran.stdout, ran.stderr


def called(name, lines_before=0, time_before=0):
    """What the program calls a line, where so many lines stand before the recording, and times are later by so much."""
    line, time = name
    return f"line {lines_before + line}" + (f" (time {time_before + time})" if time else "")


def compare(seed):
    """What is wrong with what is said of a recording, and whether it has an order."""
    recorded, lines, names = written(seed)
    bad = brute.first_bad(recorded)
    want = (0, "explained: ") if bad is None else (1, f"impossible from {called(names[bad])} on: ")
    status, out, err = said(lines)
    if (status, err) == (want[0], "") and out.startswith(want[1]):
        return None, bad is None
    return failure(seed, lines, want, (status, out, err)), bad is None


def failure(seed, lines, want, got):
    text = "\n".join(json.dumps(line) for line in lines)
    return f"FAILED: recording {seed}: wanted {want}, got {got}\n{text}"


def later(line, time):
    """The line, with its times later by so much."""
    return {key: value + time if key in ("from", "to", "at") else value for key, value in line.items()}


def joined(recordings):
    """Recordings as queues of one: its lines, and for each what the program has to say of it. A crash is of all queues; for
    those before and behind it comes after, or before, all that happens there."""
    lines, wanted, time = [], {}, 0
    for seed, (recorded, own, names) in recordings:
        bad = brute.first_bad(recorded)
        wanted[str(seed)] = None if bad is None else called(names[bad], len(lines), time)
        name = {"queue": seed}
        lines += [later(line if line.get("op") == "crash" else {**name, **line}, time) for line in own]
        time += len(recorded) + 1
    return lines, wanted


def compare_joined(recordings):
    """What is wrong with what is said of recordings, as queues of one."""
    lines, wanted = joined(recordings)
    status, out, err = said(lines)
    found = re.findall(r"^queue (\d+): (?:(explained): |impossible from (line \d+(?: \(time \d+\))?) on: )", out, re.M)
    got = {seed: None if explained else line for seed, explained, line in found}
    # (a recording of crashes alone names no queue)
    for seed, line in [(seed, line) for seed, line in wanted.items() if seed not in got and line is None]:
        if all(line.get("op") == "crash" for line in dict(recordings)[int(seed)][1]):
            del wanted[seed]
    if got == wanted and err == "" and status == (1 if any(wanted.values()) else 0):
        return []
    wrong = [seed for seed in wanted if seed not in got or got[seed] != wanted[seed]] or [str(recordings[0][0])]
    return [failure(int(it), dict(recordings)[int(it)][1], wanted.get(it), (got.get(it), status, err)) for it in wrong]


def compare_batch(seeds):
    """The same of the recordings from one seed up to another, those with times and those without apart."""
    drawn_ones = [(seed, written(seed)) for seed in range(*seeds)]
    timed = [it for it in drawn_ones if it[1][0] is not it[1][1]]
    plain = [it for it in drawn_ones if it[1][0] is it[1][1]]
    failures = [failure for part in (timed, plain) if part for failure in compare_joined(part)]
    explained = sum(brute.first_bad(it[1][0]) is None for it in drawn_ones)
    return failures, explained, len(drawn_ones)


def compare_alone(seeds):
    failures, explained = [], 0
    for seed in range(*seeds):
        failure, is_explained = compare(seed)
        failures += [failure] if failure else []
        explained += is_explained
    return failures, explained, seeds[1] - seeds[0]


def main():
    count, seed = int(sys.argv[1]), int(sys.argv[2])
    batch = int(sys.argv[3]) if len(sys.argv) > 3 else 1
    step = batch if batch > 1 else 100
    parts = [(it, min(it + step, seed + count)) for it in range(seed, seed + count, step)]
    explained, played, failed = 0, 0, 0
    with ProcessPoolExecutor(max_workers=int(os.environ.get("WORKERS", "4"))) as pool:
        for failures, some, number in pool.map(compare_batch if batch > 1 else compare_alone, parts):
            explained, played = explained + some, played + number
            for it in failures:
                failed += 1
                if failed <= 5:
                    print(it)
    print(f"drawn recordings from {seed} on: {explained} that an order explains, {played - explained} that none does")
    print(f"{played - failed} passed, {failed} failed")
    sys.exit(1 if failed else 0)


if __name__ == "__main__":
    main()
