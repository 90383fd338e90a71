#!/usr/bin/env python3
# The first line of a recording with which no order is left, by brute force: every state that a queue may be in is
# followed through the lines. It reads what docs/HISTORIES.md says, and shares nothing with the program.
import json, sys


class Calls:
    """The calls of a recording so far: what each asks for, and whether it is open."""

    def __init__(self):
        self.asked, self.open, self.of = [], set(), {}

    def begin(self, client, asks):
        self.asked.append(asks)
        self.open.add(len(self.asked) - 1)
        self.of[client] = len(self.asked) - 1


def closed(states, calls):
    """The states that these lead to, by any open calls that take effect one after another."""
    seen, left = set(states), list(states)
    while left:
        queue, done = left.pop()
        for call in calls.open:
            if any(call == other for other, _ in done):
                continue
            asks = calls.asked[call]
            if asks is not None:
                state = (queue + (asks,), done | {(call, "done")})
            elif queue:
                state = (queue[1:], done | {(call, ("got", queue[0]))})
            else:
                state = (queue, done | {(call, "empty")})
            if state not in seen:
                seen.add(state)
                left.append(state)
    return seen


def reply_of(line):
    return ("got", line["got"]) if line["reply"] == "got" else line["reply"]


def after(states, calls, line):
    """The states after a line."""
    if "base" in line:
        return {(queue + tuple(line["base"]), done) for queue, done in states}
    if "final" in line:
        states = closed(states, calls)
        calls.open.clear()
        return {state for state in states if state[0] == tuple(line["final"])}
    if line.get("op") == "crash":
        states = closed(states, calls)
        calls.open.clear()
        return states
    client = line["client"]
    if "op" in line:
        calls.begin(client, line["value"] if line["op"] == "put" else None)
        return states
    call = calls.of[client]
    if "told" in line:
        if line["told"] == "nottaken":
            return {state for state in states if all(other != call for other, _ in state[1])}
        return {state for state in states if (call, reply_of(line)) in state[1]}
    if line["reply"] == "unknown":
        return states
    states = closed(states, calls)
    calls.open.discard(call)
    if line["reply"] == "refused":
        return {state for state in states if all(other != call for other, _ in state[1])}
    return {(queue, done - {(call, reply_of(line))}) for queue, done in states if (call, reply_of(line)) in done}


def first_bad(lines):
    """The number of the first line with which no order is left, or None."""
    states, calls = {((), frozenset())}, Calls()
    for number, line in enumerate(lines, 1):
        states = after(states, calls, line)
        if not states:
            return number
    return None


if __name__ == "__main__":
    print(first_bad([json.loads(line) for line in sys.stdin if line.strip()]))
