#!/usr/bin/env python3
"""The search of Wing and Gong (1993), with memoization: wing_gong.py SECONDS < recording

It looks for an order of the calls by trying, again and again, each call that may come next, and goes back where none may;
a set of calls with what they leave of the queue is tried once. It says `explained`, `impossible`, or, after SECONDS,
`not decided`. It reads lines without times, and crashes, but nothing that was told.
"""
import json, sys, time


def calls_of(lines):
    """Each call: its begin, its end, the value that it puts or None, and its reply or None."""
    calls, under_way = [], {}
    for place, line in enumerate(lines):
        if line.get("op") == "crash":
            for call in under_way.values():
                call[1] = place
            under_way = {}
        elif "op" in line:
            under_way[line["client"]] = call = [place, len(lines), line.get("value"), None]
            calls.append(call)
        else:
            call = under_way.pop(line["client"])
            call[1], call[3] = place, line.get("got", line["reply"])
    return calls


def next_states(calls, state):
    """The states after one more call."""
    done, queue, from_place = state
    first_end = min((call[1] for n, call in enumerate(calls) if call[3] is not None and not done >> n & 1), default=None)
    for number, (begin, end, value, reply) in enumerate(calls):
        if first_end is not None and begin > first_end:
            break
        if done >> number & 1 or end < from_place:
            continue
        answer = "done" if value is not None else queue[0] if queue else "empty"
        if reply is None or reply == answer:
            left = queue + (value,) if value is not None else queue[1:]
            yield done | 1 << number, left, max(from_place, begin)


def decide(calls, seconds):
    must = sum(1 << number for number, call in enumerate(calls) if call[3] is not None)
    until, stack, seen = time.monotonic() + seconds, [(0, (), -1)], set()
    while stack:
        state = stack.pop()
        if state[0] & must == must:
            return "explained"
        if state in seen:
            continue
        seen.add(state)
        if time.monotonic() > until:
            return "not decided"
        stack.extend(next_states(calls, state))
    return "impossible"


print(decide(calls_of([json.loads(line) for line in sys.stdin]), float(sys.argv[1])))
