"""Whether a queue's history is explained by a first-in-first-out order, where each value was put once and the queue was
drained at the end. Each test is sound: what it finds, no order explains. Together the tests miss nothing (Henzinger,
Sezgin and Vafeiadis 2013)."""

from typing import NamedTuple


class Put(NamedTuple):
    value: str
    begin: int
    end: int
    # Whether it was answered. One that was not may have taken effect, by its end, or never.
    answered: bool


class Take(NamedTuple):
    # None: the queue was empty.
    value: str | None
    begin: int
    end: int


def broken_values(puts, takes):
    """What is doubled, got from nowhere, or lost."""
    taken = {}
    for take in takes:
        if take.value in taken:
            return f"{take.value} was got twice: {taken[take.value]}, {take}"
        taken[take.value] = take
    put_of = {put.value: put for put in puts}
    for take in takes:
        put = put_of.get(take.value)
        if put is None or put.begin > take.end:
            return f"{take.value} was got before it was put: {take}, {put}"
    for put in puts:
        if put.answered and put.value not in taken:
            return f"{put.value} is lost: {put}"
    return None


def broken_order(values):
    """A value that was put after another one, and got before it."""
    by_end = sorted(values, key=lambda value: value[0].end)
    latest, at = None, 0
    for put, take in sorted(values, key=lambda value: value[0].begin):
        while by_end[at][0].end < put.begin:
            if latest is None or by_end[at][1].begin > latest[1].begin:
                latest = by_end[at]
            at += 1
        if latest is not None and latest[1].begin > take.end:
            return f"{put.value} overtook {latest[0].value}: {put}, {take}, {latest[0]}, {latest[1]}"
    return None


def broken_empty(values, empties):
    """A take that was answered empty, though at each moment of it some value was in the queue."""
    filled = []
    for begin, end in sorted((put.end, take.begin) for put, take in values if put.end <= take.begin):
        if filled and begin <= filled[-1][1]:
            filled[-1][1] = max(filled[-1][1], end)
        else:
            filled.append([begin, end])
    at = 0
    for empty in sorted(empties, key=lambda take: take.begin):
        while at < len(filled) and filled[at][1] < empty.begin:
            at += 1
        if at < len(filled) and filled[at][0] <= empty.begin and empty.end <= filled[at][1]:
            return f"it was not empty: {empty}"
    return None


def difference(puts, takes):
    """The first thing that no order explains; None where there is none."""
    got = [take for take in takes if take.value is not None]
    broken = broken_values(puts, got)
    if broken:
        return broken
    put_of = {put.value: put for put in puts}
    values = [(put_of[take.value], take) for take in got]
    empties = [take for take in takes if take.value is None]
    return broken_order(values) or broken_empty(values, empties)


def test():
    """Each kind of broken history is found, and a right one passes."""
    puts = [Put(1, 0, 1, True), Put(2, 2, 3, True), Put(3, 4, 9, False)]
    right = [Take(1, 5, 8), Take(2, 6, 7), Take(None, 8, 10)]
    assert difference(puts, right) is None
    assert difference(puts, right + [Take(3, 11, 12)]) is None
    assert "twice" in difference(puts, right + [Take(2, 11, 12)])
    assert "before it was put" in difference(puts, right + [Take(4, 11, 12)])
    assert "before it was put" in difference(puts, [Take(3, 2, 3)])
    assert "lost" in difference(puts, right[:1])
    assert "overtook" in difference(puts, [Take(2, 5, 6), Take(1, 7, 8)])
    assert "not empty" in difference(puts, [Take(None, 2, 4), Take(1, 5, 6), Take(2, 7, 8)])
