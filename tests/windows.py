"""What crates/windows proves, tried by brute force on drawn windows: python3 windows.py LAW [BENT]. It prints the first
case in which the law does not hold, and at the end how many cases had its premises. BENT names a premise that is left
out, or a number that is off by one: with it some case is to be found in which the law does not hold."""
import random
import sys
from itertools import permutations, product

CASES, ENOUGH = 60000, 300


def drawn_span(draw, places, low=0):
    begin = draw.randint(low, places)
    return begin, draw.randint(begin, places)


def must_precede(one, other):
    return one["put"][1] < other["put"][0] or one["take"][1] < other["take"][0]


def value_line(draw, bent):
    """Where no two values must each go before the other, all have a line."""
    values = []
    for _ in range(draw.randint(1, 4)):
        value = {"put": drawn_span(draw, 5), "take": drawn_span(draw, 5)}
        if bent == "turned" and draw.random() < 0.3:
            value["put"] = value["put"][::-1]
        values.append(value)
    two = any(must_precede(v, w) and must_precede(w, v) for v, w in product(values, repeat=2) if v is not w)
    if two and bent != "two":
        return None
    return any(
        not any(must_precede(later, line[i]) for i in range(len(line)) for later in line[i + 1 :])
        for line in permutations(values)
    ), values


def is_given(values, given):
    """Each has a take of its own in its range, and the earlier of two the earlier one, if its range ends no later."""
    return len(set(given)) == len(given) and all(
        given[v] < given[w]
        for v in range(len(given))
        for w in range(v + 1, len(given))
        if all(one <= other for one, other in zip(values[v], values[w]))
    )


def overfull(values, takes, bent):
    spare = bent == "one_more"
    return any(
        sum(first <= low and high <= last for low, high in values) > max(last - first, 0) + spare
        for first, last in product(range(takes + 2), repeat=2)
    )


def ranges(draw, bent):
    """Each value has a take in its range, or a range has more values than takes."""
    values = [(draw.randint(0, 4), draw.randint(0, 4)) for _ in range(draw.randint(1, 4))]
    given = any(is_given(values, given) for given in product(*(range(low, high) for low, high in values)))
    return given or overfull(values, 4, bent), values


def fitting(draw, bent):
    """Of sorted takes those that end behind one place and begin before another are a range."""
    takes = [drawn_span(draw, 5) for _ in range(draw.randint(1, 4))]
    begins, ends = zip(*takes)
    begins = begins if bent == "begins" else sorted(begins)
    ends = ends if bent == "ends" else sorted(ends)
    release, limit = draw.randint(0, 5), draw.randint(0, 5)
    over, begun = sum(end <= release for end in ends), sum(begin < limit for begin in begins)
    fit = [release < end and begin < limit for begin, end in zip(begins, ends)]
    return fit == [over <= k < begun for k in range(len(takes))], begins, ends, release, limit


def overfull_in(ranges, first, last):
    return sum(first <= low and high <= last for low, high in ranges) > max(last - first, 0)


def limited(values, begun, moments):
    """The ranges of values, if the queue is to be empty at the moments: those that are in by one are taken by takes begun
    by then."""
    return [
        (low, min([high, *(begun[moment] for moment in moments if is_in <= moment)])) for low, high, is_in in values
    ]


def drawn_moments(draw):
    values = [(draw.randint(0, 3), draw.randint(0, 4), draw.randint(0, 5)) for _ in range(draw.randint(1, 5))]
    return values, [draw.randint(0, 4) for _ in range(6)], draw.randint(0, 4), draw.randint(0, 4)


def moments(draw, bent):
    """A range that is too short with several moments is so with none, or with one of them."""
    values, begun, first, last = drawn_moments(draw)
    at = draw.sample(range(6), draw.randint(0, 3))
    if not overfull_in(limited(values, begun, at), first, last):
        return None
    alone = [[]] + [[moment] for moment in at][bent == "first_left_out" :]
    return any(overfull_in(limited(values, begun, it), first, last) for it in alone), values, begun, at, first, last


def crowded(draw, bent):
    """A range that is too short with one moment is so without it, or too many values are in by then."""
    values, begun, first, last = drawn_moments(draw)
    moment = draw.randint(0, 5)
    if any(v[2] < w[2] and v[1] > w[1] for v in values for w in values) and bent != "ends":
        return None
    if not overfull_in(limited(values, begun, [moment]), first, last):
        return None
    ins = sum(first <= low and is_in < moment + (bent != "in_before") for low, _, is_in in values)
    return ins > max(begun[moment] - first, 0) or overfull_in(limited(values, begun, []), first, last), values, begun, moment


def runs(queue, steps):
    queue = list(queue)
    for step, value in steps:
        if step == "put":
            queue.append(value)
        elif step == "got" and queue[:1] == [value]:
            queue.pop(0)
        elif step == "got" or queue:
            return False
    return True


def drawn_run(draw):
    base = [draw.randint(1, 3) for _ in range(draw.randint(0, 2))]
    queue, steps = list(base), []
    for _ in range(draw.randint(0, 6)):
        if draw.random() < 0.5:
            steps.append(("put", draw.randint(1, 3)))
            queue.append(steps[-1][1])
        else:
            steps.append(("got", queue.pop(0)) if queue else ("nothing", 0))
    return base, steps


def dropping(draw, bent):
    """A run is one without all that was done with some values, and without some takes that found nothing."""
    queue, steps = drawn_run(draw)
    keep = [value for value in (1, 2, 3) if draw.random() < 0.6]
    out = ("put",) if bent == "puts_alone" else ("put", "got")
    fewer = [
        it for it in steps if (it[0] not in out or it[1] in keep) and (it[0] != "nothing" or draw.random() < 0.5)
    ]
    return runs([value for value in queue if value in keep], fewer), queue, steps, fewer


def last_takes(draw, bent):
    """A run is one without its last takes."""
    queue, steps = drawn_run(draw)
    since = draw.randint(0, len(steps))
    rest = [it for it in steps[since:] if it[0] == "put" or bent == "nothing_stays" and it[0] == "nothing"]
    return runs(queue, steps[:since] + rest), queue, steps, since

def drawn_calls(draw):
    """At most six calls: what is known of each, and where it ends; none begins where one ends. Open takes end at one of
    two crashes, or behind all."""
    count = draw.randint(1, 6)
    places = 2 * count + 1
    known, end, puts = {}, {}, []
    crashes = [draw.randrange(1, places, 2), draw.randrange(1, places, 2), places]
    for place in range(0, 2 * count, 2):
        kinds = ["put_done", "put_open", "put_not", "nothing", "open", "not"] + ["got", "got", "open"] * bool(puts)
        kind = draw.choice(kinds)
        known[place] = (kind, draw.choice(puts)) if kind == "got" else (kind, None)
        end[place] = draw.randrange(place + 1, places + 1, 2)
        if kind == "open":
            end[place] = min(crash for crash in crashes if crash > place)
        if kind.startswith("put"):
            puts.append(place)
    if draw.random() < 0.3:
        for place, (kind, source) in known.items():
            if kind == "got":
                known[place] = kind, draw.choice(puts)
    return places, known, end


# Two open takes of which the later one ends first: one of the two missing values is to be taken before it began, the other
# after it ended, so both want the other take.
UNSORTED = (
    17,
    {
        0: ("put_done", None),
        2: ("put_done", None),
        4: ("open", None),
        6: ("got", 2),
        8: ("open", None),
        10: ("put_done", None),
        12: ("put_done", None),
        14: ("got", 12),
    },
    {0: 1, 2: 3, 4: 17, 6: 7, 8: 9, 10: 11, 12: 13, 14: 15},
)


def steps_of(known):
    """Every choice of steps for the calls: a value for an open take, and open calls with or without one."""
    puts = [place for place, (kind, _) in known.items() if kind in ("put_done", "put_open")]
    choices = []
    for place, (kind, source) in known.items():
        if kind == "put_done":
            choices.append([("put", place, place)])
        elif kind == "put_open":
            choices.append([None, ("put", place, place)])
        elif kind == "got":
            choices.append([("got", place, source)])
        elif kind == "nothing":
            choices.append([("nothing", place, None)])
        elif kind == "open":
            choices.append([None] + [("got", place, put) for put in puts])
    for chosen in product(*choices):
        yield [it for it in chosen if it]


def has_order(known, end):
    def goes_on(queue, left):
        if not left:
            return True
        for step in left:
            if any(end[other[1]] < step[1] for other in left):
                continue
            rest = [it for it in left if it is not step]
            if step[0] == "put" and goes_on(queue + [step[2]], rest):
                return True
            if step[0] == "got" and queue[:1] == [step[2]] and goes_on(queue[1:], rest):
                return True
            if step[0] == "nothing" and not queue and goes_on(queue, rest):
                return True
        return False

    return any(goes_on([], steps) for steps in steps_of(known))


def lacks(known, end, places, bound, may):
    """Whether takes begun before the bound cannot all have taken some values, of puts that may be meant."""
    takes = {source: place for place, (kind, source) in known.items() if kind == "got"}
    if any(take >= bound and may(put) for put, take in takes.items()):
        return True
    missing = [place for place, (kind, _) in known.items() if kind == "put_done" and place not in takes and may(place)]
    opens = [place for place, (kind, _) in known.items() if kind == "open" and place < bound]
    for since in [None, *range(places)]:
        can = [take for take in opens if since is None or end[take] > since]
        for ahead in [None, *takes]:
            those = [
                put
                for put in missing
                if since is None or since < put or ahead is not None and takes[ahead] > since and end[ahead] < put
            ]
            if len(those) > len(can):
                return True
    return False


def has_pattern(known, end, places, bent):
    got = [(place, source) for place, (kind, source) in known.items() if kind == "got"]
    if any(known[source][0] == "put_not" or end[take] < source for take, source in got):
        return True
    if len({source for _, source in got}) < len(got):
        return True
    if any(lacks(known, end, places, end[take], lambda put: end[put] < source) for take, source in got):
        return True
    return any(
        all(
            lacks(known, end, places, place + (bent != "moment"), lambda put: end[put] <= place)
            for place in range(take, end[take])
        )
        for take, (kind, _) in known.items()
        if kind == "nothing"
    )


def calls(draw, bent):
    """Of calls on a queue either some steps explain what is known, or one of the four patterns is in them."""
    places, known, end = UNSORTED if bent == "sorted" else drawn_calls(draw)
    return has_order(known, end) != has_pattern(known, end, places, bent), places, known, end


LAWS = {"calls": calls, "dropping": dropping, "last_takes": last_takes, "moments": moments, "crowded": crowded, "value_line": value_line, "ranges": ranges, "fitting": fitting}


def main(law, bent=None):
    draw, held = random.Random(law), 0
    for _ in range(CASES):
        case = LAWS[law](draw, bent)
        if case is None:
            continue
        if not case[0]:
            print(f"{law} does not hold of {case[1:]}")
            return 1
        held += 1
    print(f"{law} held {held} times" if held >= ENOUGH else f"{law} was tried only {held} times")
    return held < ENOUGH


if __name__ == "__main__":
    sys.exit(main(*sys.argv[1:]))
