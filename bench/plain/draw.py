"""Draws lines of requests near good ones."""

import json

from form import FORM

NAMES = ["a", "b", "q0", "queue-with-16-by", "_", "c", "d", "e", "f", "g"]
ODD_NAMES = ["", "A", "a b", "seventeen-letters", "é", "\u0000", "\U0001f600", "a\n", "\\", '"']
ODD_VALUES = [
    "-0", "-1", "0.0", "5.0", "1e3", "1E-2", "1e400", "-1e999", "01", "+1", "1.", ".5", "0x1", "1_000", "NaN",
    "Infinity",
    "18446744073709551615", "18446744073709551616", "4294967295", "4294967296", "1099511627776", "1099511627777",
    "9" * 60, "9" * 400, "1" + "0" * 320, "null", "true", "[]", "{}", '"1"', '""', "[[]]", "1e99999999999999999999",
    "0e999", *FORM.odd,
]
ODD_STRINGS = [
    '"\\ud800"', '"\\udc00"', '"\\ud83d\\ude00"', '"\\ud800\\u0041"', '"\\u0061"', '"\\x"', '"\\u12"', '"\t"', '"a',
    '"\\/"', '"\\u0000"', '"\x7f"', "'a'", '"\\uD83D\\uDE00"', '"\\n"',
]
# What odd lines are put together from. None of them stops the server by itself.
PIECES = [
    b"{", b"}", b"[", b"]", b":", b",", b'"', b"\\", b"\\u", b"\\ud800", b" ", b"\t", b"\r", b"\0", b"\xff", b"\xc3",
    b"\xe2\x82\xac", b"\xef\xbb\xbf", b"0", b"-1", b"1.5", b"1e999", b"18446744073709551616", b"null", b"true",
    b'{"op":"list"}', b'{"op":"crash"}', b'{"op":"recover"}', b'{"op":"', b'"op":"list"', b'"op":"put"', b'"op":"take"',
    b'"op":"create"', b'"op":"told"', b'"client":0', b'"queue":"a"', b'"kind":"log"',
    b'"value":%b' % json.dumps(FORM.of_number(7)).encode(), b'"number":1', b"[" * 32,
]
BYTES = b'{}[]:,"\\ \t\r\n0123456789-+.eEaulztrfn/\x00\x1f\x7f\x80\xbf\xc0\xc3\xa9\xe2\xed\xa0\xf0\xff'


class Player:
    """What a client that goes by the book would send next: it keeps its numbers, but sends some again."""

    def __init__(self, draw, clients):
        self.draw = draw
        self.clients = clients
        self.numbers = {}
        self.kinds = {}

    def number(self, client, queue):
        last = self.numbers.get((client, queue), 0)
        step = self.draw.choices([0, 1, 2, -1], [2, 12, 1, 1])[0]
        if step == 1:
            self.numbers[client, queue] = last + 1
        return max(1, last + step)

    def request(self):
        draw = self.draw
        op = draw.choices(
            ["put", "take", "told", "create", "list", "crash", "recover", "stop"], [40, 40, 8, 5, 2, 2, 4, 0.1]
        )[0]
        request = {"op": op}
        if op == "crash" and draw.random() < 0.8:
            return [request, {"op": "recover"}]
        if op in ("put", "take", "told"):
            client = draw.randrange(self.clients)
            request["client"] = client if draw.random() < 0.97 else draw.choice([16, 99, 2**64 - 1])
        if op in ("put", "take", "told", "create"):
            known = list(self.kinds) or NAMES
            request["queue"] = draw.choice(known if op != "create" and draw.random() < 0.97 else NAMES + ODD_NAMES)
        if op == "put":
            request["value"] = FORM.drawn(draw.choice([0, 1, 2**32 - 1, draw.randrange(2**32)]))
        if op == "create":
            request["kind"] = draw.choice(["durable", "log"])
            self.kinds.setdefault(request["queue"], request["kind"])
        is_log = self.kinds.get(request.get("queue")) == "log"
        if op in ("put", "take") and is_log != (draw.random() < 0.02):
            request["number"] = self.number(request["client"], request["queue"])
        return [request]

    def begin(self):
        """Some queues, so that there is something to call."""
        requests = []
        for name in self.draw.sample(NAMES[:6], self.draw.randrange(1, 4)):
            self.kinds[name] = self.draw.choice(["durable", "log"])
            requests.append({"op": "create", "queue": name, "kind": self.kinds[name]})
        return requests


def spelled(draw, request):
    """A request as JSON, its keys in any order, with white space, and now and then a character as an escape."""
    keys = list(request)
    draw.shuffle(keys)
    space = draw.choice(["", "", "", " ", "\t", " \r "])
    is_ascii = draw.random() < 0.5
    pairs = [f"{json.dumps(key)}{space}:{space}{json.dumps(request[key], ensure_ascii=is_ascii)}" for key in keys]
    text = space + "{" + space + f"{space},{space}".join(pairs) + space + "}" + space
    if draw.random() < 0.05:
        at = draw.randrange(len(text))
        if text[at].isalpha():
            text = text[:at] + f"\\u{ord(text[at]):04x}" + text[at + 1:]
    return text


def odd_value(draw, request):
    """One value is another one, or a key stands twice, or there is one too much or too few."""
    key = draw.choice(list(request))
    value = draw.choice(ODD_VALUES + ODD_STRINGS)
    change = draw.randrange(5)
    text = spelled(draw, {name: request[name] for name in request if change != 0 or name != key})
    inner = text.strip()[1:-1].strip()
    if change == 1:
        return "{" + inner + f',"{key}":{value}' + "}"
    if change == 2:
        return "{" + f'"{key}":{value},' + inner + "}"
    if change == 3:
        return "{" + inner + f',"x":{value}' + "}"
    if change == 4:
        others = [f"{json.dumps(name)}:{json.dumps(request[name])}" for name in request if name != key]
        return "{" + ",".join([f'"{key}":{value}', *others]) + "}"
    return text


def changed(draw, line):
    """Some bytes are other ones, or are missing, or there are more."""
    line = bytearray(line)
    for _ in range(draw.choice([1, 1, 1, 2, 5])):
        at = draw.randrange(len(line) + 1)
        change = draw.randrange(4)
        if change == 0:
            line[at:at + 1] = bytes([draw.choice(BYTES)])
        elif change == 1:
            line[at:at] = bytes([draw.choice(BYTES)])
        elif change == 2:
            del line[at:at + draw.choice([1, 1, 3, 20])]
        else:
            line[at:at + 1] = bytes([draw.randrange(256)])
    return bytes(line)


def odd_line(draw):
    """A line that is far from a request."""
    depth = draw.choice([1, 5, 126, 127, 128, 129, 200, 255])
    opening, closing = draw.choice([("[", "]"), ('{"a":', "}")])
    depth = depth if opening == "[" else min(depth, 80)
    return draw.choice([
        b"", b" ", b"\r", b"{}", b"[]", b"null", b"0", b'"op"', b"\xef\xbb\xbf{}", b'{"op":"list"}}',
        b'{"op":"list"}\x00',
        b" " * draw.choice([498, 499, 500, 512, 513, 600, 5000, 70000]) + b'{"op":"list"}',
        (opening * depth + ("1" if opening != "[" else "") + closing * depth).encode(),
        bytes(draw.randrange(256) for _ in range(draw.randrange(40))).replace(b"\n", b""),
        (f'{{"op":"create","kind":"log","queue":{draw.choice(ODD_STRINGS)}}}').encode(),
        (f'{{"op":{draw.choice(ODD_STRINGS + ODD_VALUES)}}}').encode(),
    ])


def pieces(draw):
    """Pieces and bytes, some of them too long for a line."""
    count = draw.randrange(draw.choices([1, 12, 200], [1, 6, 1])[0]) + 1
    drawn = [draw.choice(PIECES) if draw.random() < 0.9 else bytes([draw.randrange(256)]) for _ in range(count)]
    return b"".join(drawn).replace(b"\n", b"")


def line_for(draw, request):
    """The request, or a line near it, or one of pieces."""
    how = draw.choices(["good", "odd value", "changed", "odd", "pieces"], [78, 7, 8, 4, 3])[0]
    if how == "good":
        return spelled(draw, request).encode()
    if how == "odd value":
        return odd_value(draw, request).encode(errors="surrogatepass")
    if how == "changed":
        return changed(draw, json.dumps(request).encode())
    return odd_line(draw) if how == "odd" else pieces(draw)


def input_of(draw, clients, count):
    """Lines, of which most are requests that may be served."""
    player = Player(draw, clients)
    lines = [spelled(draw, request).encode() for request in player.begin()]
    while len(lines) < count:
        lines.extend(line_for(draw, request) for request in player.request())
    return b"\n".join(lines) + (b"" if draw.random() < 0.2 else b"\n")
