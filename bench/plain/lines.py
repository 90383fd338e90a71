"""What a line of bytes means, by docs/WIRE.md: a request as a dictionary, or the name of a fault."""

import json

from form import FORM

LONGEST = 512
# serde_json reads arrays and objects in one another up to this depth.
DEEPEST = 127
GREATEST_CLIENT = 2**64 - 1
GREATEST_NUMBER = 2**40

# Of each operation: the keys that it has, and those that it may have.
KEYS = {
    "create": ({"queue", "kind"}, set()),
    "list": (set(), set()),
    "put": ({"client", "queue", "value"}, {"number"}),
    "take": ({"client", "queue"}, {"number"}),
    "told": ({"client", "queue"}, set()),
    "crash": (set(), set()),
    "recover": (set(), set()),
    "stop": (set(), set()),
}


class NoJson(ValueError):
    """It is no JSON value."""


class Odd:
    """A number with a sign, a fraction or an exponent, or one that is too great for 64 bits."""


def whole(text):
    if len(text) > 300 and float(text) in (float("inf"), -float("inf")):
        raise NoJson
    return Odd() if text.startswith("-") or int(text) > GREATEST_CLIENT else int(text)


def fraction(text):
    if float(text) in (float("inf"), -float("inf")):
        raise NoJson
    return Odd()


def constant(_):
    raise NoJson


def check_strings(value):
    """Half of a pair of surrogates is no character."""
    if isinstance(value, str):
        value.encode()
    elif isinstance(value, list):
        for part in value:
            check_strings(part)


def members(pairs):
    """An object. Of a key that stands twice the last value counts."""
    for key, value in pairs:
        check_strings(key)
        check_strings(value)
    return dict(pairs)


def depth_of(text):
    """How deep arrays and objects stand in one another, in a text that is JSON."""
    deepest = depth = 0
    within = escaped = False
    for char in text:
        if within:
            within = escaped or char != '"'
            escaped = char == "\\" and not escaped
        elif char == '"':
            within = True
        elif char in "[{":
            depth += 1
            deepest = max(deepest, depth)
        elif char in "]}":
            depth -= 1
    return deepest


def json_of(line):
    text = line.decode()
    value = json.loads(
        text, parse_int=whole, parse_float=fraction, parse_constant=constant, object_pairs_hook=members
    )
    check_strings(value)
    if depth_of(text) > DEEPEST:
        raise NoJson
    return value


def is_within(value, least, greatest):
    return type(value) is int and least <= value <= greatest


FITS = {
    "op": lambda value: True,
    "client": lambda value: is_within(value, 0, GREATEST_CLIENT),
    "value": FORM.is_message,
    "number": lambda value: is_within(value, 1, GREATEST_NUMBER),
    "queue": lambda value: isinstance(value, str),
    "kind": lambda value: value in ("durable", "log"),
}


def is_request(value):
    if not isinstance(value, dict) or not isinstance(value.get("op"), str) or value["op"] not in KEYS:
        return False
    must, may = KEYS[value["op"]]
    keys = set(value) - {"op"}
    return must <= keys <= must | may and all(FITS[key](value[key]) for key in keys)


def meaning(line):
    """A request, or TooLong, BadJson, BadRequest."""
    if len(line) > LONGEST:
        return "TooLong"
    try:
        value = json_of(line)
    except ValueError:
        return "BadJson"
    return value if is_request(value) else "BadRequest"


def lines_of(data):
    """Each ends with a newline; a last one without is a line, and an empty rest is none."""
    lines = data.split(b"\n")
    return lines if lines[-1] else lines[:-1]
