#!/usr/bin/env python3
"""Turns a history of Jepsen into a recording: python3 from_jepsen.py history.edn | pqx check

A history is operations, one after another or in one vector, with `:type`, `:process`, `:f` and `:value`:
    :enqueue, :dequeue   a put and a take
    :drain               takes of the values that it answers, in its time: where another call was answered meanwhile, they
                         overlap each other
    :ok                  the answer; a dequeue that answers nil found nothing
    :fail                the call certainly did nothing; of a dequeue it is not said that the queue was empty
    :info                nobody will answer the call, which may take effect yet; of a process's operation it is that,
                         of `:nemesis` or of any other `:f` it is left out
With --crash kill, an `:info` of `:f :kill` is a crash: what was open then takes effect before it, or never.
"""
import argparse, json, sys

# A small reader of EDN: what histories are written in.

class Keyword(str):
    """A keyword or a symbol, as it is written."""

CLOSING = {"(": ")", "[": "]", "{": "}", "#{": "}"}
NAMED = {"newline": "\n", "space": " ", "tab": "\t", "return": "\r", "formfeed": "\f", "backspace": "\b"}
ESCAPES = {"n": "\n", "t": "\t", "r": "\r", "f": "\f", "b": "\b", '"': '"', "\\": "\\"}

class Reader:
    """Reads values from a text, one after another."""

    def __init__(self, text):
        self.text, self.at = text, 0

    def fail(self, why):
        line = self.text.count("\n", 0, self.at) + 1
        raise ValueError(f"line {line}: {why}")

    def skip(self):
        """Skips what is between values: spaces, commas, comments, and values after #_."""
        while self.at < len(self.text):
            if self.text[self.at].isspace() or self.text[self.at] == ",":
                self.at += 1
            elif self.text[self.at] == ";":
                end = self.text.find("\n", self.at)
                self.at = len(self.text) if end < 0 else end
            elif self.text.startswith("#_", self.at):
                self.at += 2
                self.value()
            else:
                return

    def values(self):
        """All values of the text."""
        self.skip()
        while self.at < len(self.text):
            yield self.value()
            self.skip()

    def value(self):
        self.skip()
        if self.at >= len(self.text):
            self.fail("the text ends within a value")
        start = self.text[self.at]
        if self.text.startswith("#{", self.at):
            return self.items("#{")
        if start in "([":
            return self.items(start)
        if start == "{":
            items = self.items("{")
            if len(items) % 2:
                self.fail("a map has a key without a value")
            return {key_of(key): value for key, value in zip(items[::2], items[1::2])}
        if start == '"':
            return self.string()
        if start == "\\":
            return self.character()
        if start == "#":
            self.at += 1
            self.word()
            return self.value()
        if start in ")]}":
            self.fail(f"{start} closes nothing")
        return self.atom(self.word())

    def items(self, opening):
        """The values up to what closes the bracket."""
        self.at += len(opening)
        items = []
        self.skip()
        while not self.text.startswith(CLOSING[opening], self.at):
            items.append(self.value())
            self.skip()
        self.at += 1
        return items

    def string(self):
        text = ""
        self.at += 1
        while self.at < len(self.text):
            letter = self.text[self.at]
            self.at += 1
            if letter == '"':
                return text
            if letter == "\\":
                letter = self.text[self.at : self.at + 1]
                self.at += 1
                if letter == "u":
                    letter = chr(int(self.text[self.at : self.at + 4], 16))
                    self.at += 4
                else:
                    letter = ESCAPES.get(letter) or self.fail(f"\\{letter} is no escape")
            text += letter
        self.fail("the text ends within a string")

    def character(self):
        self.at += 1
        first = self.text[self.at : self.at + 1]
        self.at += 1
        rest = self.word() if first.isalnum() else ""
        if first == "u" and len(rest) == 4:
            return chr(int(rest, 16))
        return NAMED.get(first + rest, first)

    def word(self):
        start = self.at
        while self.at < len(self.text) and not self.text[self.at].isspace() and self.text[self.at] not in ',;"()[]{}':
            self.at += 1
        return self.text[start : self.at]

    def atom(self, word):
        if word in ("nil", "true", "false"):
            return {"nil": None, "true": True, "false": False}[word]
        number = word.rstrip("NM") if word[:1].isdigit() or word[:1] in "+-" and word[1:2].isdigit() else ""
        for kind in (int, float) if number else ():
            try:
                return kind(number)
            except ValueError:
                pass
        return Keyword(word)

def key_of(key):
    return key if isinstance(key, (str, int, float, bool, type(None))) else json.dumps(key)

# From operations to lines.

def json_of(value):
    """A value as a recording may have it: a text or a whole number."""
    is_whole = isinstance(value, int) and not isinstance(value, bool)
    return value if is_whole or type(value) is str else json.dumps(value)

def operations(values):
    """The operations of a history: its values, or those of the one vector that it is."""
    for value in values:
        if isinstance(value, dict):
            yield value
        elif isinstance(value, list):
            yield from operations(value)
        else:
            raise ValueError(f"{value!r} is no operation")

def is_process(operation):
    return isinstance(operation.get(":process"), int) and operation.get(":f") in (":enqueue", ":dequeue", ":drain")

def is_crash(operation, crashes):
    return operation.get(":f") in [f":{f}" for f in crashes] and operation.get(":type") == ":info"

def drains(history, crashes):
    """The values of each drain, by its invocation, and whether any call was answered meanwhile, or all crashed."""
    found, under_way = {}, {}
    for number, operation in enumerate(history):
        process, kind = operation.get(":process"), operation.get(":type")
        if is_process(operation) and operation[":f"] == ":drain":
            if kind == ":invoke":
                under_way[process] = found[number] = {"values": None, "overlaps": False}
            elif kind == ":ok" and process in under_way:
                under_way.pop(process)["values"] = operation.get(":value") or []
            elif kind == ":fail" and process in under_way:
                under_way.pop(process)["values"] = []
        if is_process(operation) and kind == ":ok" or is_crash(operation, crashes):
            for drain in under_way.values():
                drain["overlaps"] = True
    if any(drain["values"] is None for drain in found.values()):
        raise ValueError("a drain was not answered: nobody knows what it took")
    return found

class Lines:
    """The lines of a recording."""

    def __init__(self, history, crashes):
        self.history, self.crashes, self.lines = history, crashes, []
        self.drains, self.drained = drains(history, crashes), {}

    def add(self, **line):
        self.lines.append(line)

    def drain(self, number, process):
        """The takes of a drain begin: all of them here, if they have to overlap."""
        values, overlaps = self.drains[number]["values"], self.drains[number]["overlaps"]
        takes = [(f"{process}, drain {place}" if overlaps else process, json_of(value)) for place, value in enumerate(values)]
        self.drained[process] = takes, overlaps
        for client, _ in takes if overlaps else []:
            self.add(client=client, op="take")

    def drain_ends(self, process):
        takes, overlaps = self.drained.pop(process)
        for client, value in takes:
            if not overlaps:
                self.add(client=client, op="take")
            self.add(client=client, reply="got", got=value)

    def invoke(self, number, process, f, value):
        if f == ":enqueue":
            self.add(client=process, op="put", value=json_of(value))
        elif f == ":dequeue":
            self.add(client=process, op="take")
        elif f == ":drain":
            self.drain(number, process)

    def answer(self, process, kind, f, value):
        if f == ":drain":
            self.drain_ends(process)
        elif kind == ":fail":
            self.add(client=process, reply="refused")
        elif kind == ":info":
            self.add(client=process, reply="unknown")
        elif f == ":enqueue":
            self.add(client=process, reply="done")
        elif value is None:
            self.add(client=process, reply="empty")
        else:
            self.add(client=process, reply="got", got=json_of(value))

    def all(self):
        under_way, interrupted = {}, {}
        for number, operation in enumerate(self.history):
            process, kind, f = operation.get(":process"), operation.get(":type"), operation.get(":f")
            if is_crash(operation, self.crashes):
                self.add(op="crash")
                interrupted, under_way = {**interrupted, **under_way}, {}
            if not is_process(operation):
                continue
            if kind == ":invoke":
                if process in under_way:
                    raise ValueError(f"process {process} has two calls under way")
                under_way[process] = f
                self.invoke(number, process, f, operation.get(":value"))
            elif process in interrupted:
                interrupted.pop(process)
                if kind != ":info":
                    raise ValueError(f"process {process} is answered though all crashed meanwhile")
            elif under_way.pop(process, None) != f:
                raise ValueError(f"process {process} is answered what it did not call")
            else:
                self.answer(process, kind, f, operation.get(":value"))
        return self.lines

def lines_of(text, crashes=()):
    return Lines(list(operations(Reader(text).values())), crashes).all()

if __name__ == "__main__":
    asked = argparse.ArgumentParser(description=__doc__, formatter_class=argparse.RawDescriptionHelpFormatter)
    asked.add_argument("history", nargs="?", type=argparse.FileType(), default=sys.stdin)
    asked.add_argument("--crash", action="append", default=[], metavar="F")
    asked = asked.parse_args()
    try:
        for line in lines_of(asked.history.read(), asked.crash):
            print(json.dumps(line))
    except ValueError as why:
        sys.exit(f"from_jepsen.py: {why}")
