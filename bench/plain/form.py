"""What a message is: how it stands in words, in scripts and in requests. There are two forms, a number of 32 bits and
an item of 0 to 24 bytes, and FORM is the one that the programs have. Here a message is what a request has in JSON, so
an item is its hexadecimal digits."""

import re
import struct

NUMBER = re.compile(rb"0|[1-9][0-9]*")
GREATEST_VALUE = 2**32 - 1
ITEM_BYTES = 24
DIGITS = re.compile(r"(?:[0-9a-f]{2})*")


class Values:
    """A message is a number, which a cell has too, with 2 added."""

    # The form whose images are read too, and become images of this one.
    before = None
    magic = b"PQW1"
    # The words of a message in its node.
    parts = ("value",)
    # So many steps a call takes at most that goes on alone.
    most_steps_alone = 96
    cells_name_nodes = False
    # Texts near those of messages in JSON.
    odd = ()

    @staticmethod
    def words_of(value):
        return [value]

    @staticmethod
    def message_of(words):
        return words[0]

    @staticmethod
    def is_sound(words):
        """Whether words are those of a message."""
        return words[0] <= GREATEST_VALUE

    @staticmethod
    def is_message(value):
        """Whether a value of JSON is a message."""
        return type(value) is int and 0 <= value <= GREATEST_VALUE

    @staticmethod
    def read(word):
        """The message that a word of a script says, or None."""
        return int(word) if NUMBER.fullmatch(word) and int(word) <= GREATEST_VALUE else None

    @staticmethod
    def text(value):
        """A message in scripts and transcripts."""
        return str(value)

    @staticmethod
    def cell_of(node, value):
        """The cell that a claim of a node answers."""
        return value + 2

    @staticmethod
    def of_number(number):
        """The message that stands for a number of 32 bits."""
        return number

    @staticmethod
    def drawn(number):
        """A message for a drawn number, and for one of more than 32 bits what is none."""
        return number


class Items:
    """A message has a length and three words, bytes little-endian and zeros behind them; a cell has its node, with 2
    added. In scripts the empty one is a dot."""

    before = Values
    magic = b"PQW2"
    parts = ("length", "first", "second", "third")
    most_steps_alone = 128
    cells_name_nodes = True
    odd = (
        '"00"', '"0"', '"000"', '"0a"', '"0A"', '"."', '" 00"', '"0x00"', '"\\u0030a"', '"0\\u0041"', '"0g"',
        f'"{"5a" * ITEM_BYTES}"', f'"{"5a" * ITEM_BYTES}5"', f'"{"5a" * ITEM_BYTES}5a"', '"\u0660\u0660"',
    )

    @staticmethod
    def words_of(item):
        data = bytes.fromhex(item)
        return [len(data), *struct.unpack("<3Q", data.ljust(ITEM_BYTES, b"\0"))]

    @staticmethod
    def message_of(words):
        return struct.pack("<3Q", *words[1:])[:words[0]].hex()

    @staticmethod
    def is_sound(words):
        return words[0] <= ITEM_BYTES and not any(struct.pack("<3Q", *words[1:])[words[0]:])

    @staticmethod
    def is_message(value):
        return isinstance(value, str) and len(value) <= 2 * ITEM_BYTES and bool(DIGITS.fullmatch(value))

    @staticmethod
    def read(word):
        text = word.decode("latin-1")
        if text == ".":
            return ""
        return text if text and Items.is_message(text) else None

    @staticmethod
    def text(item):
        return item or "."

    @staticmethod
    def cell_of(node, _):
        return node + 2

    @staticmethod
    def of_number(number):
        """Its four bytes, the low one first."""
        return struct.pack("<I", number).hex()

    @staticmethod
    def drawn(number):
        """Of any length."""
        length = number % (ITEM_BYTES + 1) if number <= GREATEST_VALUE else ITEM_BYTES + 1
        return (number.to_bytes(5, "little")[:4] * 7)[:length].hex()


FORM = Items
