"""images.py WHAT FILE WORD..: images with something changed, for tests/pqd.sh.

bytes FILE FROM HEX      puts these bytes in place of those from one on
word FILE WORD VALUE     gives a word of the image this value
rule FILE                prints the first rule that the image breaks, as bench/plain/image.py reads it, or `none`
numbers FILE             writes an image of numbers: in the log queue `q` client 0 has put 5, as its number 1
"""

import os
import struct
import sys

sys.path.insert(0, os.path.join(os.path.dirname(os.path.abspath(__file__)), "../bench/plain"))
import image
from form import Values
from layout import block_size
from machine import Machine

# How many bytes come before the first word.
HEAD = 12


def put(path, begin, data):
    with open(path, "r+b") as file:
        file.seek(begin)
        file.write(data)


def rule_of(path):
    with open(path, "rb") as file:
        data = file.read()
    try:
        image.broker_of(data)
    except image.Broken as broken:
        return str(broken)
    return "none"


def put_numbers(path):
    machine = Machine("log", 1, 2, Values)
    machine.start(0, 1, 5)
    while machine.step(0) is None:
        pass
    blocks = machine.kept + [0] * (7 * block_size(1, 2, Values))
    with open(path, "wb") as file:
        file.write(image.image_of([1, 2, ord("q"), 0, 2, 1] + [0] * 28 + blocks, Values))


def main(what, path, *words):
    if what == "bytes":
        put(path, int(words[0]), bytes.fromhex(words[1]))
    elif what == "word":
        put(path, HEAD + 8 * int(words[0]), struct.pack("<Q", int(words[1])))
    elif what == "numbers":
        put_numbers(path)
    else:
        print(rule_of(path))


main(*sys.argv[1:])
