"""Steps that calls and recovery share. Each `yield` is one access to the memory, and what comes back is what the access
found."""


def keeping(word):
    """A flush asks that a word be kept, and a fence completes that."""
    yield "flush", word
    yield ("fence",)


def storing(word, value):
    """A word has another value, which is kept."""
    yield "store", word, value
    yield from keeping(word)


def loading(words):
    found = []
    for word in words:
        found.append((yield "load", word))
    return found
