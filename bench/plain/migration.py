"""The words of a broker whose messages were numbers, as words of one whose messages are items. By docs/IMAGE.md."""

import image
from form import FORM, Items, Values
from layout import Layout, block_size


def moved(old, by_place, place):
    """What stands at a place of the new words. Nodes off the chain lose their values."""
    part, *number = place
    if part in Items.parts:
        is_kept = number[0] in old.chain
        return Items.words_of(Items.of_number(old.message_at(number[0])))[Items.parts.index(part)] if is_kept else 0
    value = by_place[place]
    return 2 + old.claimed[number[0]] if part == "cell" and value >= 2 else value


def migrated_block(old):
    """The words of a queue's layout anew. The old ones keep to each rule, and are checked."""
    new = Layout(old.kind, old.clients, old.records, Items)
    by_place = {old.place(word): old.words[word] for word in range(old.size)}
    return [moved(old, by_place, new.place(word)) for word in range(new.size)]


def migrated(words):
    """All words of a broker anew; or the first rule that the old ones break."""
    blocks = image.blocks_of(words, Values)
    size, kept = block_size(*words[:2], Items), words[:34]
    for found in blocks:
        inner = []
        if found:
            found[1].check()
            inner = migrated_block(found[1])
        kept += inner + [0] * (size - len(inner))
    return kept


def booted(data):
    """The broker that begins on an image, also on one that was written before messages were items."""
    if FORM.before and data[:4] == FORM.before.magic:
        broker = image.broker_of_words(migrated(image.words_of(data, FORM.before)))
    else:
        broker = image.broker_of(data)
    broker.restart()
    return broker
