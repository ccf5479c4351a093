"""What of the words that a log begins with may be left out, so that those which stay may stand for a state of the structure.

These are guesses: the program judges each log that is made of them.
"""

from collections import Counter

from names import PART_WORDS
from parts import AT_START, present

# The words of a tree's node by their offset: the entries are their count, the keys and the values.
BOUND, RIGHT, ENTRIES, VALUES = 2, 3, (1, *range(4, 12)), range(8, 12)


def parts_of(subject, size, start, part=0):
    """The words that can go together: those of a slot, a chunk, a buffer or a part, or the entries of one of a tree's leaves.

    A part of a log of version 3 has as many words as its specification says.
    """
    each, parts = PART_WORDS.get(subject, part or 1), {}
    for word in present(start):
        if subject != "tree" or (word < each * size and word % each in ENTRIES):
            parts.setdefault(word // each, []).append(word)
    return list(parts.values())


def words_of(subject, size, start):
    """The words that can go by themselves. Of a tree's leaf they are the values: what else goes would leave no tree."""
    each = PART_WORDS.get(subject)
    return [word for word in present(start) if subject != "tree" or (word < each * size and word % each in VALUES)]


def leaves_alone(size, start, written):
    """A tree of leaves alone, for a log that goes on to write to these nodes.

    Its nodes are those up to the last leaf that is written. What was an inner node becomes an empty leaf behind the others.
    """
    words = Counter({word: value for word, (value, _) in start.items()})
    chain = linked(size, words)
    last = max(node for node in chain if node in written or node == 0)
    leaves = [node for node in chain if node <= last]
    nodes = leaves + [node for node in range(last + 1) if node not in set(leaves)]
    values, low = {12 * size + 1: last}, 0
    for place, node in enumerate(nodes):
        count = min(words[12 * node + 1], 4) if place < len(leaves) else 0
        if count:
            values.update({12 * node + offset: words[12 * node + offset] for offset in ENTRIES})
        bound = words[12 * node + BOUND] if place < len(leaves) else 0
        low = max([bound, low + 1, *(words[12 * node + 4 + entry] + 1 for entry in range(count))])
        if place + 1 < len(nodes):
            values[12 * node + BOUND], values[12 * node + RIGHT] = low, nodes[place + 1]
    return {word: (value, start.get(word, (0, AT_START))[1]) for word, value in values.items() if value}


def linked(size, words):
    """The nodes to which the right words lead, from node 0 on."""
    nodes, node = [], 0
    while node < size and node not in nodes:
        nodes.append(node)
        node = words[12 * node + RIGHT]
    return nodes
