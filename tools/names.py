"""What the parts, the words, the keys and the amounts of a log are called, and which keys a call is about, as docs/LOG-FORMAT.md
says.

These are names alone: nothing here follows a log or judges it.
"""

CHUNK = ["state", "cached lo", "cached hi", "stored lo", "stored hi"]
NODE = ["level", "count", "bound", "right"]
DAMAGE = 1 << 33  # the key at which a tree shows damage
SHOWN = 1 << 32  # what an entry of a tree adds to its value
ROOM = 7  # the most characters of a string buffer
PART_WORDS = {"multiset": 2, "cache": 5, "tree": 12, "buffers": 8}  # of a slot, a chunk, a node, a buffer
PART = {"multiset": "slot", "cache": "chunk", "tree": "node", "buffers": "buffer"}


def name_of_word(log, word):
    """A word by the part of the structure that it belongs to."""
    if log.specification:
        part = log.specification.part
        return f"word {word} (w{word % part} of part {word // part})" if part else f"word {word}"
    return word_of(log.subject, log.size, word)


def word_of(subject, size, word):
    """A word of a structure that is built in."""
    part, place = divmod(word, PART_WORDS[subject])
    if subject == "tree" and part >= size:
        return "the root" if word == PART_WORDS["tree"] * size else "the count of nodes in use"
    return f"{PART[subject]} {part} {field_of(subject, place)}"


def field_of(subject, place):
    """A word of a part by its place there."""
    if subject == "multiset":
        return "value" if place else "state"
    if subject == "cache":
        return CHUNK[place]
    if subject == "buffers":
        return f"character {place - 1}" if place else "count"
    return NODE[place] if place < 4 else f"{'key' if place < 8 else 'value'} {place % 4}"


def name_of_part(log, part):
    """A slot, a chunk, a node, a buffer, or a part of a specification of the user's own."""
    return f"part {part}" if log.specification else f"{PART[log.subject]} {part}"


def part_of(log, word):
    """The number of the part that a word belongs to."""
    return word // (log.specification.part or 1 if log.specification else PART_WORDS[log.subject])


def characters_of(text):
    """The characters of a text that is one number: character i counts (character + 1) * 256^i."""
    characters = []
    while text:
        characters.append(text % 256 - 1)
        text //= 256
    return characters


def told(subject, size, key, amount):
    """An amount at a key in words."""
    if subject == "multiset":
        return {0: "not at all", 1: "once"}.get(amount, f"{amount} times")
    if subject == "cache" and key < size:
        return f"the pair {amount % SHOWN} {amount // SHOWN}"
    if subject == "cache":
        return ["no damage", "a clean chunk with two different pairs", "a state above 2 or a half of 2^32 or more"][amount]
    if subject == "buffers" and key < size:
        return f"the text {' '.join(map(str, characters_of(amount)))}" if amount else "empty"
    if subject == "buffers":
        return ["no damage", f"a count above {ROOM} or a character of 255 or more"][amount]
    if key == DAMAGE:
        return f"{amount} damaged places"
    count, value = divmod(amount, SHOWN)
    return {0: "not at all", 1: f"once, with the value {value}"}.get(count, f"{count} times")


def amount_at(log, key, amount):
    """An amount at a key as it is said of a log: in words, or of a specification of the user's own as the number that it is."""
    return str(amount) if log.specification else told(log.subject, log.size, key, amount)


def meant(subject, size, key):
    """What a key stands for."""
    if subject == "multiset":
        return f"the element {key}"
    if subject in ("cache", "buffers"):
        part = PART[subject]
        return f"{part} {key}" if key < size else f"damage of {part} {key - size}"
    return "damage of the nodes" if key == DAMAGE else f"the key {key}"


def keys_of(execution):
    """The keys that a call is about."""
    count = 2 if execution.method in ("insert_pair", "append_from") else 1
    return execution.arguments[:count]
