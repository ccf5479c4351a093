"""How a table of the words looks: what their parts are called, and what stands in which column."""

from names import CHUNK, NODE, PART_WORDS, ROOM

STATES = {"multiset": ["free", "reserved", "valid"], "cache": ["absent", "clean", "dirty"]}
ENTRIES = 4  # of a node


def table_of(log):
    """The table of a log's words: the name of a part and of its fields, and the columns, each a name with some fields.

    `states` are the names of numbers in field 0, and `beside` has names of words that are in no part.
    """
    if log.specification:
        return own_table(log.specification.part)
    table = {"multiset": slots, "cache": chunks, "tree": nodes, "buffers": texts}[log.subject](log.size)
    return {"states": STATES.get(log.subject, []), "beside": {}, **table}


def plain(fields):
    """A column for each field."""
    return [[name, place] for place, name in enumerate(fields)]


def own_table(of_part):
    """That of a log of version 3."""
    part, fields = ("part", [f"w{place}" for place in range(of_part)]) if of_part else ("word", ["value"])
    return {"part": part, "fields": fields, "columns": plain(fields), "states": [], "beside": {}}


def slots(_):
    fields = ["state", "value"]
    return {"part": "slot", "fields": fields, "columns": plain(fields)}


def chunks(_):
    return {"part": "chunk", "fields": CHUNK, "columns": plain(CHUNK)}


def nodes(size):
    fields = [*NODE, *(f"key {place}" for place in range(ENTRIES)), *(f"value {place}" for place in range(ENTRIES))]
    first, each = len(NODE), PART_WORDS["tree"]
    entries = [[f"entry {place}", first + place, first + ENTRIES + place] for place in range(ENTRIES)]
    return {
        "part": "node",
        "fields": fields,
        "columns": plain(NODE) + entries,
        "beside": {each * size: "the root", each * size + 1: "the count of nodes in use"},
    }


def texts(_):
    fields = ["count", *(f"character {place}" for place in range(ROOM))]
    columns = [["count", 0], *([str(place), place + 1] for place in range(ROOM))]
    return {"part": "buffer", "fields": fields, "columns": columns}
