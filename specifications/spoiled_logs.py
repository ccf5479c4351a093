"""Workloads of built-in structures that are drawn, and their logs spoilt."""

import re

NUMBER = re.compile("[0-9]+")


def workload(draw, subject):
    """A workload of a few callers, operations and values, with turns that let callers meet."""
    size, callers = draw.randrange(1, 4), draw.randrange(1, 5)
    lines = [f"work {subject} {size} {callers} {draw.choice(['correct', 'broken'])}"]
    for _ in range(draw.randrange(1, 13)):
        lines.append(f"op {draw.randrange(callers)} {operation(draw, subject, size)}")
    for _ in range(draw.randrange(12)):
        lines.append(f"turn {draw.randrange(callers)} {draw.randrange(1, 13)}")
    return "\n".join([*lines, "end", ""])


def operation(draw, subject, size):
    """A call of the structure."""
    value, other, chunk = draw.randrange(4), draw.randrange(4), draw.randrange(size)
    if subject == "multiset":
        return draw.choice([f"insert {value}", f"insert_pair {value} {other}", f"delete {value}", f"lookup {value}"])
    if subject == "cache":
        return draw.choice([f"write {chunk} {value} {other}", f"flush {chunk}", f"evict {chunk}", f"read {chunk}"])
    if subject == "buffers":
        source = draw.randrange(size)
        changing = [f"append {chunk} {value}", f"append_from {chunk} {source}", f"cut {chunk} {other}"]
        return draw.choice([*changing, f"length {chunk}", f"read {chunk}"])
    return draw.choice([f"insert {value} {other}", f"insert {value} {other}", f"delete {value}", f"lookup {value}"])


def spoiled(draw, log, times, ways=None):
    """A log spoilt so many times, in one of these ways each time, or in one of WAYS."""
    lines = log.split("\n")
    for _ in range(times):
        if len(lines) > 2:
            draw.choice(ways or WAYS)(draw, lines)
    return "\n".join(lines)


def another_number(draw, lines, form=" "):
    """One number of a line that has this in it is another one: a neighbour, a small one, or a great one."""
    places = [place for place, text in enumerate(lines) if place and form in text and NUMBER.search(text)]
    if places:
        place = draw.choice(places)
        number = draw.choice(list(NUMBER.finditer(lines[place])))
        old = int(number[0])
        new = draw.choice([max(old - 1, 0), old + 1, draw.randrange(4), draw.choice([2**31, 2**32, 2**63 - 1, 2**63, 2**64 - 2])])
        lines[place] = lines[place][: number.start()] + str(new) + lines[place][number.end() :]


def another_reply(draw, lines):
    another_number(draw, lines, " return ")


def another_write(draw, lines):
    another_number(draw, lines, " write ")


def left_out(draw, lines):
    del lines[draw.randrange(1, len(lines))]


def doubled(draw, lines):
    place = draw.randrange(1, len(lines))
    lines.insert(place, lines[place])


def swapped(draw, lines):
    place = draw.randrange(1, len(lines) - 1)
    lines[place : place + 2] = reversed(lines[place : place + 2])


def cut_off(draw, lines):
    """The end is missing, in the middle of a line or after one."""
    del lines[draw.randrange(2, len(lines) + 1) :]
    lines[-1] = lines[-1][: draw.randrange(len(lines[-1]) + 1)] if len(lines) > 1 else lines[-1]


def committed_inside(draw, lines):
    """A commit at the end of a block stands somewhere in the block instead, in version 2."""
    ends = [place for place, text in enumerate(lines) if text.endswith(" close commit")]
    if not ends:
        return
    end = draw.choice(ends)
    caller = lines[end].partition(" ")[0]
    begins = [place for place in range(end) if lines[place] == f"{caller} open"]
    if begins:
        lines[end] = f"{caller} close"
        lines.insert(draw.randrange(begins[-1] + 1, end + 1), f"{caller} commit")
        lines[0] = lines[0].replace("vyrd 1", "vyrd 2")


def started(draw, lines):
    """A part of the words isn't 0 at the start, in version 2."""
    if " tree " not in lines[0] and not lines[1].startswith("start "):
        lines[0] = lines[0].replace("vyrd 1", "vyrd 2")
        words = sorted(draw.sample(range(8), draw.randrange(1, 5)))
        lines[1:1] = [f"start {word} {draw.randrange(1, 4)}" for word in words]


# Replies and values come often, since most of the other ways end in a rule that is broken.
WAYS = [*[another_reply] * 5, *[another_write] * 3, another_number, left_out, doubled, swapped, swapped, committed_inside, started, cut_off]
