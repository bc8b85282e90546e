#!/usr/bin/env python3
"""The answer lines of a district file, written from the buyer's rules alone, which docs/RULES.md restates.

    expected.py [--display] < FILE

Without --display: what `routeline` prints. With it: what the display gets, whose file may have one query only.
It is made to be read beside docs/RULES.md and knows nothing of the proved code: labels are None where they are missing,
a line is matched by a regular expression, and the search keeps its two sides in small dictionaries."""
import re
import sys

MOST_NODES, MOST_ARCS, MOST_ENTRIES = 2048, 8192, 64
MOST_WEIGHT, MOST_POTENTIAL = 1_000_000, 2_047_000_000
LONGEST_LINE = 2 + 4 + 4 + 4 + 2 + 255
LAST_LINE = 4_294_967_295
QUERY = {"04": r"(.{4})(.{4})()(..)(.*)", "07": r"(.{4})(.{4})(.{4})(..)(.*)"}
FIXED = {"01": [4, 4], "02": [4, 4, 8], "05": [4, 4, 8], "03": [4, 8, 8]}


class FileRefusal(Exception):
    """A refusal that ends the file: 1, 2, 10 or 11."""


def refusal(number, place):
    return "FF%02X%08X\n" % (number, place)


def signed(value):
    return value - 2**32 if value >= 2**31 else value


def frame(line):
    """(kind, fields) of a sound frame, else None. The fields of a query, 04 or 07, are start, end, the cap (None for a 04) and
    the list of entries."""
    if len(line) > LONGEST_LINE or not re.fullmatch(rb"[0-9A-F]+", line):
        return None
    text = line.decode("ascii")
    kind, rest = text[:2], text[2:]
    if kind in FIXED:
        if len(rest) != sum(FIXED[kind]):
            return None
        fields = []
        for width in FIXED[kind]:
            fields.append(int(rest[:width], 16))
            rest = rest[width:]
        return kind, fields
    query = kind in QUERY and re.fullmatch(QUERY[kind], rest)
    if query:
        start, end, cap, entries, pattern = query.groups()
        if len(pattern) == int(entries, 16):
            return kind, [int(start, 16), int(end, 16), int(cap, 16) if cap else None, [int(d, 16) for d in pattern]]
    return None


def first_refusal(nodes, arcs, h, k, start, end, pattern):
    """The refusal table for a query of a file, in its order: (number, place), or None."""
    if start >= nodes or end >= nodes:
        return 4, 0
    if not 1 <= len(pattern) <= MOST_ENTRIES or any(e not in (0, 1) for e in pattern):
        return 5, 0
    for a, (u, v, w) in enumerate(arcs):
        if u >= nodes or v >= nodes or w > MOST_WEIGHT:
            return 7, a
    for v in range(nodes):
        if abs(h[v]) > MOST_POTENTIAL or abs(k[v]) > MOST_POTENTIAL:
            return 8, v
    for a, (u, v, w) in enumerate(arcs):
        if h[u] - h[v] > w or k[v] - k[u] > w:
            return 9, a
    return None


def search(nodes, arcs, h, k, start, end, cap, pattern, told=None):
    """(length or None, path, excess, figures), where the excess is None if the search has ended, within its cap if there is one, and
    the figures are turns, opened by the start side, by the end side, rejected. `told` is called after each turn, with the labels
    given (None if the node was rejected) and the side's floor (None if it has no candidate left)."""
    if start == end:
        return 0, [start], None, (0, 0, 0, 0)
    out, into = [[] for _ in range(nodes)], [[] for _ in range(nodes)]
    for u, v, w in arcs:
        out[u].append((v, w))
        into[v].append((u, w))
    sides = [
        {"label": {start: 0}, "from": {}, "pot": h, "target": end, "floor": h[start], "arcs": out, "opened": 0},
        {"label": {end: 0}, "from": {}, "pot": k, "target": start, "floor": k[end], "arcs": into, "opened": 0},
    ]
    undecided = set(range(nodes))
    best, meeting, turns, rejected = None, None, 0, 0

    def candidates(side):
        return [(side["label"][v] + side["pot"][v], v) for v in side["label"] if v in undecided]

    while candidates(sides[0]) and candidates(sides[1]) and turns != cap:
        turn = pattern[turns % len(pattern)]
        own, other = sides[turn], sides[1 - turn]
        _, u = min(candidates(own))
        undecided.discard(u)
        turns += 1
        label, given = own["label"][u], None
        if best is not None and (
            label + own["pot"][u] - own["pot"][own["target"]] >= best
            or label + other["floor"] - other["pot"][u] >= best
        ):
            rejected += 1
        else:
            own["opened"] += 1
            given = []
            for v, w in own["arcs"][u]:
                if v not in undecided:
                    continue
                if v not in own["label"] or label + w < own["label"][v]:
                    own["label"][v] = label + w
                    own["from"][v] = u
                    given.append((v, label + w))
                if v in other["label"] and (best is None or best > own["label"][v] + other["label"][v]):
                    best, meeting = own["label"][v] + other["label"][v], v
        left = candidates(own)
        if left:
            own["floor"] = min(left)[0]
        if told:
            floor = own["floor"] if left else None
            told(side=turn, node=u, label=label, given=given, best=best, floor=floor, other_floor=other["floor"])
    figures = (turns, sides[0]["opened"], sides[1]["opened"], rejected)
    ended = not (candidates(sides[0]) and candidates(sides[1]))
    if best is None:
        return None, [], None if ended else 0, figures
    at_least = max(0, sides[0]["floor"] - h[end], sides[1]["floor"] - k[start])
    path = [meeting]
    while path[0] != start:
        path.insert(0, sides[0]["from"][path[0]])
    while path[-1] != end:
        path.append(sides[1]["from"][path[-1]])
    return best, path, None if ended else max(0, best - at_least), figures


def query_lines(nodes, arcs, h, k, start, end, cap, pattern, told=None):
    refused = first_refusal(nodes, arcs, h, k, start, end, pattern)
    if refused:
        return refusal(*refused)
    length, path, excess, figures = search(nodes, arcs, h, k, start, end, cap, pattern, told)
    shown = "".join("%04X" % n for n in figures)
    if length is None:
        return "80" + shown + "\n" if excess is None else "85%04X\n" % figures[0]
    first = "81%08X%04X" % (length, len(path)) + shown if excess is None else "84%08X%08X" % (length, excess)
    return first + "\n" + "82" + "".join("%04X" % v for v in path) + "\n"


def answer(data, display=False, told=None):
    """The answer lines of a whole file, as text; `told` is called after each turn of its searches."""
    printed, number = [], 1
    size, arcs, h, k, queries = None, [], [], [], 0
    try:
        at = 0
        while at < len(data):
            end_of_line = data.find(b"\n", at)
            line = data[at:] if end_of_line < 0 else data[at:end_of_line]
            if number == LAST_LINE:
                raise FileRefusal(11, number)
            if end_of_line < 0:
                raise FileRefusal(10, number)
            at = end_of_line + 1
            found = frame(line)
            if found is None:
                raise FileRefusal(10, number)
            kind, fields = found
            if size is None:
                if kind != "01":
                    raise FileRefusal(11, number)
                if not 1 <= fields[0] <= MOST_NODES:
                    raise FileRefusal(1, 0)
                if fields[1] > MOST_ARCS:
                    raise FileRefusal(2, 0)
                size = fields
            elif len(arcs) < size[1]:
                given = [tuple(fields)] if kind == "02" else []
                if kind == "05":
                    u, v, w = fields
                    given = [(u, v, w), (v, u, w)]
                if not given or len(arcs) + len(given) > size[1]:
                    raise FileRefusal(11, number)
                arcs += given
            elif len(h) < size[0]:
                if kind != "03" or fields[0] != len(h):
                    raise FileRefusal(11, number)
                h.append(signed(fields[1]))
                k.append(signed(fields[2]))
            else:
                if kind not in QUERY or (display and queries > 0):
                    raise FileRefusal(11, number)
                printed.append(query_lines(size[0], arcs, h, k, *fields, told))
                queries += 1
            number += 1
        if queries == 0:
            raise FileRefusal(11, number)
    except FileRefusal as refused:
        printed.append(refusal(*refused.args))
    return "".join(printed)


if __name__ == "__main__":
    sys.stdout.write(answer(sys.stdin.buffer.read(), "--display" in sys.argv[1:]))
