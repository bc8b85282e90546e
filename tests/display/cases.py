#!/usr/bin/env python3
"""Writes the cases of the display's test into a folder.

    cases.py FOLDER

For each case NAME.in, and what is expected of it: NAME.routeline (the program) and NAME.display (the C entry). The answers
of P1 to P12, of cases at caps and of most bad inputs are written here by hand, from the rules (docs/RULES.md); the rest come from
expected.py, which is written from them too. Where both are there they must agree. FOLDER/names lists the cases in order, and the
folders of FOLDER have cases that are tried together."""
import os
import sys

sys.path.insert(0, os.path.dirname(os.path.abspath(__file__)))
from expected import answer  # noqa: E402

ARCS5 = [(0, 1, 1), (1, 2, 1), (2, 3, 1), (0, 4, 2), (4, 3, 2)]


def size(nodes, arcs):
    return "01%04X%04X\n" % (nodes, arcs)


def arc(u, v, w, kind="02"):
    return "%s%04X%04X%08X\n" % (kind, u, v, w)


def potentials(node, h=0, k=0):
    return "03%04X%08X%08X\n" % (node, h % 2**32, k % 2**32)


def query(start, end, pattern, cap=None):
    kind, turns = ("04", "") if cap is None else ("07", "%04X" % cap)
    return "%s%04X%04X%s%02X%s\n" % (kind, start, end, turns, len(pattern), pattern)


def district5(*queries):
    return district(ARCS5, [0] * 5, [0] * 5, *queries)


def pair(weight=1, h=(0, 0), k=(0, 0), start=0, end=1, pattern="0", cap=None):
    return district([(0, 1, weight)], h, k, query(start, end, pattern, cap))


def district(arcs, h, k, *queries):
    """as many nodes as there are potentials"""
    given = "".join(arc(*a) for a in arcs) + "".join(potentials(v, *both) for v, both in enumerate(zip(h, k)))
    return size(len(h), len(arcs)) + given + "".join(queries)


P1 = "810000000300040005000200010002\n820000000100020003\n"
P2 = "810000000300040005000000040001\n820000000100020003\n"
P3 = "810000000000010000000000000000\n820002\n"
P4 = "800001000100000000\n"
# district D5 from 0 to 3 with pattern 01, by the turns that are allowed; from 5 on it is P1
AT_CAP = ["850000\n", "850001\n", "840000000400000003\n82000000040003\n"] + ["840000000300000001\n820000000100020003\n"] * 2
LOW = -2_047_000_000


# a route over one arc, pattern 0: the start is opened, the end is met and then rejected
def over_one_arc(length):
    return "81%08X00020002000100000001\n8200000001\n" % length


D5 = district5(query(0, 3, "01"))
TO_QUERY = district5()
LINES = D5.splitlines(keepends=True)
CAPPED = district5(query(0, 3, "01", cap=2))


def long_road(cap=None):
    """2,048 nodes in a row, two-way: the longest path, and figures that fill their fields"""
    n = 2048
    text = size(n, 2 * (n - 1)) + "".join(arc(v, v + 1, 1_000_000, "05") for v in range(n - 1))
    return text + "".join(potentials(v) for v in range(n)) + query(0, n - 1, "01", cap)


def full_arcs(count):
    """two nodes and as many arcs as asked, the lightest last"""
    text = size(2, count) + "".join(arc(i % 2, 1 - i % 2, 1_000_000 - i) for i in range(count))
    return text + potentials(0) + potentials(1) + query(0, 1, "0") + query(1, 0, "10")


# name, input, what `routeline` prints, what the display gets where that differs; None: expected.py says it
CASES = [
    ("P1", D5, P1, None),
    ("P2", district5(query(0, 3, "1")), P2, None),
    ("P3", district5(query(2, 2, "0")), P3, None),
    ("P4", district5(query(3, 0, "01")), P4, None),
    ("P5", pair(h=(1, 0)), over_one_arc(1), None),
    ("P6", pair(h=(2, 0)), "FF0900000000\n", None),
    ("P7", pair(weight=1_000_000), over_one_arc(1_000_000), None),
    ("P8", pair(weight=1_000_001), "FF0700000000\n", None),
    ("P9", pair(h=(LOW, LOW), k=(LOW, LOW)), over_one_arc(1), None),
    ("P10", pair(h=(LOW - 1, 0)), "FF0800000000\n", None),
    ("P11", size(1, 0) + potentials(0) + query(0, 0, "0"), "810000000000010000000000000000\n820000\n", None),
    ("P12", pair(start=2, pattern=""), "FF0400000000\n", None),
    ("P1 to P4 in one file", district5(query(0, 3, "01"), query(0, 3, "1"), query(2, 2, "0"), query(3, 0, "01")),
     P1 + P2 + P3 + P4, P1 + "FF0B0000000D\n"),
    ("a refused query does not stop it", district5(query(0, 5, "0"), query(0, 3, "2"), query(0, 3, "01")),
     "FF0400000000\nFF0500000000\n" + P1, "FF0400000000\nFF0B0000000D\n"),
    *[("D5 at cap %d" % cap, district5(query(0, 3, "01", cap=cap)), (AT_CAP + [P1, P1])[cap], None) for cap in range(7)],
    ("D5 at cap 65,535", district5(query(0, 3, "01", cap=65535)), P1, None),
    ("D5 at falling caps", district5(*(query(0, 3, "01", cap=cap) for cap in (5, 4, 3, 2, 1, 0))),
     P1 + "".join(reversed(AT_CAP)), P1 + "FF0B0000000D\n"),
    ("P4 at cap 0", district5(query(3, 0, "01", cap=0)), "850000\n", None),
    ("P4 at cap 1", district5(query(3, 0, "01", cap=1)), P4, None),
    ("P3 at cap 0", district5(query(2, 2, "0", cap=0)), P3, None),
    ("P2 at cap 4: not ended, and no walk is shorter", district5(query(0, 3, "1", cap=4)), "840000000300000000\n820000000100020003\n", None),
    ("P6 at cap 0", pair(h=(2, 0), cap=0), "FF0900000000\n", None),
    ("P8 at cap 0", pair(weight=1_000_001, cap=0), "FF0700000000\n", None),
    ("P10 at cap 0", pair(h=(LOW - 1, 0), cap=0), "FF0800000000\n", None),
    ("P12 at cap 0", pair(start=2, pattern="", cap=0), "FF0400000000\n", None),
    # the end side's floor less k(start) is 4 + 1, more than the length
    ("an excess that is not negative", district([(1, 3, 1), (1, 0, 2), (2, 0, 2), (2, 2, 2)], [3, -2, -1, -3], [-1, -1, 2, 0],
     query(1, 0, "01", cap=2)), "840000000200000000\n8200010000\n", None),
    # the start side's floor less h(end) is -2, the end side's less k(start) is 1 - 2
    ("an excess that is not above the length", district([(2, 1, 2), (0, 1, 3)], [1, 0, -2], [-2, -1, 2], query(2, 1, "10", cap=1)),
     "840000000200000002\n8200020001\n", None),
    # h(end) is 7 and k(start) is 5: the start side's floor less h(end) is 8 - 7
    ("an excess with potentials", district(ARCS5, [7] * 5, [5] * 5, query(0, 3, "01", cap=2)), AT_CAP[2], None),
    ("empty input", "", "FF0B00000001\n", None),
    ("one byte", "0", "FF0A00000001\n", None),
    ("one line feed", "\n", "FF0A00000001\n", None),
    ("no last line feed", D5[:-1], "FF0A0000000C\n", None),
    ("271 digits, no line feed", "0" * 271, "FF0A00000001\n", None),
    ("272 digits, no line feed", "0" * 272, "FF0A00000001\n", None),
    ("70,000 digits, no line feed", "0" * 70000, "FF0A00000001\n", None),
    ("70,000 digits in a line after an answer", D5 + "0" * 70000 + "\n" + query(0, 3, "01"), P1 + "FF0A0000000D\n", None),
    ("a NUL", D5[:-2] + "\0\n", "FF0A0000000C\n", None),
    ("a carriage return", D5.replace("\n", "\r\n"), "FF0A00000001\n", None),
    ("a byte above 127", D5[:-2] + "\u00b1\n", "FF0A0000000C\n", None),
    ("a space", D5[:-2] + " \n", "FF0A0000000C\n", None),
    ("digit a", D5.replace("0100050005", "010005000a"), "FF0A00000001\n", None),
    ("digit A", size(10, 0) + "".join(potentials(v) for v in range(10)) + query(10, 0, "0"), "FF0400000000\n", None),
    ("an empty line at the end", D5 + "\n", P1 + "FF0A0000000D\n", None),
    ("a 01 twice", size(5, 5) + D5, "FF0B00000002\n", None),
    ("a 01 after the arcs", "".join(LINES[:6]) + size(5, 5) + "".join(LINES[6:]), "FF0B00000007\n", None),
    ("a 01 after a query", D5 + size(5, 5), P1 + "FF0B0000000D\n", None),
    ("a 02 first", "".join(LINES[1:]), "FF0B00000001\n", None),
    ("too few arcs", "".join(LINES[:5] + LINES[6:]), "FF0B00000006\n", None),
    ("too many arcs", "".join(LINES[:6]) + arc(0, 1, 1) + "".join(LINES[6:]), "FF0B00000007\n", None),
    ("a query before potentials", "".join(LINES[:6]) + query(0, 3, "01") + "".join(LINES[6:]), "FF0B00000007\n", None),
    ("a query before the last potentials", "".join(LINES[:10]) + query(0, 3, "01"), "FF0B0000000B\n", None),
    ("no query", TO_QUERY, "FF0B0000000C\n", None),
    ("no potentials", "".join(LINES[:6]), "FF0B00000007\n", None),
    ("potentials of another node", "".join(LINES[:7]) + potentials(2), "FF0B00000008\n", None),
    ("potentials of a node twice", "".join(LINES[:7]) + potentials(0), "FF0B00000008\n", None),
    ("potentials of one node too many", TO_QUERY + potentials(5), "FF0B0000000C\n", None),
    ("a 05 where one arc is owed", size(2, 1) + arc(0, 1, 1, "05"), "FF0B00000002\n", None),
    ("a 05 gives two arcs", size(2, 2) + arc(1, 0, 7, "05") + potentials(0) + potentials(1) + query(0, 1, "0"), over_one_arc(7), None),
    ("0 nodes", size(0, 0), "FF0100000000\n", None),
    ("2,049 nodes", size(2049, 0), "FF0100000000\n", None),
    ("8,193 arcs", size(1, 8193), "FF0200000000\n", None),
    ("2,049 nodes and 8,193 arcs", size(2049, 8193), "FF0100000000\n", None),
    ("kind 80 in input", TO_QUERY + P4, "FF0A0000000C\n", None),
    ("kind 81 in input", TO_QUERY + P1, "FF0A0000000C\n", None),
    ("kind 82 in input", TO_QUERY + "820000\n", "FF0A0000000C\n", None),
    ("kind FF in input", TO_QUERY + "FF0400000000\n", "FF0A0000000C\n", None),
    ("kind 84 in input", TO_QUERY + AT_CAP[3], "FF0A0000000C\n", None),
    ("kind 85 in input", TO_QUERY + AT_CAP[0], "FF0A0000000C\n", None),
    ("kind 84 after an answer", D5 + AT_CAP[3], P1 + "FF0A0000000D\n", None),
    ("kind 06 in input", TO_QUERY + "06000000030201\n", "FF0A0000000C\n", None),
    ("kind 08 in input", TO_QUERY + "080000000300020201\n", "FF0A0000000C\n", None),
    ("kind 00 in input", "0000050005\n", "FF0A00000001\n", None),
    ("a digit too many", "01000500050\n", "FF0A00000001\n", None),
    ("a digit too few", "010005000\n", "FF0A00000001\n", None),
    ("a capped query without its cap", district5("07000000030201\n"), "FF0A0000000C\n", None),
    ("a query with a cap", district5("040000000300050201\n"), "FF0A0000000C\n", None),
    ("no pattern entry at a cap", district5(query(0, 3, "", cap=5)), "FF0500000000\n", None),
    ("64 pattern entries at a cap", district5(query(0, 3, "01" * 32, cap=3)), AT_CAP[3], None),
    ("65 pattern entries at a cap", district5(query(0, 3, "0" * 65, cap=5)), "FF0500000000\n", None),
    ("255 pattern entries at a cap, 271 digits", district5(query(0, 3, "0" * 255, cap=5), query(0, 3, "01")),
     "FF0500000000\n" + P1, "FF0500000000\nFF0B0000000D\n"),
    ("256 pattern entries at a cap, 272 digits", district5("07000000030005FF" + "0" * 256 + "\n"), "FF0A0000000C\n", None),
    ("an entry 2 at a cap", district5(query(0, 3, "02", cap=5)), "FF0500000000\n", None),
    ("an entry fewer than stated, at a cap", district5("0700000003000502" + "0\n"), "FF0A0000000C\n", None),
    ("an entry more than stated, at a cap", district5("0700000003000502" + "010\n"), "FF0A0000000C\n", None),
    ("a start that is no node, at a cap", district5(query(5, 3, "01", cap=5)), "FF0400000000\n", None),
    ("a capped query before the last potentials", "".join(LINES[:10]) + query(0, 3, "01", cap=5), "FF0B0000000B\n", None),
    ("no pattern entry", district5(query(0, 3, "")), "FF0500000000\n", None),
    ("64 pattern entries", district5(query(0, 3, "01" * 32)), P1, None),
    ("65 pattern entries", district5(query(0, 3, "0" * 65)), "FF0500000000\n", None),
    ("255 pattern entries", district5(query(0, 3, "0" * 255)), "FF0500000000\n", None),
    ("an entry F", district5(query(0, 3, "0F")), "FF0500000000\n", None),
    ("an entry fewer than stated", district5("040000000302" + "0\n"), "FF0A0000000C\n", None),
    ("an entry more than stated", district5("0400000003FF" + "0" * 256 + "\n"), "FF0A0000000C\n", None),
    ("a second query for the display", D5 + query(2, 2, "0"), P1 + P3, P1 + "FF0B0000000D\n"),
    ("a second query for the display, capped", D5 + query(2, 2, "0", cap=0), P1 + P3, P1 + "FF0B0000000D\n"),
    ("a second query for the display after a capped one", CAPPED + query(2, 2, "0"), AT_CAP[2] + P3, AT_CAP[2] + "FF0B0000000D\n"),
    ("a second query for the display, both capped", CAPPED + query(0, 3, "01", cap=0), AT_CAP[2] + AT_CAP[0], AT_CAP[2] + "FF0B0000000D\n"),
    ("a second query line, capped, that is no frame", D5 + "0700000003000\n", P1 + "FF0A0000000D\n", None),
    ("a second query line that is no frame", D5 + "04\n", P1 + "FF0A0000000D\n", None),
    ("potentials at the other end of the range", pair(h=(-LOW, -LOW), k=(-LOW, -LOW)), over_one_arc(1), None),
    ("a potential too large", pair(h=(0, 0), k=(0, -LOW + 1)), "FF0800000001\n", None),
    ("consistency of k", pair(k=(0, 2)), "FF0900000000\n", None),
    ("a tail that is no node", pair().replace("0200000001", "0200020001"), "FF0700000000\n", None),
    ("2,048 nodes in a row", long_road(), None, None),
    ("the longest answer and a refusal after it", long_road() + query(0, 0, "0"), None, None),
    ("2,048 nodes in a row, not ended", long_road(cap=2047), None, None),
    ("8,192 arcs", full_arcs(8192), None, None),
]

# D5 cut short after each of its bytes, and within its query where that has a cap; and a capped query in each place of D5
CUT = [D5[:n] for n in range(len(D5))] + [CAPPED[:n] for n in range(len(TO_QUERY) + 1, len(CAPPED))]
PLACED = ["".join(LINES[:n]) + query(0, 3, "01", cap=2) + "".join(LINES[n:]) for n in range(len(LINES) + 1)]
SETS = {"cut": CUT, "placed": PLACED}


def main(folder):
    wrong, names = 0, []
    for name in SETS:
        os.makedirs(os.path.join(folder, name), exist_ok=True)
    cases = [("%03d" % number, *case) for number, case in enumerate(CASES)]
    for base, name, *_ in cases:
        names.append("%s %s\n" % (base, name))
    for name, files in SETS.items():
        cases += [("%s/%03d" % (name, number), name, text, None, None) for number, text in enumerate(files)]
    for base, name, text, program, display in cases:
        data = text.encode("latin-1")
        says = answer(data), answer(data, display=True)
        by_hand = program, display if display is not None else program
        for said, hand in zip(says, by_hand):
            if hand is not None and said != hand:
                print("cases: %s: expected.py says\n%sand by hand it is\n%s" % (name, said, hand))
                wrong += 1
        for ending, what in ((".in", data), (".routeline", says[0].encode()), (".display", says[1].encode())):
            with open(os.path.join(folder, base + ending), "wb") as out:
                out.write(what)
    with open(os.path.join(folder, "names"), "w") as out:
        out.writelines(names)
    return 1 if wrong else 0


if __name__ == "__main__":
    sys.exit(main(sys.argv[1]))
