#!/usr/bin/env python3
"""Brings the names of this repository's definitions and lemmas to today's spelling: words in snake case.

usage: python3 tools/respell.py          at the top, once, right after the kit's port.py: rewrites crates/ in place
       python3 tools/respell.py --list   prints what it would rename, a line for each name, and writes nothing

A name with capitals inside or with dashes, as `isArc` or `by-eq`, becomes `is_arc` or `by_eq`, in antt files, in the clauses and
imports of .rt files, in comments between backquotes, and in the pages. Types, modules, names of a library, names that the check
makes, and everything of Rust keep their spelling. Where two names would fall together, OTHERS below has the new one.
"""
import re
import subprocess
import sys
from pathlib import Path

# names whose plain respelling is taken: by a library, by another name of the repository, or by a name of Rust's in the clauses
OTHERS = {
    "afterLine": "text_after_line",
    "answer-read": "answer_read_lem",
    "answer-under": "answer_under_lem",
    "arcs-before": "arcs_before_lem",
    "arcs-below": "arcs_below_lem",
    "arcs-of": "arcs_of_lem",
    "arcs-read": "arcs_read_lem",
    "arcsRead": "arcs_read_by",
    "bad-arcs": "by_bad_arcs",
    "bad-nodes": "by_bad_nodes",
    "begin-of": "begin_of_lem",
    "begins-below": "begins_below_lem",
    "bestOf": "best_in",
    "build-rows": "build_rows_lem",
    "edit-rows": "edit_rows_lem",
    "end-labels": "end_labels_there",
    "end-neighbours": "end_neighbours_there",
    "excess-over": "excess_over_lem",
    "first-lines": "first_lines_lem",
    "floor-above": "floor_above_lem",
    "held-rows": "held_rows_lem",
    "held-within": "held_within_lem",
    "index-by": "index_by_lem",
    "is-arc": "is_arc_lem",
    "is-listed": "is_listed_lem",
    "least-below": "least_below_lem",
    "may-stand": "may_stand_lem",
    "no-node": "no_node_lem",
    "or-zero": "or_zero_lem",
    "path-read": "path_read_lem",
    "path-shown": "path_shown_lem",
    "size-read": "size_read_lem",
    "start-labels": "start_labels_there",
    "start-neighbours": "start_neighbours_there",
    "table-from": "table_from_lem",
    "texts-at": "texts_at_lem",
    "turn-of": "turn_of_lem",
    "with-arcs": "reader_with_arcs",
    "with-potentials": "at_potentials",
    "with-query": "reader_with_query",
}

# names that port.py itself has brought to snake case in crates/, since a library had them too: the pages and the edits follow
BY_PORT = """
above-zero add-a add-at add-done after-is after-line all-alike all-paid all-pass answerOf
as-lent as-long as-many at-cap at-source atMost atOnce back-below begun-label below-next
below-none best-of bits-below bitsOf both-first both-true by-bool by-byte by-end by-kind
by-length by-lines by-size came-from capped-fits clear-spec code-is count-fits count-held count-left
count-next count-none count-set count-spec countOf counted-spec cut-left diff-is digit-value digits-more
down-to end-fits end-step ended-here enter-spec entries-fit entry-in every-append every-map field-fits
fieldsAt filled-at find-spec first-below first-passes firstLines fits-after fits-next found-here found-none
foundAt frame-step frameOf from-bits from-last from-more from-on front-below front-length getD-beyond
getD-front goes-on going-on has-ended has-left has-part has-room head-at held-none held-on
heldOf heldRows holds-on in-four in-order in-rest in-whole index-is index-stays indexBy
is-key is-none is-true isEmpty isNone joined-is kept-again kept-then key-back key-of
key-spec keyOf kindOf known-by label-same label-small labelOf last-on least-at left-after
left-at left-is length-digits length-rest line-first line-step lineOf lines-none lines-other linesOf
listed-below listed-same listedAt look-none look-one look-spec main-spec moved-later moved-none mul-at
near-new new-in no-length no-longer no-second no-size no-walk noNode node-in none-left
not-beyond not-last not-negative not-taken not-there nothing-placed number-at number-bound number-in number-more
number-same numberAt numberIn numberOf of-none of-number of-room one-at one-entry one-fewer
one-list one-more one-none one-number opened-some orElse orZero other-key other-test others-below
out-of own-first own-is own-key own-same path-room pause-spec place-in place-is placeIn
placeOf put-spec read-again read-at read-fits read-is read-next read-some readingOf ready-read
refused-none refused-says rest-ended restOf roomFor round-trip row-first row-line said-at same-at
same-kept same-kind same-left same-length same-tests same-text same-turn second-at set-is signedOf
sizeOf some-left source-in start-spec stateOf steady-alike sub-at sub-cases sum-fits sum-is
table-at tail-at taken-here taken-next then-one there-and-back too-long too-short trail-is turnOf
turned-by under-twice unsigned-is up-is up-le up-lt up-neg up-pos up-to up-top
upTo value-spec valueOf valuesOf walk-from walk-inside walk-is walk-step was-free way-later
way-twice wayOf whole-is whole-row wide-fits wide-is with-all with-rest within-cap without-back
without-on wrong-first
""".split()

STOPS = r"\s(){}\[\],;.:=|\"«»"
TOKEN = re.compile(r"[^\s(){}\[\],;.\"«»]+")
LIBRARY = re.compile(r"^(?:pub |ghost )?use (?!Rattle\.(?:%s)\b)([\w.·'+-]+)\.\{([^}]*)\}")


def split_words(name):
    """The words of a name, or None where it keeps its spelling."""
    if not re.match(r"^[a-z]", name):
        return None
    if any(re.match(r"^[A-Z]", part) for part in name.split("-")):
        return None
    if "-" not in name and not re.search(r"[a-z0-9][A-Z]", name):
        return None
    if re.search(r"[^A-Za-z0-9_'-]", name.replace("₀", "").replace("₁", "").replace("₂", "")):
        return None
    name = name.replace("-", "_")
    name = re.sub(r"([a-z0-9])([A-Z])", lambda m: m[1] + "_" + m[2].lower(), name)
    return name.lower() if not re.search(r"[A-Z]", name) else re.sub(r"[A-Z]", lambda m: m[0].lower(), name)


def code_of(line):
    """An antt line without its comment."""
    m = re.search(r"(^|\s)--(\s|$)", line)
    return (line, "") if not m else (line[: m.start()], line[m.start():])


def declared(text):
    """The names that an antt file declares, each with its whole signature."""
    lines = text.split("\n")
    out = []
    for i, line in enumerate(lines):
        code, _ = code_of(line)
        m = re.match(r"^(\s*)(?:unfoldable |abbrev )?(?:pub )?(record|data) (\S+)", code)
        if m:
            out.append((m[3], "Type 0"))
            continue
        m = re.match(r"^(\s*)(?:unfoldable |abbrev )?(?:pub )?([^\s:(){}=.]+) :(?:\s|$)", code)
        if m and m[2] not in ("let", "where"):
            sig = code
            for nxt in lines[i + 1:]:
                nxt_code, _ = code_of(nxt)
                if not nxt_code.startswith(m[1] + " ") or not nxt_code.strip():
                    break
                sig += " " + nxt_code.strip()
            out.append((m[2], sig.strip()))
    return out


def is_type(sig):
    return bool(re.search(r"(^|→|:)\s*Type 0$", sig.strip()))


def main():
    listing = "--list" in sys.argv[1:]
    crates = sorted(p.name for p in Path("crates").iterdir() if p.is_dir())
    own = "|".join(crates)
    library_line = re.compile(LIBRARY.pattern % own)
    antt = sorted(Path("crates").glob("*/specs/**/*.antt")) + sorted(Path("crates").glob("*/proofs/**/*.antt"))
    rust = sorted(Path("crates").glob("*/src/**/*.rt"))
    texts = {p: p.read_text() for p in antt + rust}
    library, tokens = set(), {}
    for p, text in texts.items():
        for line in text.split("\n"):
            code, _ = code_of(line) if p.suffix == ".antt" else (line, "")
            m = library_line.match(code)
            if m:
                for item in m[2].split(","):
                    for word in item.split():
                        library.add(word)
            if p.suffix == ".antt" and p.name != "Proof.antt":
                for m in TOKEN.finditer(code):
                    tokens.setdefault(m[0], set()).add(p)
    answers = set()
    names = {}
    for p in antt:
        text = texts[p]
        for name, sig in declared(text):
            if p.name == "Proof.antt" and name.endswith("-spec"):
                continue
            if re.search(r": (tie|goal)\.", sig) and "→" not in sig:
                answers.add(name)
                continue
            names.setdefault(name, []).append((p, sig))
    rename = {}
    for name, places in sorted(names.items()):
        new = OTHERS.get(name) or split_words(name)
        if new is None or new == name:
            continue
        if name in library or name in answers:
            print(f"kept, a library's or an answer's too: {name}")
            continue
        if any(is_type(sig) for _, sig in places):
            print(f"kept, a type: {name}: {places[0]}")
            continue
        rename[name] = new
    # local names
    bound = set()
    for p in antt:
        if p.name == "Proof.antt":
            continue
        for line in texts[p].split("\n"):
            code, _ = code_of(line)
            for m in re.finditer(r"\blet ([^\s:=(){}]+) (?:=|:)", code):
                bound.add(m[1])
            for m in re.finditer(r"λ ([^.()]*)\.", code):
                bound.update(m[1].split())
            for m in re.finditer(r"[({]([^(){}:=]+) : ", code):
                bound.update(m[1].split())
    for name in sorted(bound):
        if name in rename or name in library or name in answers:
            continue
        new = split_words(name)
        if new and new != name:
            rename[name] = new
    # clashes
    new_names = {}
    for old, new in rename.items():
        new_names.setdefault(new, []).append(old)
    for new, olds in sorted(new_names.items()):
        if len(olds) > 1:
            print(f"CLASH: {olds} -> {new}")
        if new in tokens and new not in rename:
            print(f"CLASH: {olds} -> {new}, which stands in {sorted(map(str, tokens[new]))[:3]}")
        if new in library:
            print(f"CLASH: {olds} -> {new}, a library's")
    imported = set()
    for p in rust:
        for m in re.finditer(r"ghost use ([\w.]+)\.\{([^}]*)\}", texts[p]):
            imported.update(rename.get(w, w) for item in m[2].split(",") for w in item.split())
    rust_names = {}
    for p in rust:
        for m in re.finditer(r"\b([a-z_][a-z0-9_]*)\s*:[^:]", texts[p]):
            rust_names.setdefault(m[1], set()).add(p)
    for new in sorted(new_names):
        if new in rust_names and new in imported:
            print(f"RUST: {new_names[new]} -> {new}: {sorted(map(str, rust_names[new]))[:4]}")
    if listing:
        for old, new in sorted(rename.items()):
            print(f"{old} -> {new}")
        return
    apply(rename, antt, rust, texts)


def by_token(text, rename, kept=()):
    return TOKEN.sub(lambda m: rename.get(m[0], m[0]) if m.start() not in kept else m[0], text)


def in_backquotes(text, rename):
    return re.sub(r"`[^`\n]*`", lambda m: by_token(m[0].replace("`", " ` "), rename).replace(" ` ", "`"), text)


def respelled(path, text, rename):
    """A file's text with its names renamed."""
    out, depth = [], 0
    for line in text.split("\n"):
        if path.suffix == ".antt":
            code, comment = code_of(line)
            kept = set()
            if path.name == "Proof.antt":  # a step of the code keeps its name: the check made it
                kept = {m.start(1) for m in re.finditer(r"\bc(?:\.before)*\.([^\s.(){},]+)", code)}
            code = by_token(code, rename, kept)
            out.append(code + in_backquotes(comment, rename))
        elif path.suffix == ".rt":
            if line.lstrip().startswith("//"):
                out.append(in_backquotes(line, rename))
                continue
            clause = re.match(r"\s*(ghost use|ghost |requires|ensures|invariant)", line)
            if clause or depth > 0:
                out.append(by_token(line, rename))
                depth = max(0, depth + line.count("{") - line.count("}"))
            else:
                out.append(line)
        elif path.suffix == ".edit":
            out.append(by_token(line, rename) if re.match(r"(old|new):", line) else in_backquotes(line, rename))
        else:
            out.append(in_backquotes(line, rename))
    return "\n".join(out)


def apply(rename, antt, rust, texts):
    for p in antt + rust:
        seen = {}
        for m in TOKEN.finditer(texts[p]):
            seen.setdefault(rename.get(m[0], m[0]), set()).add(m[0])
        for new, olds in seen.items():
            if len(olds) > 1 and any(o in rename for o in olds) and p.name != "Proof.antt":
                print(f"falls together in {p}: {sorted(olds)}")
        p.write_text(respelled(p, texts[p], rename))
    beside = dict(rename)
    for name in BY_PORT:
        beside.setdefault(name, split_words(name) or name)
    pages = sorted(Path("crates").glob("*/must-fail/*.edit"))
    pages += [p for p in sorted(Path(".").glob("*.md")) + sorted(Path("docs").rglob("*.md")) if p.name != "PORT.md"]
    for p in pages:
        text = p.read_text()
        p.write_text(respelled(p, text, beside))


main()
