"""Programs with a fault that is put in on purpose: the test of the runs. A file seeded/NAME.edit changes a line of `routeline`
and has the form of a must-fail edit. Its first line says what the wrong program does. Each line `# caught by: ` names a run
that must find that. A line `# says: ` has the words with which the program must end, where the change only makes it give up.

The faults here are in what calls the system. One that a contract reaches is a must-fail edit of the crate instead.

Such a program is compiled without a proof (tests/unproved.py). It is for the runs and nothing else. The program without an edit
is compiled so too: it must pass them. Here `routeline` may use the kit's C layers, so that a fault can name another descriptor
or ask for the error of a later call; in the repository it has none of them."""
import re
import sys
from pathlib import Path

HERE = Path(__file__).resolve().parent
sys.path.insert(0, str(HERE.parent))
import unproved  # noqa: E402
from unproved import Unusable  # noqa: E402


def edits():
    """All faults, in order."""
    return sorted(HERE.glob("seeded/*.edit"))


def lines(edit, start):
    """What stands after this start in the lines of an edit that have it."""
    return [line[len(start):] for line in edit.read_text().splitlines() if line.startswith(start)]


def caught_by(edit):
    return lines(edit, "# caught by: ")


def says(edit):
    return lines(edit, "# says: ")


def put_in(edit, crate):
    """Makes the one replacement of an edit in a copy of the crate. What is replaced stands there once."""
    parts = [lines(edit, start) for start in ("file: ", "old: ", "new:")]
    if [len(part) for part in parts] != [1, 1, 1]:
        raise Unusable("it is not one replacement")
    [file], [old], [new] = parts
    text = (crate / file).read_text()
    if text.count(old) != 1:
        raise Unusable(f"its old text stands {text.count(old)} times in {file}")
    (crate / file).write_text(text.replace(old, new.removeprefix(" ")))


def lend_c_layers(crate):
    """Lists the kit's C layers for a copy of the crate."""
    listed = crate.parents[1] / "crates.txt"
    listed.write_text(re.sub(r"^routeline:.*", r"\g<0> libc os", listed.read_text(), flags=re.M))


def compiled(folder, edit):
    """Compiles `routeline` in an empty folder, with an edit or, where that is None, as it is, and gives the program's path."""

    def change(crate):
        lend_c_layers(crate)
        if edit:
            put_in(edit, crate)

    return unproved.compiled(folder, "routeline", change)
