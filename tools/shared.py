"""What `tools/turn` and `tools/needs` share: how they run a check, and how they show what it says."""
import re
import subprocess
import sys
from pathlib import Path

ROOT = Path(__file__).resolve().parents[1]
LIBRARIES = "Prim|Rattle|borrow|denote|lib|mathlib|mir|native"
PART = r"[^\s.(){}`,;:]"  # of a name, between its dots


def check(crate, *flags):
    """A check of a crate over what earlier checks kept; gives its exit status and all that it said."""
    folder = ROOT / "crates" / crate
    if not folder.is_dir():
        sys.exit(f"there is no crate {crate}")
    run = subprocess.run(["rt", "check", *flags], cwd=folder, stdout=subprocess.PIPE, stderr=subprocess.STDOUT, encoding="utf-8")
    return run.returncode, run.stdout


def plain(text):
    """A line with names without their modules; what it says to write in a `use` line stays whole."""
    name = rf"(?<![^\s(){{}}`,])(?<!use )(?:{LIBRARIES})(?:\.{PART}+)+(?!{PART}|\.)"
    return re.sub(name, lambda found: found.group(0).rsplit(".", 1)[1], text)
