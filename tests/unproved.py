"""Programs that are compiled without a proof, for tests and nothing else: `rt try` compiles what is not proved, with tests of
indexes and sums in the code, and a linker that stands in for the kit's keeps what it made.

  unproved.py NAME FOLDER PROGRAM    compiles the program NAME with the files of a folder in its src/, each NAME.txt as NAME.rt,
                                     for every .rt file of the repository belongs to a crate that is proved"""
import shutil
import subprocess
import sys
import tempfile
from pathlib import Path

ROOT = Path(__file__).resolve().parents[1]

# Seconds after which a compiler counts as one that hangs.
PATIENCE = 300


class Unusable(Exception):
    """Why a program cannot be compiled, in words."""


def beside(folder, source, *own):
    """Makes a folder with a link to each thing of another folder but those that it will have of its own."""
    folder.mkdir()
    for thing in source.iterdir():
        if thing.name not in own:
            (folder / thing.name).symlink_to(thing)


def kit_that_keeps(program, folder):
    """Makes a kit like the one in use but for its linker, which keeps the first program that it links and fails there."""
    guide = subprocess.run(["rt", "doc"], capture_output=True, text=True, check=True).stdout.strip()
    kit = Path(guide).parent
    beside(folder, kit, "bin", "toolchain")
    beside(folder / "bin", kit / "bin", "rt", "rtlib.py")
    for script in ("rt", "rtlib.py"):  # it finds the kit by where it stands itself
        shutil.copy(kit / "bin" / script, folder / "bin")
    beside(folder / "toolchain", kit / "toolchain", "bin")
    beside(folder / "toolchain/bin", kit / "toolchain/bin", "ld.lld")
    linker = folder / "toolchain/bin/ld.lld"
    linker.write_text(f'#!/bin/sh\n"{kit}/toolchain/bin/ld.lld" "$@" && /bin/cp program "{program}"\nexit 1\n')
    linker.chmod(0o755)


def compiled(folder, name, change):
    """Compiles a program in an empty folder, once its crate there has been changed, and gives the program's path."""
    program = folder / name
    kit_that_keeps(program, folder / "kit")
    shutil.copytree(ROOT / "crates", folder / "crates", ignore=shutil.ignore_patterns("out"))
    shutil.copy(ROOT / "crates.txt", folder)
    change(folder / "crates" / name)
    try:
        done = subprocess.run([folder / "kit/bin/rt", "try"], cwd=folder / "crates" / name, stdin=subprocess.DEVNULL,
                              capture_output=True, text=True, timeout=PATIENCE)
    except subprocess.TimeoutExpired:
        raise Unusable("its compiler does not end") from None
    if not program.exists():
        raise Unusable(f"it does not compile: {done.stdout}{done.stderr}")
    return program


def main(name, added, program):
    def add(crate):
        for file in Path(added).glob("*.txt"):
            shutil.copy(file, crate / "src" / f"{file.stem}.rt")

    with tempfile.TemporaryDirectory() as folder:
        try:
            shutil.copy(compiled(Path(folder), name, add), program)
        except Unusable as why:
            sys.exit(str(why))


if __name__ == "__main__":
    main(*sys.argv[1:])
