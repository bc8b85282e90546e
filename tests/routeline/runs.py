"""The runs of `routeline`: what no contract can reach, the calls of the system, is tried here one fault at a time. A run starts
the program, disturbs what it reads and writes, and compares what it printed, what it said on standard error and which calls
it made. A run that finds something wrong raises `Wrong`. `RUNS` has all of them by name.

No run measures time. A program that does not answer or does not end is stopped after a time that is far beyond what it needs,
and that is a failure."""
import contextlib
import errno
import fcntl
import os
import select
import subprocess
import sys
import tempfile
import time
from collections import namedtuple
from pathlib import Path

sys.path.insert(0, str(Path(__file__).resolve().parents[1] / "display"))
from cases import AT_CAP, D5, P1, P2, P3, P4, TO_QUERY, district5, query  # noqa: E402

# The queries of P1 to P4 and between them those of P1 at two caps, their answers, and a file with all of them.
QUERIES = [query(0, 3, "01"), query(0, 3, "1"), query(0, 3, "01", cap=2), query(2, 2, "0"), query(0, 3, "01", cap=1), query(3, 0, "01")]
ANSWERS = [P1, P2, AT_CAP[2], P3, AT_CAP[1], P4]
ALL = district5(*QUERIES)

# A query that is written with as many bytes as the first, and has another answer.
BACK = QUERIES[-1]

# The longest line that waits for its end.
LONGEST = "0" * 271

# What is said of a read and of a write that failed, before the system's reason.
UNREAD = "routeline: the file is cut short, standard input cannot be read: "
UNWRITTEN = "routeline: the answers are cut short, standard output cannot be written: "

# What is said to whoever gives an argument: what the program is, how it is called, where to read more.
EXPLAINED = """\
routeline answers route queries: a district file on standard input, its answer lines on standard output.
usage: routeline < FILE
It takes no arguments. README.md says what a file holds and what the answers mean, docs/RULES.md gives the rules.
"""

# The bytes that a pipe holds, on every machine, and the number of the system's call that sets them (F_SETPIPE_SZ).
PIPE = 65536
SET_PIPE_SIZE = 1031

RUNS = {}


class Wrong(Exception):
    """What a run found wrong, in words."""


# A call of the system, as faults.c notes it, and the one that is a pause of a millisecond.
Call = namedtuple("Call", "name file asked moved")
PAUSE = Call("nanosleep", -1, 1_000_000, 0)

# What a run of the program left: its output, its words, its calls, and how many bytes of its input it took.
Ran = namedtuple("Ran", "printed words calls taken")


def run(name):
    """Enters a function among the runs."""

    def enter(function):
        if name in RUNS:
            raise ValueError(f"two runs are called '{name}'")
        RUNS[name] = function
        return function

    return enter


def same(what, got, wanted):
    """Two texts, or two lists, are the same."""
    if got != wanted:
        at = next((i for i, (a, b) in enumerate(zip(got, wanted)) if a != b), min(len(got), len(wanted)))
        raise Wrong(f"{what}: {got[at:at + 60]!r} and not {wanted[at:at + 60]!r}, from place {at} on")


# ---- how the program is run
class Routeline:
    """A program that is run, with the library of faults.c loaded. After `patience` seconds without an answer or an end it counts
    as one that hangs."""

    def __init__(self, program, faults, patience):
        self.program, self.faults, self.patience = str(program), str(faults), patience

    def start(self, command, plan, **files):
        settings = {**os.environ, "LC_ALL": "C", "LD_PRELOAD": self.faults, **plan}
        return subprocess.Popen(command, env=settings, stderr=subprocess.PIPE, **files)

    def ran(self, data, words=(), shell=None, files=None, **plan):
        """Runs the program on a file with these bytes, and these words as its arguments. `shell` has the words of a shell that
        starts it, `files` what stands for the file or for the pipe that takes its output, `plan` the settings of faults.c."""
        with tempfile.TemporaryDirectory() as folder:
            file, calls = Path(folder, "file"), Path(folder, "calls")
            file.write_text(data, encoding="latin-1")
            calls.touch()
            command = [*(["sh", "-c", shell, "sh"] if shell else []), self.program, *words]
            with open(file, "rb") as stream:
                given = {"stdin": stream, "stdout": subprocess.PIPE, **(files or {})}
                process = self.start(command, {"CALLS": str(calls), **plan}, **given)
                try:
                    printed, said = process.communicate(timeout=self.patience)
                except subprocess.TimeoutExpired:
                    process.kill()
                    process.communicate()
                    raise Wrong("it does not end") from None
                taken = stream.seek(0, os.SEEK_CUR)
            same("exit status", [process.returncode], [0])
            return Ran((printed or b"").decode("latin-1"), said.decode("latin-1"), calls_in(calls), taken)

    @contextlib.contextmanager
    def talk(self, unblocked=None):
        """A talk with the program by two pipes, while its input is open. The end that the program has of one of them (0 or 1)
        may be unblocked: where a call would have to wait, it fails, and is to be tried again."""
        with tempfile.TemporaryDirectory() as folder:
            calls = Path(folder, "calls")
            calls.touch()
            stdin, to = os.pipe()
            by, stdout = os.pipe()
            for pipe in (to, stdout):
                fcntl.fcntl(pipe, SET_PIPE_SIZE, PIPE)
            os.set_blocking(to, False)
            if unblocked is not None:
                os.set_blocking((stdin, stdout)[unblocked], False)
            with open(to, "wb", buffering=0) as to, open(by, "rb", buffering=0) as by:
                with self.start([self.program], {"CALLS": str(calls)}, stdin=stdin, stdout=stdout) as process:
                    os.close(stdin)
                    os.close(stdout)
                    try:
                        yield Talk(process, to, by, calls, self.patience)
                    finally:
                        process.kill()


class Talk:
    """A talk that is under way."""

    def __init__(self, process, to, by, calls, patience):
        self.process, self.to, self.by, self.calls, self.patience = process, to, by, calls, patience

    def send(self, text):
        """Sends bytes by one write, which the pipe takes whole."""
        try:
            taken = self.to.write(text.encode("latin-1"))
        except BrokenPipeError:
            raise Wrong("it has ended though its input is open") from None
        if taken != len(text):
            raise Wrong("the pipe to the program is full")

    def hear(self, wanted):
        """The program prints these bytes next, while its input is open."""
        got = ""
        while len(got) < len(wanted) and select.select([self.by], [], [], self.patience)[0]:
            more = self.by.read(len(wanted) - len(got))
            if not more:
                break
            got += more.decode("latin-1")
        same("answered while the input is open", got, wanted)

    def meets_a_wait(self, name):
        """Goes on when a call of this name has failed because it would have to wait."""
        end = time.monotonic() + self.patience
        while not any(call.name == name and call.moved == -errno.EAGAIN for call in calls_in(self.calls)):
            if time.monotonic() > end or self.process.poll() is not None:
                raise Wrong(f"it makes no {name} that would have to wait")
            time.sleep(0.01)

    def ends(self):
        """The program ends by itself, prints nothing more and says nothing."""
        try:
            self.process.wait(self.patience)
        except subprocess.TimeoutExpired:
            raise Wrong("it does not end though it has nothing more to answer") from None
        same("printed at the end", self.by.read(), b"")
        same("said", self.process.stderr.read(), b"")

    def over(self):
        """The input ends, and so does the program."""
        self.to.close()
        self.ends()


def calls_in(file):
    """The calls that are noted in a file, but for a line that is not yet whole."""
    lines = file.read_text().split("\n")[:-1]
    return [Call(name, *map(int, numbers)) for name, *numbers in map(str.split, lines)]


# ---- what is asked of a run
def whole(ran, wanted):
    """All answers were printed, and no words were said."""
    same("printed", ran.printed, wanted)
    same("said", ran.words, "")


def exactly(ran, *answers, then=()):
    """All answers were printed, by one read, one write an answer and, after that, only the calls that are named."""
    whole(ran, "".join(answers))
    moves = [(call.name, call.file, call.moved) for call in ran.calls]
    same("calls", moves, [("read", 0, ran.taken), *(("write", 1, len(answer)) for answer in answers), *then])


def cut(ran, printed, words, error):
    """These bytes were printed and no more; the words say what failed and why; and after the call that failed there was none
    that reads the file or writes an answer."""
    same("printed", ran.printed, printed)
    same("said", ran.words, words + os.strerror(error) + "\n")
    moved = [call.moved for call in ran.calls if call.file in (0, 1)]
    if -error not in moved:
        raise Wrong("no call failed so")
    same("calls after the one that failed", moved[moved.index(-error) + 1:], [])


def met(ran, moved):
    """The fault came up, at a read and at a write."""
    same("disturbed", sorted({call.name for call in ran.calls if call.moved == moved}), ["read", "write"])


# ---- answers while the input is open
@run("each answer comes before the next query is sent")
def _(routeline):
    with routeline.talk() as talk:
        talk.send(TO_QUERY)
        for asked, answer in zip(QUERIES, ANSWERS):
            # the second piece begins and ends within the cap, where there is one
            for piece in (asked[:11], asked[11:13], asked[13:]):
                talk.send(piece)
            talk.hear(answer)
        talk.over()


@run("a refused query's answer comes at once, and the next query is answered")
def _(routeline):
    with routeline.talk() as talk:
        talk.send(district5(query(0, 5, "0")))
        talk.hear("FF0400000000\n")
        talk.send(QUERIES[0])
        talk.hear(P1)
        talk.over()


@run("a file refusal ends the program while its input is open")
def _(routeline):
    misplaced, unsound = "FF0B0000000D\n", "FF0A0000000D\n"
    for refused, told in (("0100050005\n", misplaced), (AT_CAP[3], unsound), (AT_CAP[0], unsound)):
        exactly(routeline.ran(D5 + refused + QUERIES[0]), P1, told)
        with routeline.talk() as talk:
            talk.send(D5)
            talk.hear(P1)
            talk.send(refused)
            talk.hear(told)
            talk.ends()


@run("the 272nd digit of a line is refused at once")
def _(routeline):
    told = "FF0A00000001\n"
    exactly(routeline.ran(LONGEST + "0"), told)
    with routeline.talk() as talk:
        talk.send(LONGEST + "0")
        talk.hear(told)
        talk.ends()


@run("271 digits wait for the end of their line")
def _(routeline):
    cut(routeline.ran(LONGEST, READS="all EIO"), "", UNREAD, errno.EIO)
    whole(routeline.ran(LONGEST + "\n"), "FF0A00000001\n")
    whole(routeline.ran(district5(query(0, 3, "0" * 255, cap=5), QUERIES[0])), "FF0500000000\n" + P1)


@run("of 1,000 queries 999 are answered before the last is whole")
def _(routeline):
    with routeline.talk() as talk:
        talk.send(TO_QUERY + QUERIES[0] * 999 + BACK[:5])
        talk.hear(P1 * 999)
        talk.send(BACK[5:])
        talk.hear(P4)
        talk.over()


@run("a query is looked at after the answer before it is written")
def _(routeline):
    # The last query becomes another one, in the program's own memory, while the first answer is written: of two queries, and
    # of 1,000 that one read brings.
    for more in (1, 999):
        before = TO_QUERY + QUERIES[0] * more
        ran = routeline.ran(before + QUERIES[0], SWAPS=f"{len(before)} {BACK}")
        exactly(ran, *[P1] * more, P4, then=[("read", 0, 0)])


@run("undisturbed: one write an answer, and no other call")
def _(routeline):
    exactly(routeline.ran(ALL), *ANSWERS, then=[("read", 0, 0)])


# ---- calls that are tried again
@run("the same answers when each call moves one byte")
def _(routeline):
    ran = routeline.ran(ALL, READS="1 again", WRITES="1 again")
    whole(ran, "".join(ANSWERS))
    met(ran, 1)


@run("an interrupted read and an interrupted write are tried again")
def _(routeline):
    ran = routeline.ran(ALL, READS="EINTR EINTR 200 again", WRITES="EINTR EINTR 20 again")
    whole(ran, "".join(ANSWERS))
    met(ran, -errno.EINTR)


@run("a call that would have to wait is tried again, after a pause")
def _(routeline):
    ran = routeline.ran(ALL, READS="EAGAIN EAGAIN 200 again", WRITES="EAGAIN 0 20 again")
    whole(ran, "".join(ANSWERS))
    met(ran, -errno.EAGAIN)
    after = [then for call, then in zip(ran.calls, ran.calls[1:])
             if call.moved == -errno.EAGAIN or call.name == "write" and call.moved == 0]
    same("after each", after, [PAUSE] * len(after))


@run("a slow reader of a pipe that does not block gets all lines")
def _(routeline):
    queries = 2 * PIPE // len(P1)
    with routeline.talk(unblocked=1) as talk:
        talk.send(TO_QUERY + QUERIES[0] * queries)
        talk.meets_a_wait("write")
        talk.hear(P1 * queries)
        talk.over()


@run("an input pipe that does not block is waited for")
def _(routeline):
    with routeline.talk(unblocked=0) as talk:
        talk.meets_a_wait("read")
        talk.send(ALL)
        talk.hear("".join(ANSWERS))
        talk.over()


# ---- calls that fail
@run("a read that fails half way: the answers so far, and no end of input")
def _(routeline):
    heard = len(district5(*QUERIES[:2]))
    for more in (0, 1, 12, len(QUERIES[2]) - 1):
        cut(routeline.ran(ALL, READS=f"{heard + more} EIO"), P1 + P2, UNREAD, errno.EIO)
    cut(routeline.ran(ALL, READS="EIO"), "", UNREAD, errno.EIO)


@run("a write that fails half way: the answers so far, and nothing after the gap")
def _(routeline):
    for part in (1, len(P2) - 1):
        cut(routeline.ran(ALL, WRITES=f"all {part} ENOSPC"), P1 + P2[:part], UNWRITTEN, errno.ENOSPC)
    cut(routeline.ran(ALL, WRITES="all EIO"), P1, UNWRITTEN, errno.EIO)


@run("a full device")
def _(routeline):
    with open("/dev/full", "wb") as full:
        cut(routeline.ran(ALL, files={"stdout": full}), "", UNWRITTEN, errno.ENOSPC)


@run("a closed pipe whose signal is ignored")
def _(routeline):
    reader, writer = os.pipe()
    os.close(reader)
    with open(writer, "wb") as pipe:
        # Python ignores the signal, and so does what it starts, unless it restores it.
        cut(routeline.ran(ALL, files={"stdout": pipe, "restore_signals": False}), "", UNWRITTEN, errno.EPIPE)


@run("standard input is closed")
def _(routeline):
    cut(routeline.ran(ALL, shell='exec "$@" <&-'), "", UNREAD, errno.EBADF)


@run("standard output is closed")
def _(routeline):
    cut(routeline.ran(ALL, shell='exec "$@" >&-'), "", UNWRITTEN, errno.EBADF)


@run("a directory as input")
def _(routeline):
    folder = os.open("/", os.O_RDONLY)
    try:
        cut(routeline.ran(ALL, files={"stdin": folder}), "", UNREAD, errno.EISDIR)
    finally:
        os.close(folder)


def gives_up(routeline, words):
    """A program that stops before the end says so, in these words, and has printed the first of the answers."""
    ran = routeline.ran(TO_QUERY + QUERIES[0] * 1000)
    same("said", ran.words, words + "\n")
    same("printed", ran.printed, (P1 * 1000)[:len(ran.printed)])


# ---- arguments
@run("an argument: what the program is, on standard error, and nothing else")
def _(routeline):
    for words in (["--help"], ["--version"], ["examples/d5.txt"], [""], ["-", "-"]):
        ran = routeline.ran(ALL, words)
        same("printed", ran.printed, "")
        same("said", ran.words, EXPLAINED)
        same("calls but for the words", [call for call in ran.calls if call.file != 2], [])
