"""What a file of the repository defines, for the checks that look names up. Needs nothing but Python itself."""
import re
from pathlib import Path

ROOT = Path(__file__).resolve().parents[1]

NAME = r"[^\s(){}\[\]:;,.`\"]+"
KEYWORDS = {"let", "in", "where", "module", "use", "unfolding", "record", "data", "mod"}


class Definition:
    """A definition, theorem, record or data type of a .antt file: its name, whether it is public, its signature with the
    parameters of the modules around it, and the names of its fields or constructors."""

    def __init__(self, name, public, signature):
        self.name, self.public, self.signature, self.parts = name, public, signature, set()


def antt_definitions(text):
    """Every definition, theorem, record and data type of a .antt file, in order."""
    found, modules = [], []  # modules: (indentation, parameters) of those that are open
    holder, depth = None, 0  # the record or data type whose parts are read
    growing = None  # the definition whose signature goes on
    for line in text.splitlines():
        code = re.sub(r"(^|\s)--.*", "", line)
        if not code.strip():
            growing = None
            continue
        indent = len(code) - len(code.lstrip())
        while modules and indent <= modules[-1][0]:
            modules.pop()
        if holder and indent <= depth:
            holder = None
        marks = re.match(r"\s*(?:(?:pub|abbrev|unfoldable)\s+)*", code).group(0).split()
        words = code.strip().split(None, len(marks))[-1] if marks else code.strip()
        if growing and indent > growing[1] and not holder:
            growing[0].signature += " " + words
            continue
        growing = None
        around = " ".join(parameters for _, parameters in modules)
        if words.startswith("module "):
            modules.append((indent, words))
            continue
        head = re.match(rf"(?:record|data)\s+({NAME})", words)
        if head and not words.startswith("record {"):
            holder, depth = Definition(head.group(1), "pub" in marks, f"{around} {words}"), indent
            found.append(holder)
            continue
        signature = re.match(rf"((?:{NAME}\s+)*{NAME})\s+:(?:\s|$)", words)
        if not signature or signature.group(1).split()[0] in KEYWORDS:
            continue
        given = signature.group(1).split()
        if holder:
            holder.parts.update(given)
        elif len(given) == 1:
            found.append(Definition(given[0], "pub" in marks, f"{around} {words[signature.end(1):]}"))
            growing = (found[-1], indent)
    return found


class Function:
    """A function of a .rt file: whether it is public, and its contract's clauses as (kind, name, text), the kind being
    `requires` or `ensures`."""

    def __init__(self, name, public):
        self.name, self.public, self.clauses = name, public, []


def open_braces(text):
    """How many braces a text opens and does not close; -1 for a clause that has ended, of which the first is not in the text."""
    return text.count("{") - text.count("}")


class Source:
    """A .rt file: its functions, its types with their parts, the types that are public, its constants, the modules that it
    makes public, and the names that its contracts take from specs/, as they are called in this file."""

    def __init__(self, text):
        self.functions, self.types, self.public_types, self.constants = {}, {}, set(), set()
        self.public_modules = re.findall(r"^pub mod (\w+);", text, re.M)
        self.cited = set()
        for crate, names in re.findall(r"^ghost use Rattle\.(\w+)\.[^{;]*\{([^}]*)\};", text, re.M):
            if (ROOT / "crates" / crate).is_dir():  # and not one of the kit's libraries
                self.cited.update(name.split(" as ")[-1].strip() for name in names.split(","))
        function = holder = None
        clause = None  # the clause that goes on in the next line
        for line in text.splitlines():
            code = re.sub(r"^\s*#\[[^\]]*\]\s*", "", re.sub(r"//.*", "", line))
            if clause and open_braces(clause[2]) >= 0:
                clause[2] += " " + code.strip()
                continue
            clause = None
            found = re.match(r"\s*(pub\s+)?(?:extern\s+\"C\"\s+)?fn\s+(\w+)\s*(?:<[^(]*>)?\s*\(", code)
            if found:
                function, holder = Function(found.group(2), bool(found.group(1))), None
                self.functions[function.name] = function
            found = re.match(r"\s*(pub\s+)?(?:struct|enum)\s+(\w+)", code)
            if found:
                holder, function = found.group(2), None
                self.types.setdefault(holder, set())
                if found.group(1):
                    self.public_types.add(holder)
                continue
            found = re.match(rf"\s*(?:pub\s+)?const\s+({NAME})\s*:", code)
            if found:
                self.constants.add(found.group(1))
            found = re.match(rf"\s*(requires|ensures)\*?\s+(?:({NAME})\s+)?\{{(.*)", code)
            if found and function:
                clause = list(found.groups())
                function.clauses.append(clause)
            if code.startswith("}"):
                holder = None
            elif holder:
                found = re.match(rf"    (?:pub\s+)?({NAME})\s*(?:[:({{,]|$)", code)
                if found:
                    self.types[holder].add(found.group(1))


seen = {}


def antt(path):
    """The definitions of a .antt file, given from the root."""
    if path not in seen:
        seen[path] = antt_definitions((ROOT / path).read_text(encoding="utf-8"))
    return seen[path]


def rt(path):
    """The source of a .rt file, given from the root."""
    if path not in seen:
        seen[path] = Source((ROOT / path).read_text(encoding="utf-8"))
    return seen[path]


def public_functions():
    """The functions that another crate or C can call, as (path, function): those of a library's src/lib.rt and of its public
    modules."""
    for top in sorted(ROOT.glob("crates/*/src/lib.rt")):
        waiting = [top]
        while waiting:
            file = waiting.pop()
            source = rt(file.relative_to(ROOT).as_posix())
            waiting += [file.parent / f"{module}.rt" for module in source.public_modules]
            for name in sorted(source.functions):
                if source.functions[name].public:
                    yield file.relative_to(ROOT).as_posix(), source.functions[name]


class Tests:
    """Tests that are counted: each has a name and passes if nothing is wrong. `finish` prints the last line of a check."""

    def __init__(self, check):
        self.check, self.passed, self.failed = check, 0, 0

    def test(self, name, wrong):
        if wrong:
            self.failed += 1
            for words in wrong:
                print(f"FAILED  {name}: {words}")
        else:
            self.passed += 1

    def finish(self):
        print(f"{self.check}: {self.passed} passed, {self.failed} failed")
        return 1 if self.failed else 0
