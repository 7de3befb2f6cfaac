"""Parses the functions of a crate's source, and the output of a check. tools/mutants uses this module."""
import re

FUNCTION = re.compile(r"^([ ]*)(?:pub(?:\([a-z]+\))? )?(const )?(?:unsafe )?fn (\w+).*", re.M)
IMPL = re.compile(r"^([ ]*)(?:unsafe )?impl\b([^{;]*)\{", re.M)
CALL = re.compile(r"(?:(\w+)::(?:<[^;()]*>::)?|(\bself)?(\.))?\b([a-z_]\w*)(?:::<[^;()]*>)?\(")
# Methods that types of the standard library have, too.
COMMON = "clear clone cmp eq fmt get insert is_empty iter len next of pop push read remove take write".split()
NOTE = re.compile(r"note: src/\S+ it is not proved .*\(`([^`]+)`\)(.*)")
ERROR = re.compile(r"(?:\./)?proofs/(\S+)\.antt:\d+:\d+: error: (?:`([^`]+)`)?")
VERDICT = re.compile(r"(?:fn|impl|struct|enum|trait|const|static|type) (\S+): (.+)")
NAMES = re.compile(r"`([^`]+)`")


class Function:
    """A function in the text of a source file."""

    def __init__(self, crate, file, text, found, impls):
        self.name, self.is_const, self.start, self.end = found[3], bool(found[2]), found.start(), found.end()
        if not found[0].endswith("}"):
            self.end = end_of(text, found)
        # (a body on the same line as its head is not cut out)
        head = rf"^{found[1]}(?:\{{|(?:\)|(?:pub(?:\([a-z]+\))? )?(?:unsafe )?fn ).* \{{)$"
        body = re.compile(head, re.M).search(text, self.start, self.end)
        self.body = body.end() if body else self.end
        self.text = text[found.start(3) + len(self.name) : self.end]
        self.type = ([""] + [of for start, end, of in impls if start <= self.start < end])[-1]
        module = [it for it in file[len("src/") : -len(".rt")].split("/") if it not in ("lib", "main", "mod")]
        # (a method's path has its type, which may be of another file; a trait's method has the names of both)
        of = rf"(?:\w+::)*{self.type}[\w+]*::" if self.type else "".join(f"{it}::" for it in module) + r"(?:\w+::)?"
        self.path = re.compile(f"{crate}::{of}{self.name}")

    def calls(self, functions):
        """Returns the functions that the text of this function seems to call."""
        found = set()
        for of, own, dot, name in CALL.findall(self.text):
            if dot and not own:
                found |= {it for it in functions if it.name == name and it.type and name not in COMMON}
            else:
                of = self.type if own or of == "Self" else of if of[:1].isupper() else ""
                found |= {it for it in functions if it.name == name and it.type == of}
        return found


def end_of(text, found):
    """Returns the end of an item that starts with this match, whose first group is its indentation."""
    end = re.compile(rf"^{found[1]}\}}", re.M).search(text, found.end())
    return end.end() if end else len(text)


def type_of(header):
    """Returns the type of an impl by its header."""
    before = None
    while before != header:
        before, header = header, re.sub(r"<[^<>]*>", "", header.replace("->", ""))
    return (re.findall(r"\w+", re.split(r"\swhere\s", header)[0].split(" for ")[-1]) or [""])[-1]


def functions_in(crate, file, text):
    impls = [(it.start(), end_of(text, it), type_of(it[2])) for it in IMPL.finditer(text)]
    return [Function(crate, file, text, it, impls) for it in FUNCTION.finditer(text)]


def without_bodies(text, functions):
    """Returns a text without the bodies of these functions, except of `const fn`s, and without comments of whole lines."""
    parts, at = [], 0
    for it in functions:
        if not it.is_const and it.body >= at:
            parts.append(text[at : it.body])
            at = it.end
    return re.sub(r"^[ ]*//.*\n", "", "".join([*parts, text[at:]]), flags=re.M)


def without_remarks(text):
    """Returns a text of definitions or proofs without blank lines and lines of comments."""
    return re.sub(r"^[ ]*(?:--|-- .*)?\n", "", text, flags=re.M)


class Verdicts:
    """The output of a check: what it proved, the open goals of the rest, and the callees that these wait for."""

    def __init__(self, crate, text, status):
        self.status, self.text, self.proved, self.open, self.waits = status, text, set(), {}, {}
        goals = []
        for line in text.splitlines():
            if found := NOTE.match(line):
                goals.append((found[1], "is false" in found[2]))
            elif found := ERROR.match(line):
                folder, _, file = found[1].rpartition("/")
                is_own = folder and file in ("Answers", "Invariants", "Proof")
                of = f"{crate}::{folder.replace('/', '::')}" if is_own else f"proofs/{found[1]}.antt"
                self.open.setdefault(of, []).append((found[2] or "error", False))
            elif found := VERDICT.match(line):
                of, verdict = found[1], found[2]
                if verdict == "proved" or verdict.startswith("assumed"):
                    self.proved.add(of)
                else:
                    verdict, _, waits = verdict.partition("it calls ")
                    if waits:
                        self.waits[of] = set(NAMES.findall(waits))
                    _, _, names = verdict.partition("did not prove ")
                    goals += [(it, False) for it in NAMES.findall(names) if it not in dict(goals)]
                    goals += [("limit", False)] * ("could not tell" in verdict)
                    self.open.setdefault(of, []).extend(goals)
                goals = []
        lines = [line for line in text.splitlines() if line.strip()] or ["nothing"]
        self.error = next((line for line in lines if re.search(r"\berror\b", line)), lines[-1])[:200]

    def was_reached(self):
        """Returns whether the prover ran: it does not if the text does not compile or names an unknown item."""
        return bool(self.proved or self.waits or any(not of.endswith(".antt") for of in self.open))

    def judged(self):
        """Returns what failed on its own, functions first."""
        return sorted((of for of in self.open if of not in self.waits), key=lambda of: (of.endswith(".antt"), of))

    def goals(self, of):
        """Returns the open goals, first those that are seen to be false, then those that name a clause."""
        order = sorted(self.open[of], key=lambda it: (it[0] in ("error", "limit"), not it[1], "clause" not in it[0]))
        return [goal for goal, _ in order] or ["unproved"]
