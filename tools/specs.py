"""Reads the definitions of crates/*/specs, and which of them public contracts reach.

A public contract is one of a function that its crate makes public, of a method of such a type or trait, what a public
ghost field of such a struct is, or what an impl of such a trait shows of its type. It reaches the words that its
clauses cite, and what their definitions cite in turn. tools/definitions and tools/booklet use it.
"""
import pathlib
import re

ROOT = pathlib.Path(__file__).resolve().parent.parent

NAME = r"(?:◌[^\s◌]+◌|[\w'-]+)"
HEADER = re.compile(rf"^(?:(?:abbrev|unfoldable) )*(?:pub )?(?:(?:record|data|instance|syntax) )?({NAME})(?= :| \(| \{{|$)")
KEYWORD = re.compile(r"^(?:abbrev|unfoldable|pub|record|data)\b")
SPEC_USE = re.compile(r"use Rattle\.(\w+)\.specs\.([\w.]+?)\.\{([^}]*)\}")
SPEC_ALIAS = re.compile(r"use Rattle\.(\w+)(?:\.specs)?((?:\.\w+)*) as (\w+)")
TOKEN = re.compile(r"[\w'-]+(?:\.[\w'-]+)*")


def without_comments(text, mark):
    return "\n".join(line.split(mark)[0] for line in text.splitlines())


def imports(text):
    """The words that a text imports from specs, by the name that it uses, and the modules that it names otherwise."""
    words, modules = {}, {}
    for crate, module, names in SPEC_USE.findall(text):
        for name in names.split(","):
            original, _, alias = name.strip().partition(" as ")
            if original:
                words[alias or original] = (crate, module, original)
    for crate, module, alias in SPEC_ALIAS.findall(text):
        modules[alias] = (crate, module.strip("."))
    return words, modules


def under(crate, module, parts):
    """What a path of parts below a module may name."""
    return {(crate, ".".join(filter(None, [module, *parts[:at]])), parts[at]) for at in range(len(parts))}


def cited(text, words, modules):
    found = set()
    for token in TOKEN.findall(text):
        parts = token.split(".")
        if parts[0] in words:
            found.add(words[parts[0]])
        if parts[0] in modules:
            found |= under(*modules[parts[0]], parts[1:])
        if parts[0] == "Rattle" and parts[2:3] == ["specs"]:
            found |= under(parts[1], "", parts[3:])
        found.update(words[part] for part in parts[1:] if part in words and part[0].isupper())
    for name, word in words.items():
        if name[0] == "◌" and word[0] != "std":
            symbol = name.strip("◌")
            if re.search(rf"(?<!\S){re.escape(symbol)}(?!\S)", text) or (symbol == ">>=" and "←" in text):
                found.add(word)
    return found


class Definitions:
    """Each definition of the specs, by crate, module and name, with what it cites."""

    def __init__(self):
        self.cites, self.home, self.passed_on = {}, {}, {}
        for crate in sorted((ROOT / "crates").iterdir()):
            for path in sorted((crate / "specs").glob("**/*.antt")):
                if path.name not in ("Lib.antt", "machine.antt"):
                    self.read(crate.name, path)

    def read(self, crate, path):
        module = ".".join(path.relative_to(ROOT / "crates" / crate / "specs").with_suffix("").parts)
        text = without_comments(path.read_text(), "--")
        words, modules = imports(text)
        for name, target in words.items():
            self.passed_on[(crate, module, name)] = target
        bodies, order, name, in_mutual = {}, [], None, False
        for line in text.splitlines():
            if re.match(r"(unfoldable )?(pub )?use |infix", line):
                continue
            if re.match(r"\S", line):
                in_mutual = re.match(r"(abbrev )?mutual$", line.strip()) is not None
                if in_mutual:
                    continue
            start = line[2:] if in_mutual else line
            match = HEADER.match(start)
            if match and KEYWORD.match(start):
                name = match[1]
                order.append(name)
                bodies.setdefault(name, [])
            if name is not None:
                bodies[name].append(line)
        own = {name: (crate, module, name) for name in order}
        for name, lines in bodies.items():
            if re.match(r"\s*(abbrev )?(pub )?data ", lines[0]):
                for line in lines[1:]:
                    constructor = re.match(r"\s+(?:pub )?([\w'-]+) :", line)
                    if constructor:
                        self.home[(crate, module, constructor[1])] = (crate, module, name)
                        own.setdefault(constructor[1], (crate, module, name))
        for name, lines in bodies.items():
            body = "\n".join(lines)
            self.cites[(crate, module, name)] = cited(body, {**words, **own}, modules) - {(crate, module, name)}

    def found(self, word):
        """The definition behind a cited word, if it is one of the repository's specs."""
        for _ in range(9):
            if word in self.cites:
                return word
            if word in self.home:
                return self.home[word]
            if word not in self.passed_on or self.passed_on[word] == word:
                return None
            word = self.passed_on[word]
        return None


def public_items(crate):
    """The names that a crate's root makes public, and its public modules."""
    root = crate / "src/lib.rt"
    text = without_comments(root.read_text(), "//") if root.exists() else ""
    names = set()
    for use in re.findall(r"pub use ([^;]*);", text):
        names.update(re.findall(r"\w+", use))
    return names, set(re.findall(r"pub mod (\w+);", text))


def closing(text, at):
    """Returns the offset after the brace that closes the one at this offset."""
    depth = 0
    for place in range(at, len(text)):
        depth += {"{": 1, "}": -1}.get(text[place], 0)
        if depth == 0:
            return place + 1
    return len(text)


CLAUSE = re.compile(r"\b(?:requires|ensures)(?:\s+\w+)?\s*(?=\{)")


def clauses(text, at):
    """Returns the clauses of the function whose `fn` is at this offset, up to its body."""
    found, depth = [], 0
    while at < len(text):
        clause = CLAUSE.match(text, at) if depth == 0 else None
        if clause:
            end = closing(text, clause.end())
            found.append(text[clause.end() : end])
            at = end
        elif depth == 0 and text[at] in "{;":
            break
        else:
            depth += {"(": 1, "[": 1, ")": -1, "]": -1}.get(text[at], 0)
            at += 1
    return found


def ghost(text, at):
    """Returns what a ghost item or field shows, whose name ends at this offset."""
    braces = re.compile(r"[^{;]*(\{)?").match(text, at)
    return text[at : closing(text, braces.start(1))] if braces[1] else braces[0]


OUTER = re.compile(r"^(pub )?(?:unsafe )?(impl|trait|struct|enum)\b([^{;]*)([{;]?)", re.M)
FUNCTION = re.compile(r"^([ \t]*)(pub )?(?:pub\(\w+\) )?(?:const |unsafe )*fn (\w+)", re.M)
GHOST = re.compile(r"^[ \t]+(pub )?ghost (?!use\b)(\w+)", re.M)


def named_in(head):
    """The names of an item's head, without its parameters and the bounds after them."""
    head = re.split(r"\bwhere\b", head.replace("->", ""))[0]
    while re.search(r"<[^<>]*>", head):
        head = re.sub(r"<[^<>]*>", "", head)
    return re.findall(r"\w+", head)


def public_clauses(path, names, is_public):
    """The text of each clause of a public function of a file, and of what its public types and impls show."""
    text = without_comments(path.read_text(), "//")
    found, inside = [], []
    for item in OUTER.finditer(text):
        end = text.find("\n}", item.end()) if item[4] == "{" else item.end()
        end = len(text) if end < 0 else end
        inside.append((item.start(), end))
        words = named_in(item[3])
        if not (is_public or any(word in names for word in words)):
            continue
        is_type, shows_all = item[2] in ("struct", "enum"), item[2] == "trait" or "for" in words
        if is_type and not item[1]:
            continue
        for function in FUNCTION.finditer(text, item.end(), end):
            if function[2] or shows_all:
                found += clauses(text, function.end())
        # What a Model keeps of private fields is the crate's own; the type of its values is seen.
        for shown in GHOST.finditer(text, item.end(), end):
            if shown[1] or not is_type and (words[:2] != ["Model", "for"] or shown[2] == "Value"):
                found.append(ghost(text, shown.end()))
    for function in FUNCTION.finditer(text):
        if function[1] == "" and function[2] and (is_public or function[3] in names):
            found += clauses(text, function.end())
    return "\n".join(found)


def reached(definitions):
    """The words that public clauses cite, and those that they reach, each with one that cites it."""
    direct, by = set(), {}
    for crate in sorted((ROOT / "crates").iterdir()):
        names, modules = public_items(crate)
        for path in sorted((crate / "src").glob("**/*.rt")):
            words, aliases = imports(without_comments(path.read_text(), "//"))
            text = public_clauses(path, names, path.stem in modules)
            for word in cited(text, words, aliases):
                word = definitions.found(word)
                if word:
                    direct.add(word)
                    by.setdefault(word, f"crates/{crate.name}/src/{path.name}")
    queue = sorted(direct)
    while queue:
        word = queue.pop()
        for further in definitions.cites[word]:
            further = definitions.found(further)
            if further and further not in by:
                by[further] = ".".join(word)
                queue.append(further)
    return direct, by
