"""Reads what the booklet prints: the text of each definition, of a public contract, and of a type of the code.

tools/booklet and tools/arrangement.py use it.
"""
import re

import specs
from specs import ROOT


class Texts:
    """Each definition's text with the comment above it, in the order of its file."""

    def __init__(self):
        self.of, self.headings = {}, {}
        for path in sorted((ROOT / "crates").glob("*/specs/**/*.antt")):
            crate = path.relative_to(ROOT / "crates").parts[0]
            module = ".".join(
                path.relative_to(ROOT / "crates" / crate / "specs").with_suffix("").parts
            )
            self.read(crate, module, path.read_text().splitlines())
        for _, _, block in self.of.values():
            while not block[-1].strip():
                block.pop()

    def read(self, crate, module, lines):
        heading = []
        for line in lines:
            if not line.startswith("--"):
                break
            heading.append(line[2:].strip())
        self.headings[(crate, module)] = " ".join(heading)
        comment, block, place, mutual = [], None, 0, None
        for line in lines[len(heading) :]:
            if line.startswith("infix"):
                block = None
                continue
            if re.match(r"(unfoldable )?(pub )?use ", line):
                comment, block = [], None
                continue
            if re.match(r"(abbrev )?mutual$", line.strip()) and not line.startswith(" "):
                mutual, block = [line], None
                continue
            if mutual is not None and re.match(r"\S", line):
                mutual = None
            bare = line[2:] if mutual is not None else line
            if bare.startswith("--"):
                comment = [] if bare.startswith("-- ----") else comment + [bare[2:].strip()]
                if mutual is None:
                    block = None
                continue
            match = specs.HEADER.match(bare)
            if match and specs.KEYWORD.match(bare):
                block, place = [], place + 1
                self.of[(crate, module, match[1])] = (place, comment, block)
                comment = []
                if mutual is not None and len(mutual) == 1:
                    block.append(mutual[0])
                    mutual.append(line)
            if block is not None:
                block.append(line)
            elif not line.strip():
                comment = []

    def said(self, word):
        """A definition's sentence, which is the comment above it, and its examples: what stands after each `e.g.` of it."""
        sentence, _, examples = "\n".join(["", *self.of[word][1]] if word in self.of else []).partition("\ne.g. ")
        examples = examples.replace("\ne.g. ", "; ").replace("\n", " ")
        found, depth, start = [], 0, 0
        for at, sign in enumerate(examples):
            depth += {"(": 1, "{": 1, ")": -1, "}": -1}.get(sign, 0)
            if sign == ";" and depth == 0:
                found.append(examples[start:at].strip())
                start = at + 1
        return sentence.replace("\n", " ").strip(), [*found, *filter(None, [examples[start:].strip()])]


def contract(crate, name):
    """The file of a public function, and its text up to its body."""
    for path in sorted((ROOT / "crates" / crate / "src").glob("**/*.rt")):
        lines = path.read_text().splitlines()
        for start, line in enumerate(lines):
            if re.match(rf"\s*pub fn {name}\b", line):
                end = start
                while end < len(lines) and not re.match(r"\s*\{", lines[end]):
                    end += 1
                    if lines[end - 1].rstrip().endswith(("{", "{}")):
                        break
                return path, lines[start:end]
    raise SystemExit(f"booklet: there is no public function {name} in {crate}")


def without_ghosts(lines):
    """The lines of a type without its ghost fields, the comments above those, and attributes."""
    kept, comment = [], []
    for line in lines:
        if re.match(r"\s*///", line):
            comment.append(line)
        elif re.match(r"\s*(ghost|#\[)", line):
            comment = comment if line.lstrip().startswith("#") else []
        else:
            kept, comment = [*kept, *comment, line], []
    return kept


def declared(crate, path):
    """The name and the Rust text of a type that definitions name."""
    parts = path.split(".")[1:]
    at = next(i for i, part in enumerate(parts) if part[0].isupper())
    file = ROOT / "crates" / crate / "src" / ("/".join(parts[:at]) + ".rt")
    lines = file.read_text().splitlines() if file.exists() else []
    for start, line in enumerate(lines):
        if re.match(rf"(pub(\(\w+\))? )?(struct|enum) {parts[at]}\b", line):
            end = start
            while not (
                lines[end].rstrip().endswith(";")
                or lines[end].startswith("}")
                or lines[end].rstrip().endswith("{}")
            ):
                end += 1
            while start and lines[start - 1].startswith("///"):
                start -= 1
            return parts[at], without_ghosts(lines[start : end + 1])
    return parts[at], []
