"""What the documents name that claim something is in the tree (FILES).

Each name in the column of clauses stands in the sources or the definitions of a crate that the row
or the heading above it names, or of any crate where neither names one; and where it says `clause`
of `function`, the function ensures that clause. Each lemma file is one of the crate's proofs that
the answers of a function or law of the claim cite, and each that those of its laws cite is named.
"""
import functools
import re

import pytest
from cases import cases
from trees import ROOT, change

NAME = re.compile(r"[A-Za-z_]\w*")
NEXT = r"(?:,| and|, and) "
OF = re.compile(rf"(`[^`]+`(?:{NEXT}`[^`]+`)*) of (`[^`]+`(?:{NEXT}`[^`]+`(?! of ))*)")
ENSURES = re.compile(r"\bfn (\w+)|\bensures (\w+) \{")
PROVED, DEFINITIONS, README = "docs/PROVED.md", "docs/DEFINITIONS.md", "README.md"
FILES = [PROVED, DEFINITIONS, README]


def named(text):
    return re.findall(r"`([^`]+)`", text)


class Row:
    """A row of a table: its location, its cells by the heads of the columns, and the heading above."""

    def __init__(self, location, heads, cells, heading):
        self.location, self.cells, self.heading = location, dict(zip(heads, cells)), heading


class Claims:
    """The claims of a tree, and the names in its crates."""

    def __init__(self, tree):
        self.tree = tree
        self.crates = {path.parent.name for path in tree.glob("crates/*/src")}

    def rows(self, column):
        """Returns the rows of the tables that have this column."""
        for file in FILES:
            for row in self.rows_of(file):
                if column in row.cells:
                    yield row

    def rows_of(self, file):
        heads, heading = None, ""
        for number, line in enumerate((self.tree / file).read_text().splitlines(), 1):
            cells = [cell.strip() for cell in line.split("|")[1:-1]]
            if line.startswith("#"):
                heading = line
            if not line.startswith("|"):
                heads = None
            elif heads is None:
                heads = cells
            elif set(line) - set("|-"):
                yield Row(f"{file}:{number}", heads, cells, heading)

    @functools.cache
    def names(self, crate):
        """Returns the names in a crate's sources and definitions."""
        folder = self.tree / "crates" / crate
        paths = sorted([*folder.glob("src/**/*.rt"), *folder.glob("specs/**/*.antt")])
        return set(NAME.findall("\n".join(path.read_text() for path in paths)))

    @functools.cache
    def clauses(self, crate):
        """Returns the names of the clauses that the functions of each name ensure."""
        found = {}
        for path in self.tree.glob(f"crates/{crate}/src/**/*.rt"):
            clauses = set()
            for function, clause in ENSURES.findall(path.read_text()):
                if function:
                    clauses = found.setdefault(function, set())
                else:
                    clauses.add(clause)
        return found

    def crates_of(self, row):
        """Returns the crates that a row or its heading names, or all crates."""
        names = {name for text in named(row.cells["Clause"]) for name in NAME.findall(text)}
        crate = named(row.cells.get("Crate", ""))
        return self.crates & {*names, *named(row.heading), *crate} or self.crates

    def unknown_names(self):
        """Yields the names in claims that none of their crates has."""
        for row in self.rows("Clause"):
            known = self.crates.union(*map(self.names, self.crates_of(row)))
            for text in named(row.cells["Clause"]):
                for name in NAME.findall(text):
                    if name not in known:
                        yield f"{row.location}: no crate of the claim has {name}"

    def unknown_clauses(self):
        """Yields the clauses that the function of a claim does not ensure."""
        for row in self.rows("Clause"):
            clauses = [self.clauses(crate) for crate in self.crates_of(row)]
            for names, of in OF.findall(row.cells["Clause"]):
                callees = {NAME.findall(text.split("<")[0])[-1] for text in named(of)}
                # (a name with a type or a crate is a function)
                if not callees <= {name for found in clauses for name in found}:
                    continue
                ensured = set().union(*(it.get(name, ()) for it in clauses for name in callees))
                for name in named(names):
                    if name not in ensured:
                        whose = ", ".join(sorted(callees))
                        yield f"{row.location}: {whose} ensures no clause {name}"

    def unknown_tests(self):
        """Yields the tests that are neither a crate nor a file."""
        for row in self.rows("By"):
            for name in named(row.cells["By"]):
                if name not in self.crates and not (self.tree / name.split()[0]).is_file():
                    yield f"{row.location}: there is no test {name}"

    def unknown_mutants(self):
        """Yields the mutants without a file of their name."""
        for row in self.rows("Mutant"):
            for name in named(row.cells["Mutant"]):
                if not any(self.tree.glob(f"crates/*/mutants/*{name}.mutant")):
                    yield f"{row.location}: no mutant is named {name}"

    @functools.cache
    def public_lemmas(self, crate):
        """Returns the file of each lemma that a crate's module Public re-exports."""
        path = self.tree / f"crates/{crate}/proofs/Public.antt"
        text = path.read_text() if path.exists() else ""
        own = rf"use Rattle\.{crate}\.proofs\."
        files = {name: module for module, name in re.findall(rf"{own}([\w.]+) as (\w+)", text)}
        for module, names in re.findall(rf"{own}([\w.]+)\.\{{([^}}]*)\}}", text):
            files |= {name.strip(): module for name in names.split(",")}
        files = {name: module.replace(".", "/") for name, module in files.items()}
        found = {}
        for name, value in re.findall(r"^([\w-]+)\b[^:\n=]*=((?:.|\n(?!\n))*)", text, re.M):
            parts = [part.split(".")[0] for part in re.findall(r"[\w.-]+", value)]
            found[name] = next((files[part] for part in parts if part in files), "Public")
        return found

    def cited_lemmas(self, crate, answers):
        """Yields the files of a crate's lemmas that answers cite, except the goals that they answer."""
        use = rf"use Rattle\.{crate}\.proofs\.([\w.]+?)(?:\.\{{([^}}]*)\}}| as )"
        for module, names in re.findall(use, answers.read_text()):
            if module == "Public":
                for name in names.split(","):
                    yield self.public_lemmas(crate).get(name.strip(), module)
            elif not module.endswith("Goals"):
                yield module.replace(".", "/")

    def lemmas(self, row, folders):
        """Returns the lemma files that the answers to a claim's goals in these folders cite."""
        names = {name for text in named(row.cells["Clause"]) for name in NAME.findall(text)}
        for crate in self.crates_of(row):
            proofs = self.tree / "crates" / crate / "proofs"
            for name in names:
                for path in proofs.glob(f"{folders}/{name}/Answers.antt"):
                    yield from self.cited_lemmas(crate, path)

    def unknown_lemmas(self):
        """Yields the lemma files that do not exist, or that no answer of the claim cites."""
        for row in self.rows("Lemma file"):
            cited = {*self.lemmas(row, "**")}
            for name in named(row.cells["Lemma file"]):
                files = [f"crates/{crate}/proofs/{name}.antt" for crate in self.crates_of(row)]
                if not any((self.tree / file).exists() for file in files):
                    yield f"{row.location}: no crate of the claim has a lemma file {name}"
                elif name not in cited:
                    yield f"{row.location}: no answer of the claim cites {name}"

    def unnamed_lemmas(self):
        """Yields the lemma files that answers of a claim's laws cite, but the claim does not name."""
        for row in self.rows("Lemma file"):
            for name in sorted({*self.lemmas(row, "*laws")} - {*named(row.cells["Lemma file"])}):
                yield f"{row.location}: a law of the claim cites {name}, too"


def test_names_of_claims_are_in_their_crates():
    assert [*Claims(ROOT).unknown_names()] == []


def test_functions_ensure_the_clauses_of_claims():
    assert [*Claims(ROOT).unknown_clauses()] == []


def test_tests_of_claims_exist():
    assert [*Claims(ROOT).unknown_tests()] == []


def test_mutants_of_claims_exist():
    assert [*Claims(ROOT).unknown_mutants()] == []


def test_lemma_files_are_those_of_their_claims():
    assert [*Claims(ROOT).unknown_lemmas()] == []


def test_lemma_files_of_laws_are_named():
    assert [*Claims(ROOT).unnamed_lemmas()] == []


@pytest.mark.parametrize("file", FILES)
def test_each_document_has_claims(file):
    assert any("Clause" in row.cells for row in Claims(ROOT).rows_of(file))


CHECKS = [
    Claims.unknown_names,
    Claims.unknown_clauses,
    Claims.unknown_tests,
    Claims.unknown_mutants,
    Claims.unknown_lemmas,
    Claims.unnamed_lemmas,
]


@pytest.mark.parametrize("check", CHECKS)
def test_small_tree_has_no_fault(small_tree, check):
    assert [*check(Claims(small_tree))] == []


@pytest.mark.parametrize(
    "check, file, old, new, expected",
    cases(
        (
            "a claim whose clause has another name",
            Claims.unknown_names,
            PROVED,
            "`first` of `few`",
            "`third` of `few`",
            f"{PROVED}:7: no crate of the claim has third",
        ),
        (
            "a claim whose function ensures another clause",
            Claims.unknown_clauses,
            PROVED,
            "`first` of `few`",
            "`room` of `few`",
            f"{PROVED}:7: few ensures no clause room",
        ),
        (
            "a claim under another crate",
            Claims.unknown_names,
            PROVED,
            "## Numbers (`low`)",
            "## Numbers (`high`)",
            f"{PROVED}:7: no crate of the claim has few",
        ),
        (
            "a claim of no crate",
            Claims.unknown_names,
            README,
            "`great` of",
            "`greater` of",
            f"{README}:5: no crate of the claim has greater",
        ),
        (
            "a missing test",
            Claims.unknown_tests,
            PROVED,
            "`tests/test_numbers.py",
            "`tests/test_number.py",
            f"{PROVED}:13: there is no test tests/test_number.py --all",
        ),
        (
            "a missing mutant",
            Claims.unknown_mutants,
            README,
            "`returns_a_few`",
            "`returns_few`",
            f"{README}:5: no mutant is named returns_few",
        ),
        (
            "a missing lemma file",
            Claims.unknown_lemmas,
            PROVED,
            "`Few`",
            "`Fewer`",
            f"{PROVED}:7: no crate of the claim has a lemma file Fewer",
        ),
        (
            "a lemma file of nothing that is claimed",
            Claims.unknown_lemmas,
            PROVED,
            "`Few`",
            "`Further`",
            f"{PROVED}:7: no answer of the claim cites Further",
        ),
        (
            "a lemma file of a law that the claim misses",
            Claims.unnamed_lemmas,
            PROVED,
            "`Few`, `Sizes/Numbers`",
            "`Few`",
            f"{PROVED}:7: a law of the claim cites Sizes/Numbers, too",
        ),
        (
            "a promise by a function that is not there",
            Claims.unknown_names,
            DEFINITIONS,
            "`first` of `low::few`",
            "`first` of `low::fewer`",
            f"{DEFINITIONS}:5: no crate of the claim has fewer",
        ),
        (
            "a promise whose clause is not there",
            Claims.unknown_clauses,
            DEFINITIONS,
            "`first` of `low::few`",
            "`room` of `low::few`",
            f"{DEFINITIONS}:5: few ensures no clause room",
        ),
    ),
)
def test_a_fault_is_reported(small_tree, check, file, old, new, expected):
    change(small_tree, [(file, old, new)])
    assert expected in check(Claims(small_tree))
