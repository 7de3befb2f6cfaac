"""The heading of a file of lemmas says what the file proves, and names its dependencies correctly.

Each file has a heading. The names in it are names of the file itself, of its crate's sources or definitions, or of crates.
A sentence 'Stands on ..' at its end lists what the file cites: files of its folder; a file of another folder, or that folder
alone if the file cites several of its files; and the crates whose laws it cites. The heading of a folder names its files.
"""
import re

import pytest
from cases import cases
from trees import ROOT, change

WORD = re.compile(r"[A-Za-z_]\w*")
DEPENDENCIES = re.compile(r"Stands on ([^()]*)\.$")
# Files of answers to goals, and files that re-export lemmas.
OTHERS = {"Answers", "Proof", "Invariants", "Public", "Lib"}


def crates(tree):
    return sorted(path.parent.name for path in tree.glob("crates/*/proofs"))


def parted(path):
    """Returns the heading of a file as one line, and the rest of the file."""
    lines = path.read_text().splitlines()
    end = next((at for at, line in enumerate(lines) if not line.startswith("--")), len(lines))
    return " ".join(line[2:].strip() for line in lines[:end]), "\n".join(lines[end:])


def folders(tree, crate):
    """Returns the files of a crate's proofs that declare a folder of lemmas."""
    proofs = tree / "crates" / crate / "proofs"
    return [path for path in sorted(proofs.glob("*.antt")) if path.with_suffix("").is_dir()]


def files(tree, crate):
    """Returns the files of lemmas of a crate, by their names."""
    proofs = tree / "crates" / crate / "proofs"
    paths = [*proofs.glob("*.antt"), *proofs.glob("[A-Z]*/*.antt")]
    for path in sorted({*paths} - {*folders(tree, crate)}):
        if path.stem not in OTHERS and not path.stem.endswith("Goals"):
            yield str(path.relative_to(proofs).with_suffix("")), path


def without_heading(tree):
    """Returns the files without a heading."""
    return [
        f"{path.relative_to(tree)} has no heading"
        for crate in crates(tree)
        for path in [*folders(tree, crate), *(path for _, path in files(tree, crate))]
        if not parted(path)[0]
    ]


def unknown_names(tree):
    """Returns the unknown names in headings."""
    found = []
    for crate in crates(tree):
        top = tree / "crates" / crate
        paths = [*top.glob("specs/**/*.antt"), *top.glob("src/**/*.rt")]
        known = {*crates(tree), *WORD.findall("\n".join(path.read_text() for path in paths))}
        for _, path in files(tree, crate):
            heading, body = parted(path)
            own = {*WORD.findall(body)}
            found += [
                f"{path.relative_to(tree)} has no {name}"
                for text in re.findall(r"`([^`]+)`", heading)
                for name in WORD.findall(text)
                if name not in known | own
            ]
    return found


def cited(crate, name, body):
    """Returns the names that a file cites, as headings write them."""
    folder = name.rpartition("/")[0]
    use = rf"^(?:pub )?use Rattle\.{crate}\.proofs\.((?:[A-Z]\w*\.)?[A-Z]\w*)(?:\.\{{| as )"
    lemmas = {lemmas.replace(".", "/") for lemmas in re.findall(use, body, re.M)}
    others = [lemmas.rpartition("/")[0] for lemmas in lemmas]
    for lemmas in lemmas:
        other, _, file = lemmas.rpartition("/")
        if not other or other == folder:
            yield file
        else:
            yield other if others.count(other) > 1 else lemmas
    for law in re.findall(r"use Rattle\.(\w+)\.proofs\.Public\b", body):
        if law != crate:
            yield law


def wrong_dependencies(tree):
    """Returns the dependencies that headings name wrongly or omit."""
    found = []
    for crate in crates(tree):
        for name, path in files(tree, crate):
            heading, body = parted(path)
            stated = DEPENDENCIES.search(heading)
            if stated:
                plain = re.sub(r"\b(and|the laws of|the definitions alone)\b", ",", stated[1])
                names = {part.strip(" `") for part in plain.split(",")} - {""}
                different = sorted(names ^ {*cited(crate, name, body)})
                found += [f"{path.relative_to(tree)}: {it}" for it in different]
    return found


def unlisted(tree):
    """Returns the files of a folder that its heading does not name."""
    return [
        f"{path.relative_to(tree)} does not name {name}"
        for crate in crates(tree)
        for path in folders(tree, crate)
        for heading, body in [parted(path)]
        for name in re.findall(r"^pub mod (\w+)", body, re.M)
        if name not in WORD.findall(heading)
    ]


def test_each_file_has_a_heading():
    assert without_heading(ROOT) == []


def test_headings_name_what_exists():
    assert unknown_names(ROOT) == []


def test_headings_name_the_dependencies_of_a_file():
    assert wrong_dependencies(ROOT) == []


def test_folders_name_their_files():
    assert unlisted(ROOT) == []


CHECKS = [without_heading, unknown_names, wrong_dependencies, unlisted]
NUMBERS = "crates/low/proofs/Sizes/Numbers.antt"


@pytest.mark.parametrize("check", CHECKS)
def test_small_tree_has_no_fault(small_tree, check):
    assert check(small_tree) == []


@pytest.mark.parametrize(
    "check, file, old, new, expected",
    cases(
        (
            "a file without a heading",
            without_heading,
            NUMBERS,
            "-- Three is small",
            "\n-- Three is small",
            f"{NUMBERS} has no heading",
        ),
        (
            "a folder without a heading",
            without_heading,
            "crates/low/proofs/Sizes.antt",
            "-- Numbers: which are small.\n",
            "",
            "crates/low/proofs/Sizes.antt has no heading",
        ),
        (
            "a lemma that has another name",
            unknown_names,
            NUMBERS,
            "(`three_is_small`)",
            "(`four_is_small`)",
            f"{NUMBERS} has no four_is_small",
        ),
        (
            "a file that is not cited",
            wrong_dependencies,
            NUMBERS,
            "Stands on Few.",
            "Stands on Few and Further.",
            f"{NUMBERS}: Further",
        ),
        (
            "a file that is cited",
            wrong_dependencies,
            NUMBERS,
            "Stands on Few.",
            "Stands on the definitions alone.",
            f"{NUMBERS}: Few",
        ),
        (
            "a file that its folder does not name",
            unlisted,
            "crates/low/proofs/Sizes.antt",
            "-- Numbers:",
            "-- Those:",
            "crates/low/proofs/Sizes.antt does not name Numbers",
        ),
    ),
)
def test_a_fault_is_reported(small_tree, check, file, old, new, expected):
    change(small_tree, [(file, old, new)])
    assert expected in check(small_tree)
