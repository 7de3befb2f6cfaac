"""tools/mutants distinguishes mutants that are killed from those that are not, and reports why. It tries a killed
mutant again only after something changes on which its proof depends.

The tests use a crate of three functions, which the tool proves.
"""
import pathlib
import tempfile

import pytest
from cases import cases
from trees import ROOT, run, write

DIGITS = {
    "crates.txt": "digits:\n",
    "crates/digits/src/lib.rt": """//! Digits.
#![tactic(auto)]

ghost use Rattle.std.specs.Prelude.{◌≡◌, ◌≤◌};

/// Returns three.
pub fn three() -> u8
    ensures { result ≡ 3 }
{
    3
}

/// Returns a digit from 1.
pub fn digit() -> u8
    ensures least { 1 ≤ result }
    ensures most { result ≤ 9 }
{
    5
}

/// Returns the same digit.
pub fn again() -> u8
    ensures { result ≤ 9 }
{
    digit()
}
""",
}
MOST = "digits::digit returns-clause-most"

# By name: the old and the new text, what the mutant names as killed, and why the mutant is not killed.
KILLED = {
    "returns_four": ("    3", "    4", "digits::three returns"),
    "returns_nine_more": ("    digit()", "    digit() + 9", "digits::again returns"),
    "returns_ten": ("    5", "    10", MOST),
}
FAILED = {
    "returns_zero": (
        "    5",
        "    0",
        MOST,
        "digits::digit fails by returns-clause-least, not",
    ),
    "returns_six": ("    5", "    6", MOST, "digits::digit is still proved"),
    "returns_itself": (
        "    3",
        "    three",
        "digits::three returns",
        "the prover is not reached: src/lib.rt:10:5: error",
    ),
    "returns_three": ("    3", "    3", "digits::three returns", "it changes nothing"),
    "returns_u16": (
        "u8",
        "u16",
        "digits::three returns",
        "its old text occurs 3 times in src/lib.rt, not once",
    ),
    "of_no_function": (
        "    3",
        "    4",
        "digits::four returns",
        "the crate has no function digits::four",
    ),
    "of_no_clause": ("    3", "    4", "", "it names no clause that kills it"),
}


def try_them(folder, *chosen, change=("", "")):
    """Runs the tool over the crate with a change of its source, and returns its status and its output."""
    texts = {name: text.replace(*change) for name, text in DIGITS.items()}
    for name, (old, new, killed, *_) in {**KILLED, **FAILED}.items():
        lines = ["file: src/lib.rt", f"old: {old}", f"new: {new}"]
        lines += [f"killed: {killed}"] * bool(killed)
        texts[f"crates/digits/mutants/{name}.mutant"] = "\n".join(lines) + "\n"
    write(pathlib.Path(folder), texts)
    # (pytest limits the time of a test)
    return run(ROOT, "mutants", "--anew", "--tree", folder, *chosen, timeout=None)


@pytest.fixture(scope="module")
def tried():
    """The folder in which all mutants were tried, the tool's status and its output."""
    with tempfile.TemporaryDirectory(prefix="dcmbox-") as folder:
        yield folder, *try_them(folder)


@pytest.fixture(scope="module")
def result(tried):
    """The status of the tool and its output, of all mutants."""
    return tried[1:]


# The tests share one run of the tool, which proves a crate, so they run in one process.
pytestmark = [pytest.mark.proves, pytest.mark.xdist_group("mutants")]


@pytest.mark.parametrize("name", KILLED)
def test_a_killed_mutant_passes(result, name):
    assert f"FAILED: digits/{name}:" not in result[1], result[1]
    assert f" {len(KILLED)} killed by the clause that they name" in result[1], result[1]


@pytest.mark.parametrize("name, reason", cases(*((it, it, row[3]) for it, row in FAILED.items())))
def test_a_mutant_that_is_not_killed_fails_with_the_reason(result, name, reason):
    assert f"FAILED: digits/{name}: {reason}" in result[1], result[1]


def test_its_status_and_last_line_report_failures(result):
    status, output = result
    every = len(KILLED) + len(FAILED)
    last = f"{every} mutants: {len(KILLED)} killed by the clause that they name, "
    assert status == 1 and f"{last}{len(FAILED)} failed" in output, output


# Two mutants, of two functions that do not call each other.
TWO = ("digits/returns_four", "digits/returns_ten")

# What changes in the source, the arguments of the second run, and how many mutants are not tried again.
CHANGES = {
    "nothing": ("", "", TWO, 2),
    "a comment": ("/// Returns three.", "/// Returns 3.", TWO, 2),
    "the body of a third function": ("    digit()", "    let _three = three();\n    digit()", TWO, 2),
    "the body of one of the two": ("    5", "    let _three = 3;\n    5", TWO, 1),
    "a contract": ("{ 1 ≤ result }", "{ 2 ≤ result }", TWO[:1], 0),
    "nothing, with --all": ("", "", (TWO[0], "--all"), 0),
}


@pytest.mark.parametrize("change", CHANGES)
def test_a_killed_mutant_is_tried_again_if_its_proof_depends_on_a_change(tried, change):
    old, new, arguments, before = CHANGES[change]
    lock = pathlib.Path(tried[0], "crates/digits/mutants/killed.lock")
    kept = lock.read_text()
    status, output = try_them(tried[0], *arguments, change=(old, new))
    lock.write_text(kept)
    count = sum(argument != "--all" for argument in arguments)
    killed = f"{count} killed by the clause that they name" + f", {before} of them before" * bool(before)
    assert status == 0 and f"{count} mutants: {killed} (" in output, output


def test_the_last_digest_of_a_killed_mutant_is_kept(tried):
    lock = pathlib.Path(tried[0], "crates/digits/mutants/killed.lock")
    kept, before = lock.read_text(), []
    least = "{ 1 ≤ result }"
    for new in ("{ 2 ≤ result }", "{ 2 ≤ result }", least):
        status, output = try_them(tried[0], TWO[0], change=(least, new))
        before.append(", 1 of them before (" in output)
        assert status == 0 and "1 mutants: 1 killed" in output, output
    lock.write_text(kept)
    assert before == [False, True, False]


def test_only_killed_mutants_are_kept(tried):
    lines = pathlib.Path(tried[0], "crates/digits/mutants/killed.lock").read_text().splitlines()
    assert [line.split()[0] for line in lines] == sorted(KILLED), lines
