"""No public contract reaches what is machinery, and the index has each definition that one reaches (tools/definitions)."""
import pytest
from cases import cases
from trees import NUMBER, ROOT, change, copy, run

INDEX = "docs/out/DEFINITIONS_INDEX.md"


def test_no_contract_reaches_the_machine():
    assert run(ROOT, "definitions", "--check") == (0, "")


@pytest.fixture
def indexed_tree(small_tree):
    """The small tree with its index."""
    copy(small_tree, "tools")
    assert run(small_tree, "definitions") == (0, "")
    return small_tree


def test_small_tree_has_no_fault(indexed_tree):
    assert run(indexed_tree, "definitions", "--check") == (0, "")


def test_index_has_what_the_contracts_reach(indexed_tree):
    rows = (indexed_tree / INDEX).read_text().splitlines()
    assert "| [Small](../../crates/low/specs/Small.antt) | `Small`, `◌>>=◌`, `◌or_else◌` |  |" in rows
    assert "| [Great](../../crates/high/specs/Great.antt) | `Great` |  |" in rows


LOOP = "use Rattle.low.specs.machine.Loop.{Loop}"
SMALL = "crates/low/specs/Small.antt"


def in_code(old, new):
    """Returns changes of the lower crate's code after which a contract cites the machine."""
    return [(NUMBER, old, new), (NUMBER, "ghost use", f"ghost {LOOP};\nghost use")]


def in_specs(old, new):
    """Returns changes of the lower crate's definitions after which a definition depends on the machine."""
    return [(SMALL, old, new), (SMALL, "use Rattle.std", f"{LOOP}\nuse Rattle.std")]


@pytest.mark.parametrize(
    "changes, reached_by",
    cases(
        (
            "a method of an impl with a where clause",
            in_code("read(&self) -> u8 {", "read(&self) -> u8\n        ensures { Loop }\n    {"),
            NUMBER,
        ),
        (
            "a public ghost field of a public struct",
            in_code("value: u8,", "value: u8,\n    pub ghost loops: { Loop },"),
            NUMBER,
        ),
        (
            "a clause whose line before begins with let",
            in_code("Small m }", "Small m × Loop }"),
            NUMBER,
        ),
        (
            "a clause whose line before begins with if",
            in_code("let m = n in\n        Small m }", "if m\n        then Loop }"),
            NUMBER,
        ),
        (
            "a clause whose line before begins with match",
            in_code("let m = n in\n        Small m }", "match m\n        Loop }"),
            NUMBER,
        ),
        (
            "an ensures of a method of a trait",
            in_code("fn read(&self) -> u8;", "fn read(&self) -> u8\n        ensures { Loop };"),
            NUMBER,
        ),
        (
            "a clause after an array of the signature",
            in_code("ensures either { ", "ensures either { Loop × "),
            NUMBER,
        ),
        (
            "an operator whose definition depends on the machine",
            in_specs("first or_else second = first", "first or_else second = Loop"),
            "low.Small.◌or_else◌",
        ),
        (
            "do whose bind depends on the machine",
            [
                *in_specs("first >>= next = first", "first >>= next = Loop"),
                (NUMBER, "(Some 3 >>= λ n. Some n)", "(do { n ← Some 3; Some n })"),
            ],
            "low.Small.◌>>=◌",
        ),
        (
            "the machine as a whole by another name",
            [
                (NUMBER, "Small m }", "engine.Loop.Loop }"),
                (NUMBER, "ghost use", "ghost use Rattle.low.specs.machine as engine;\nghost use"),
            ],
            NUMBER,
        ),
        (
            "a name with its whole path",
            [(NUMBER, "Small m }", "Rattle.low.specs.machine.Loop.Loop }")],
            NUMBER,
        ),
    ),
)
def test_a_contract_that_reaches_the_machine_is_reported(indexed_tree, changes, reached_by):
    change(indexed_tree, changes)
    status, output = run(indexed_tree, "definitions", "--check")
    fault = "low.machine.Loop.Loop is machinery, and a public contract reaches it by"
    assert status == 1 and f"{fault} {reached_by}\n" in output, output

