"""tools/diagram keeps the diagram of docs/ARCHITECTURE.md equal to crates.txt, and detects differences."""
import pytest
from cases import cases
from trees import ROOT, change, copy, run

PAGE, CRATES = "docs/ARCHITECTURE.md", "crates.txt"
STALE = "docs/ARCHITECTURE.md is out of date: run tools/diagram\n"


def test_diagram_is_up_to_date():
    assert run(ROOT, "diagram", "--check") == (0, "")


@pytest.fixture
def tree(work):
    """A copy of what the tool reads."""
    copy(work, "tools", PAGE, CRATES)
    return work


@pytest.mark.parametrize(
    "file, old, new, expected",
    cases(
        ("an arrow changed by hand", PAGE, "cli --> commands", "cli --> server", STALE),
        ("a further dependency of a crate", CRATES, "\nacceptor:", "\nacceptor: element", STALE),
        ("a renamed crate", CRATES, "\nfailures:", "\nfaults:", STALE),
        (
            "a page without its marker",
            PAGE,
            "<!-- crates: made by tools/diagram -->",
            "",
            "ARCHITECTURE.md lacks the markers of the diagram\n",
        ),
    ),
)
def test_a_difference_is_reported(tree, file, old, new, expected):
    change(tree, [(file, old, new)])
    assert run(tree, "diagram", "--check") == (1, expected)


def test_diagram_is_regenerated(tree):
    change(tree, [(PAGE, "cli --> commands", "cli --> server")])
    assert run(tree, "diagram") == (0, "")
    assert (tree / PAGE).read_text() == (ROOT / PAGE).read_text()
