"""tools/booklet keeps docs/DEFINITIONS.md equal to the definitions and docs/booklet, and detects faults."""
import pytest
from cases import cases
from trees import ROOT, change, run

PAGE, PARTS, WORDS = "docs/DEFINITIONS.md", "docs/booklet/parts.json", "docs/booklet/words.json"
WHOLE = "docs/out/DEFINITIONS.md"
STALE = f"{PAGE} isn't what the specs give: run tools/booklet\n"


def test_booklet_is_up_to_date():
    assert run(ROOT, "booklet", "--check") == (0, "")


@pytest.mark.parametrize(
    "file, old, new, expected",
    cases(
        ("a booklet changed by hand", PAGE, "# Definitions", "# All definitions", STALE),
        (
            "a definition that has changed",
            "crates/engine/specs/Ran.antt",
            "pub record Ran ",
            "pub record Ran  ",
            STALE,
        ),
        (
            "a definition without a sentence",
            "crates/acceptor/specs/Table.antt",
            "abbrev pub table :",
            "abbrev pub other : ℕ\nother = 1\n\nabbrev pub table :",
            "acceptor.Table.table: this definition has no sentence",
        ),
        (
            "a word of the standard library without a meaning",
            WORDS,
            '"List":',
            '"Lists":',
            f"std List: this word has no meaning in {WORDS}\n",
        ),
        (
            "a definition of no chapter",
            PARTS,
            '"acceptor", ',
            "",
            f"acceptor.Table.table: no chapter of {PARTS} includes this definition\n",
        ),
        (
            "a definition before everything that mentions it",
            PARTS,
            '"engine.Devices.IsFront",',
            "",
            "engine.Devices.IsFront: it belongs to A run, before everything that mentions it\n",
        ),
        (
            "a definition that is not printed",
            PARTS,
            '"engine.Devices.IsFront",',
            "",
            "engine.Devices.IsFront: the booklet has this definition 0 times\n",
        ),
        (
            "a contract at the head of no chapter",
            PARTS,
            '["dicomdir", "check"], ',
            "",
            f"{PARTS}: dicomdir::check opens 0 chapters\n",
        ),
        (
            "a contract that is not a headline",
            PARTS,
            '["engine", "run"]',
            '["engine", "run"], ["dimse", "write_response"]',
            f"{PARTS}: dimse::write_response is not a headline contract of tools/booklet\n",
        ),
        (
            "a chapter that includes an unknown file",
            PARTS,
            '"pdu.Sizes"',
            '"pdu.Spans"',
            f"{PARTS}: Numbers: pdu.Spans has no definition that belongs there\n",
        ),
        (
            "a chapter that starts with an unknown definition",
            PARTS,
            '"first": ["sequence.Tree.DataSet"',
            '"first": ["sequence.Tree.Bytes"',
            f"{PARTS}: Data sets: sequence.Tree.Bytes does not belong there\n",
        ),
        (
            "a law that is gone",
            "crates/dicomdir_writing/specs/TreeOf.antt",
            "dicomdir_writing::rows_are_grouped",
            "dicomdir_writing::rows_are_sorted",
            "there is no law rows_are_sorted in dicomdir_writing\n",
        ),
    ),
)
def test_a_fault_is_reported(copied_tree, file, old, new, expected):
    change(copied_tree, [(file, old, new)])
    status, output = run(copied_tree, "booklet", "--check")
    assert status == 1 and expected in output, output


def test_booklet_is_written_anew(copied_tree):
    change(copied_tree, [(PAGE, "# Definitions", "# All definitions")])
    assert run(copied_tree, "booklet") == (0, "")
    assert (copied_tree / PAGE).read_text() == (ROOT / PAGE).read_text()
    assert "\nabbrev pub table : " in (copied_tree / WHOLE).read_text()
