"""tools/tables keeps its documents equal to docs/tables.json, and docs/tables.json equal to the code."""
import pytest
from cases import cases
from trees import ROOT, change, run

TABLES, STATEMENT = "docs/tables.json", "docs/CONFORMANCE.md"
MANUAL, COMPLETION = "man/dcmbox.1", "packaging/dcmbox.bash"
CODE, DEFINITION = "crates/arguments/src/command.rt", "crates/arguments/specs/CommandLine.antt"
STALE = " is out of date: run tools/tables\n"


def test_tables_are_up_to_date():
    assert run(ROOT, "tables", "--check") == (0, "")


@pytest.mark.parametrize(
    "file, old, new, expected",
    cases(
        (
            "a fault that the code lacks",
            TABLES,
            '"number": 62, "name": "TwiceReached"',
            '"number": 62, "name": "TwiceNamed"',
            f"{TABLES}: dicomdir has no fault 62 TwiceNamed\n",
        ),
        (
            "another default",
            TABLES,
            '"default": "16384"',
            '"default": "16385"',
            f"{CODE}{STALE}",
        ),
        (
            "an option of the code changed by hand",
            CODE,
            "Ends after one association",
            "Ends after two associations",
            f"{CODE}{STALE}",
        ),
        (
            "an option that the table lacks",
            TABLES,
            '"no-sync", "once"',
            '"no-sync"',
            f"{CODE}{STALE}",
        ),
        (
            "an option of the definition changed by hand",
            DEFINITION,
            'flag_rule (codes "once")',
            'free (codes "once")',
            f"{DEFINITION}{STALE}",
        ),
        (
            "a limit that differs from the code",
            TABLES,
            '"1,024 bytes", "code": "COMMAND"',
            '"2,048 bytes", "code": "COMMAND"',
            f"{TABLES}: Command set: the code has 1,024, and not 2,048 bytes\n",
        ),
        (
            "another version on the cover page",
            STATEMENT,
            "| Version | ",
            "| Version | 9",
            f"{STATEMENT}{STALE}",
        ),
        (
            "another version in the manual page",
            MANUAL,
            '"DCMBOX ',
            '"DCMBOX 9',
            f"{MANUAL}: its title doesn't name the version",
        ),
        (
            "another version in the changelog",
            "CHANGELOG.md",
            "\n## ",
            "\n## 9.",
            "CHANGELOG.md: its newest release isn't",
        ),
        (
            "a table changed by hand",
            STATEMENT,
            "| Command set | 1,024 bytes |",
            "| Command set | 2,048 bytes |",
            f"{STATEMENT}{STALE}",
        ),
        (
            "an option of the manual page changed by hand",
            MANUAL,
            "Ends after one association.",
            "Ends after two associations.",
            f"{MANUAL}{STALE}",
        ),
        (
            "a completion changed by hand",
            COMPLETION,
            "--once",
            "--twice",
            f"{COMPLETION}{STALE}",
        ),
        (
            "a missing marker",
            STATEMENT,
            "<!-- limits: made by tools/tables -->",
            "",
            f"{STATEMENT}: the marker '<!-- limits: made by tools/tables -->' is missing\n",
        ),
    ),
)
def test_a_difference_is_reported(copied_tree, file, old, new, expected):
    change(copied_tree, [(file, old, new)])
    status, output = run(copied_tree, "tables", "--check")
    assert status == 1 and expected in output, output


def test_tables_are_regenerated(copied_tree):
    changes = [
        (STATEMENT, "| Command set | 1,024 bytes |", "| Command set | 2,048 bytes |"),
        (MANUAL, "Ends after one association.", "Ends after two associations."),
        (COMPLETION, "--once", "--twice"),
    ]
    change(copied_tree, changes)
    assert run(copied_tree, "tables") == (0, "")
    for file, _, _ in changes:
        assert (copied_tree / file).read_text() == (ROOT / file).read_text()
