"""tools/examples, on a copy of this tree with a fake prover that prints what each test needs."""
import os

import pytest
from cases import cases
from trees import copy, run, write

WRONG = "./proofs/ElementNumbers.antt:10:12: error: `example0`: expected another type"


@pytest.fixture
def examples(copied_tree):
    """Returns a function that runs the tool with this script as the prover."""
    copy(copied_tree, "tools/mutants")
    rt, prover = copied_tree / "bin/rt", copied_tree / "kit/bin/rattle"

    def run_tool(does):
        doc = f'[ "$1" != doc ] || echo {copied_tree}/kit/START-HERE.md'
        write(copied_tree, {rt: f"#!/bin/sh\n{doc}\n", prover: f"#!/bin/sh\n{does}\n"})
        for path in (rt, prover):
            path.chmod(0o755)
        path = f"{rt.parent}:{os.environ['PATH']}"
        return run(copied_tree, "examples", env={**os.environ, "PATH": path})

    return run_tool


@pytest.mark.parametrize(
    "does, expected, line",
    cases(
        ("all are computed", "echo logic=proved functions=0", 0, " examples of the definitions"),
        ("one has another result", f"echo '{WRONG}'; exit 1", 1, WRONG),
        ("some are not proved", "echo logic=not-proved", 1, "logic=not-proved"),
        ("the prover does not run", "exit 127", 1, "FAILED"),
    ),
)
def test_the_prover_decides_about_examples(examples, does, expected, line):
    status, output = examples(does)
    assert status == expected and line in output, output


def test_each_example_is_checked(examples):
    asked = "grep -h -c '^pub example' proofs/*.antt | tr '\\n' ' '; echo error"
    status, output = examples(asked)
    counts = [int(part) for part in output.splitlines()[0].split() if part.isdigit()]
    _, computed = examples("echo logic=proved")
    assert status == 1 and computed.startswith(f"{sum(counts)} examples"), (output, computed)
