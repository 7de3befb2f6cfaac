"""Options of the tests (tests/conftest.py): a skip fails the run, and TEST accepts spaces in names."""
import os
import shutil
import subprocess
import sys

import pytest
from cases import cases
from trees import PATIENCE, ROOT

TESTS = """import pytest

def test_the_calling_title_is_logged():
    pass

def test_the_called_title_is_logged():
    pass

def test_what_this_machine_does_not_have():
    pytest.skip("no such tool")
"""


@pytest.fixture
def suite(work):
    """Returns a function that runs three tests, one of which is skipped. It returns the status and the output."""
    for name in ("conftest.py", "pytest.ini"):
        shutil.copy(ROOT / "tests" / name, work)
    (work / "test_three.py").write_text(TESTS)

    def run_suite(*options, **environment):
        command = [sys.executable, "-m", "pytest", "-c", "pytest.ini", "test_three.py", *options]
        kept = {name: value for name, value in os.environ.items() if name != "MAY_SKIP"}
        done = subprocess.run(
            command,
            cwd=work,
            env={**kept, **environment},
            stdin=subprocess.DEVNULL,
            capture_output=True,
            text=True,
            timeout=PATIENCE,
        )
        return done.returncode, done.stdout

    return run_suite


@pytest.mark.parametrize("workers", ["0", "2"], ids=["alone", "side_by_side"])
def test_a_skip_fails_with_its_reason(suite, workers):
    status, output = suite("-n", workers)
    assert status == 1 and "1 skipped, and MAY_SKIP allows 0" in output, output
    assert "test_three.py:10: no such tool" in output, output


def test_a_skip_that_is_allowed_passes(suite):
    status, output = suite(MAY_SKIP="1")
    assert status == 0 and "2 passed, 1 skipped" in output, output


@pytest.mark.parametrize(
    "expression, passed",
    cases(
        ("one word", "logged", 2),
        ("words of a name", "calling title", 1),
        ("words of one name or of another", "calling title or called title", 2),
        ("words of one name and not of another", "title and not calling title", 1),
    ),
)
def test_words_choose_tests(suite, expression, passed):
    status, output = suite("-k", expression)
    assert status == 0 and f"{passed} passed, {3 - passed} deselected" in output, output
