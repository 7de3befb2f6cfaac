"""Closed outputs and full disks while the program prints."""
import os
import re
import subprocess

import pytest
from box import PATIENCE
from samples import CUT_FAULT, IMAGE, SHOWN, many_items

REPLAY = "replay echo.bin --out ."
COMMANDS = [
    "show ct.dcm",
    "check ct.dcm",
    "check cut.dcm",
    "check ./ct.dcm ./cut.dcm",
    "checkdir directory.bin",
    "checkdir --json directory.bin",
    "checkdir cut_directory.bin",
    "index one --uid 2.25.1",
    "index one --uid 2.25.1 --json",
    "list one",
    "list one --json --instances",
    "arrange one --to tree",
    "arrange one --to tree --json --dry-run",
    REPLAY,
    "--help",
]


@pytest.fixture(autouse=True)
def files(samples, put):
    put({"items.dcm": many_items(), "one/I0000001": IMAGE})


def first_line(program, work, *arguments):
    """Returns the status, the first line and the errors if the output is closed after a line."""
    with subprocess.Popen(
        [program, *arguments], cwd=work, stdout=subprocess.PIPE, stderr=subprocess.PIPE, text=True
    ) as process:
        line = process.stdout.readline()
        process.stdout.close()
        errors = process.stderr.read()
        return process.wait(PATIENCE), line, errors


def test_an_output_that_is_closed_after_a_line(program, work):
    """One line of a listing of 1.4 MB is read."""
    assert first_line(program, work, "show", "items.dcm") == (3, SHOWN.splitlines()[0] + "\n", "")


def test_a_fault_whose_line_was_written_before(program, work):
    assert first_line(program, work, "check", "cut.dcm") == (1, CUT_FAULT + "\n", "")


@pytest.mark.parametrize("command", [*COMMANDS, "check --json cut.dcm", "--version"])
def test_a_closed_output(run, command):
    """The reader of a pipe has ended: the fault found is not reported either."""
    reading, writing = os.pipe()
    os.close(reading)
    done = run(*command.split(), stdout=writing)
    os.close(writing)
    assert (done.returncode, done.stderr) == (3, "")


@pytest.mark.parametrize(
    "command",
    ["show ct.dcm", "check cut.dcm", "checkdir directory.bin", "index one --uid 2.25.1", "--help"],
)
def test_an_output_that_is_closed_at_the_start(program, work, command):
    done = subprocess.run(
        ["sh", "-c", 'exec "$0" "$@" >&-', program, *command.split()],
        cwd=work,
        stdin=subprocess.DEVNULL,
        stderr=subprocess.PIPE,
        text=True,
        timeout=PATIENCE,
    )
    assert (done.returncode, done.stderr) == (3, "")


@pytest.mark.parametrize("command", ["show items.dcm", *COMMANDS])
def test_a_full_disk(run, command):
    with open("/dev/full", "w") as full:
        done = run(*command.split(), stdout=full)
    assert done.returncode == 3
    refused = r"dcmbox: (.*: )?the output can't be written: No space left on device"
    assert re.search(refused, done.stderr)
