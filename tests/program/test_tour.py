"""The commands of docs/TOUR.md print what it shows, except for times and ports in the log."""
import re

import pytest
from box import PATIENCE
from images import call, dumped, identity
from peer import ROOT

TOUR, LIBRARY = (ROOT / "docs/TOUR.md").read_text().split("## Use as a library")
STUDY = """(0008,0020) DA [20260101]
(0008,0030) TM [120000]
(0020,0010) SH [S1]
(0020,0011) IS [1]
(0020,0013) IS [1]
(0028,0004) CS [monochrome2]
"""

def steps():
    """Yields each command of the tour with its output."""
    found = []
    for line in re.findall(r"^    (.*)$", TOUR, re.M):
        if line.startswith("$ "):
            found.append((line[2:].split("#")[0].strip(), []))
        elif found:
            found[-1][1].append(line)
    # (the output of `make run` starts with the command that it runs)
    return [
        (lines[0], lines[1:]) if command == "make run" else (command, lines)
        for command, lines in found
    ]


def without_times(lines):
    lines = [re.sub(r"\d{4}-\d\d-\d\dT[\d:.]+Z", "TIME", line) for line in lines]
    lines = [re.sub(r"127\.0\.0\.1:\d+", "127.0.0.1:PORT", line) for line in lines]
    return [re.sub(r" in \d+ s ", " in 0 s ", line) for line in lines]


@pytest.fixture
def received(serve, tool, to_box):
    """Returns the log of the box that receives the image."""

    def logged(command):
        arguments = command.split()
        assert arguments[:2] == ["./dcmbox", "serve"]
        options = " ".join(arguments[2:]).replace("--port 11112", "").replace("--out received", "")
        box = serve(*options.split())
        tool("storescu", *to_box, "image.dcm")
        box.ended(PATIENCE)
        return box.lines

    return logged


def test_the_commands_print_what_the_tour_shows(received, program, work):
    (work / "dcmbox").symlink_to(program)
    (work / "crates").symlink_to(ROOT / "crates")
    (work / "received").mkdir()
    dumped(work, "image", identity() + STUDY)
    assert len(steps()) > 5
    for command, expected in steps():
        if " serve " in command:
            got, expected = without_times(received(command)), without_times(expected)
        else:
            done = call(work, work / command.split()[0], *command.split()[1:], check=False)
            got = (done.stdout + done.stderr).splitlines()
        assert (command, got) == (command, expected)


def test_the_example_of_a_library_is_in_a_test():
    """The test that the tour names contains the example."""
    test = (ROOT / re.search(r"`(crates/[^`]+)`", LIBRARY)[1]).read_text()
    assert "\n".join(re.findall(r"^    .*$", LIBRARY, re.M)) in test
