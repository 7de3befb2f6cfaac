"""What show and check print of a file and of each beginning of it; failing files, outputs and peers of the commands."""
import os
import re
import socket
import struct
import subprocess
from contextlib import suppress

import pytest
from box import PATIENCE
from peer import ECHO_ANSWER, ECHO_REQUEST, EXPLICIT, element
from samples import CT_FILE, CUT_FAULT, ELEMENTS, HEADER, SAMPLES, SHOWN, cases, changed

IMPLICIT = "1.2.840.10008.1.2"
# The header of a CT image in Implicit VR Little Endian, 286 bytes long.
IMPLICIT_HEADER = (
    changed(HEADER[:206], 140, b"\x8e") + element((2, 0x10), "UI", IMPLICIT.encode() + b"\0") + HEADER[234:]
)
IMPLICIT_SHOWN = SHOWN.replace(EXPLICIT, IMPLICIT)
UNDEFINED = 0xFFFFFFFF
ITEM, ITEM_END, END = (0xFFFE, 0xE000), (0xFFFE, 0xE00D), (0xFFFE, 0xE0DD)
NOT_PART_10 = "fault 50 NotPart10 at 128\n"
BAD_META = "fault 51 BadMeta at 132\n"
CUT_HEADER = "dcmbox: {}: its file meta information is wrong: the file ends inside group 0002\n"
OTHER_SYNTAX = "dcmbox: {}: its transfer syntax is ExplicitVRBigEndian (1.2.840.10008.1.2.2), which is not taken\n"
UNREAD = (
    "dcmbox: {}: the file can't be read: Input/output error (os error 5); "
    "give a file, and copy it first if its disk fails\n"
)
FULL = (
    "dcmbox: {}: the output can't be written: No space left on device (os error 28); check that its disk has room\n"
)


def headed(tag, length, value=b""):
    """Returns an element in Implicit VR Little Endian, or its header alone."""
    return struct.pack("<HHL", *tag, length) + value


# A sequence of undefined length with three levels of defined length that end together.
NESTED = (
    headed((0x40, 0x275), UNDEFINED)
    + headed(ITEM, 26)
    + headed((0x40, 0xA730), 18)
    + headed(ITEM, 10)
    + headed((0x08, 0x104), 2, b"AB")
    + headed(END, 0)
    + headed((0x7FE0, 0x10), 2, bytes(2))
)
# Unknown content in Explicit VR Little Endian with an item in Implicit VR, and a header without a VR.
UNKNOWN = (
    b"\11\0\1\20UN\0\0\377\377\377\377"
    + headed(ITEM, UNDEFINED)
    + headed((0x08, 0x60), 2, b"CT")
    + headed(ITEM_END, 0)
    + headed(END, 0)
    + b"\11\0\2\20ui"
)
# A date, a code, a UID and a number that break the rules of their VRs, and a valid code.
VALUES = [
    ((0x08, 0x20), "DA", b"2026010 "),
    ((0x08, 0x60), "CS", b"ct"),
    ((0x20, 0x0D), "UI", b"1.02"),
    ((0x20, 0x13), "IS", b"1234567890123 "),
    ((0x28, 0x04), "CS", b"RGB "),
]


def fed(program, work, command, data):
    """Returns what a command returns and prints if each of its reads of standard input returns one byte."""
    # (what is written to such a pipe by one call is read by one call)
    reading, writing = os.pipe2(os.O_DIRECT)
    pipes = {"stdin": reading, "stdout": subprocess.PIPE, "stderr": subprocess.PIPE}
    with subprocess.Popen([program, command, "-"], cwd=work, text=True, **pipes) as process:
        os.close(reading)
        with suppress(BrokenPipeError):
            for byte in data:
                os.write(writing, bytes([byte]))
        os.close(writing)
        output, errors = process.communicate(timeout=PATIENCE)
    return process.returncode, output, errors


@pytest.fixture
def inspects(program, run, put, work):
    """Asserts the status, the output and the errors of a command for a file, and for its bytes one by one."""

    def inspected(command, data, status, output, errors=""):
        put({"a.dcm": data})
        done = run(command, "a.dcm")
        assert (done.returncode, done.stdout, done.stderr) == (status, output, errors.format("a.dcm"))
        assert fed(program, work, command, data) == (status, output, errors.format("-"))

    return inspected


@pytest.fixture
def failing(run, work, trace, calls):
    """Returns what a command returns and prints if a read of its file fails, by default the one at the end."""

    def failed(name, *arguments, number=None):
        reads = ("-P", work.resolve() / name, "-e", "trace=read")
        if number is None:
            run(*arguments, before=trace(*reads))
            number = len(calls())
        done = run(*arguments, before=trace(*reads, "-e", f"inject=read:error=EIO:when={number}"))
        assert calls()[number - 1].endswith("= -1 EIO (Input/output error) (INJECTED)")
        return done.returncode, done.stdout, done.stderr

    return failed


@pytest.fixture
def filled(run):
    """Returns what a command returns, and prints on standard error, if its output is a full disk."""

    def done(*arguments):
        with open("/dev/full", "w") as full:
            ended = run(*arguments, stdout=full)
        return ended.returncode, ended.stderr

    return done


@pytest.mark.parametrize(
    "data, status, output",
    cases(
        ("a whole file", CT_FILE, 0, f"{SHOWN}{ELEMENTS}end 336\n"),
        ("a cut file", CT_FILE[:330], 1, f"{SHOWN}{ELEMENTS}{CUT_FAULT}\n"),
        (
            "levels that end together",
            IMPLICIT_HEADER + NESTED,
            0,
            f"{IMPLICIT_SHOWN}"
            "0000000286 0040,0275 SQ undefined RequestAttributesSequence\n"
            "0000000294   fffe,e000 -- 26 Item\n"
            "0000000302     0040,a730 SQ 18 ContentSequence\n"
            "0000000310       fffe,e000 -- 10 Item\n"
            "0000000318         0008,0104 LO 2 CodeMeaning\n"
            "0000000328   fffe,e0dd -- 0 End\n"
            "0000000336 7fe0,0010 OW 2 PixelData\n"
            "end 346\n",
        ),
        (
            "unknown content",
            HEADER + UNKNOWN,
            1,
            f"{SHOWN}"
            "0000000288 0009,1001 UN undefined ?\n"
            "0000000300   fffe,e000 -- undefined Item\n"
            "0000000308     0008,0060 CS 2 Modality\n"
            "0000000318     fffe,e00d -- 0 End\n"
            "0000000326   fffe,e0dd -- 0 End\n"
            "fault 10 BadVr at 334 tag 0009,1002\n",
        ),
    ),
)
def test_elements_are_shown(inspects, data, status, output):
    inspects("show", data, status, output)


@pytest.mark.parametrize(
    "data, output",
    cases(
        (
            "in Explicit VR",
            HEADER + b"".join(element(*value) for value in VALUES),
            "note 0000000288 0008,0020 DA 2 WrongSize\n"
            "note 0000000304 0008,0060 CS 1 BadCharacter\n"
            "note 0000000314 0020,000d UI 4 BadUid\n"
            "note 0000000326 0020,0013 IS 3 TooLongValue\n"
            "good 360\n",
        ),
        (
            "in Implicit VR",
            IMPLICIT_HEADER + b"".join(headed(tag, len(value), value) for tag, _, value in VALUES),
            "note 0000000286 0008,0020 DA 2 WrongSize\n"
            "note 0000000302 0008,0060 CS 1 BadCharacter\n"
            "note 0000000312 0020,000d UI 4 BadUid\n"
            "note 0000000324 0020,0013 IS 3 TooLongValue\n"
            "good 358\n",
        ),
        (
            "a code that is too long",
            HEADER + element((0x08, 0x08), "CS", b"A" * 1024),
            "note 0000000288 0008,0008 CS 3 TooLongValue\ngood 1320\n",
        ),
        ("a code that is too long to be checked", HEADER + element((0x08, 0x08), "CS", b"A" * 1026), "good 1322\n"),
    ),
)
def test_values_are_checked(inspects, data, output):
    inspects("check", data, 0, output)


def judged(length):
    """Returns what a check prints for the first bytes of a file, and how it names a wrong header."""
    if length < 132:
        return NOT_PART_10, ""
    if length < 288:
        return BAD_META, CUT_HEADER
    if length in (288, 322, 336):
        return f"good {length}\n", ""
    tag = "0008,0016" if 292 <= length < 322 else "0008,0018" if 326 <= length else "0000,0000"
    return f"fault 20 Truncated at {length} tag {tag}\n", ""


def test_every_front_of_a_file_is_judged(inspects, run, put):
    """The beginnings without a fault are those that end before a header."""
    inspects("check", CT_FILE, 0, "good 336\n")
    names = [f"in/{length:03}" for length in range(337)]
    put({name: CT_FILE[:length] for length, name in enumerate(names)})
    results = [(name, *judged(length)) for length, name in enumerate(names)]
    done = run("check", "-r", "in")
    lines = [f"file {name}\n{result}" for name, result, _ in results]
    assert done.stdout == "".join(lines) + "files 337 good 3 faulty 334 unread 0 notes 0\n"
    assert done.stderr == "".join(errors.format(name) for name, _, errors in results)
    assert done.returncode == 1


@pytest.mark.parametrize("command", ["show", "check"])
def test_another_transfer_syntax_is_a_fault(inspects, command):
    """The last component of the Transfer Syntax UID is at byte 232."""
    inspects(command, changed(CT_FILE, 232, b"2"), 1, "fault 53 OtherSyntax at 132\n", OTHER_SYNTAX)


@pytest.mark.parametrize(
    "command, data, output",
    cases(
        ("at once", "check", b"", ""),
        ("in the preamble", "check", CT_FILE[:100], ""),
        ("in the header", "check", CT_FILE[:200], ""),
        ("in the data set", "show", CT_FILE[:330], SHOWN + ELEMENTS),
    ),
)
def test_failing_devices_are_reported(failing, put, command, data, output):
    """The lines before a failed read are written."""
    put({"a.dcm": data})
    assert failing("a.dcm", command, "a.dcm") == (3, output, UNREAD.format("a.dcm"))


@pytest.mark.parametrize("command, data", cases(("a listing", "show", CT_FILE), ("a fault", "check", CT_FILE[:100])))
def test_failing_devices_are_reported_where_a_write_fails(filled, put, command, data):
    """It ends the listing, and a fault that is not written is not reported."""
    put({"a.dcm": data})
    assert filled(command, "a.dcm") == (3, FULL.format("a.dcm"))


@pytest.mark.parametrize("number", [1, 2], ids=["at_once", "after_its_bytes"])
def test_a_failed_read_is_reported(failing, samples, work, number):
    """Nothing of the recording is replayed."""
    (work / "out").mkdir()
    arguments = ("replay", "echo.bin", "--cut", "7", "--out", "out")
    assert failing("echo.bin", *arguments, number=number) == (3, "", UNREAD.format("echo.bin"))
    assert not list((work / "out").iterdir())


def test_a_failed_write_is_reported(expect, filled, put):
    """The output for bytes that are no PDU is an A-ABORT."""
    put({"text.bin": SAMPLES["text.bin"]})
    arguments = ("replay", "text.bin", "--cut", "7", "--out", ".")
    expect(0, "07000000000400000000\nEnded held 0 files 0", "", *arguments)
    assert filled(*arguments) == (3, FULL.format("text.bin"))


def association(box):
    """Returns the log line of the only association of a box, once the box has ended."""
    assert box.ended() == 0
    _, listening, line, stopped = box.lines
    assert " listening on " in listening and stopped.endswith("Z stopped")
    return line


def test_a_peer_that_closes_its_association(serve):
    """It closes its sending side. That is no abort of the local user, which would send an A-ABORT."""
    box = serve("--once", "--timeout", "30")
    with box.connect() as peer:
        peer.send(ECHO_REQUEST)
        peer.socket.shutdown(socket.SHUT_WR)
        assert peer.rest() == ECHO_ANSWER[:169]
        line = association(box)
    assert " Ended held 0 files 0 dropped 0 received 170 in " in line


def test_a_silent_peer_expires(serve):
    """It keeps the connection open."""
    box = serve("--once", "--timeout", "1")
    with box.connect():
        line = association(box)
    assert re.search(r" Ended held 0 files 0 dropped 0 received 0 in \d+ s .* ARTIM timer expired ", line)
