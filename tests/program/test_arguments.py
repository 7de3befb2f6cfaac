"""The program's output for arguments: replays of recordings, rejected options, missing files."""
import re
import shlex

import pytest
from peer import ROOT
from samples import CT_FILE, CUT_FAULT, ELEMENTS, SAMPLES, SHOWN, cases

pytestmark = pytest.mark.usefixtures("samples")
END = "Ended held 0 files 0"
ABORT = "07000000000400000000"
ECHO_LINES = (ROOT / "crates/cli/stdout").read_text().rstrip("\n")
EIGHTS_LINES = (ROOT / "tests/expected/echo_in_eights.txt").read_text().rstrip("\n")
LISTING = SHOWN + ELEMENTS


@pytest.mark.parametrize(
    "lines, arguments",
    cases(
        ("the recorded echo", ECHO_LINES, "echo.bin"),
        ("the recorded echo, byte by byte", ECHO_LINES, "echo.bin --cut 1"),
        ("the recorded echo, in pieces of seven", ECHO_LINES, "echo.bin --cut 7"),
        ("another called title", f"03000000000400010107\n{END}", "echo.bin --ae OTHER"),
        ("a peer that accepts eight bytes", EIGHTS_LINES, "eights.bin"),
        ("an empty recording", END, "empty.bin"),
        ("bytes that are no PDU", f"{ABORT}\n{END}", "text.bin"),
        ("an echo that is cut", f"([0-9a-f]+\n)+{END}", "cut_echo.bin"),
    ),
)
def test_replay(expect, lines, arguments):
    expect(0, lines, "", "replay", *arguments.split(), "--out", ".")


def test_a_recording_from_standard_input(expect, work):
    with open(work / "echo.bin", "rb") as recording:
        expect(0, ECHO_LINES, "", "replay", "-", "--out", ".", "--cut", "7", stdin=recording)


@pytest.mark.parametrize(
    "output, arguments",
    cases(
        ("help", ".*replay.*", "--help"),
        ("help on a command", ".*--out.*", "replay --help"),
        ("the version", r"dcmbox 1\.1\.0", "--version"),
        ("help with an example", ".*Example: dcmbox show .*", "show --help"),
    ),
)
def test_help(expect, output, arguments):
    expect(0, output, "", *arguments.split())


SERVE = "serve --out . --port 11112"
REPLAY = "replay empty.bin --out ."


@pytest.mark.parametrize(
    "errors, arguments",
    cases(
        ("no arguments", ".*[Uu]sage.*", ""),
        ("an unknown command", ".*frobnicate.*", "frobnicate"),
        ("no folder", ".*--out.*", "replay empty.bin"),
        ("no file", ".*FILE.*", "replay --out ."),
        ("an unknown option", ".*--fast.*", f"{REPLAY} --fast"),
        ("an option given twice", ".*--out.*", f"{REPLAY} --out ."),
        ("a flag given twice", ".*--once.*", f"{SERVE} --once --once"),
        ("another flag given twice", ".*--keep.*", "index . --uid 2.25.1 --keep --keep"),
        ("no bytes at a time", ".*--cut.*from 1 to 65536.*", f"{REPLAY} --cut 0"),
        ("too many bytes at a time", ".*--cut.*", f"{REPLAY} --cut 65537"),
        ("a cut that is no number", ".*--cut.*", f"{REPLAY} --cut all"),
        ("an empty title", ".*--ae.*", f"{REPLAY} --ae ''"),
        ("a title that is too long", ".*--ae.*", f"{REPLAY} --ae SEVENTEENLETTERSX"),
        ("folders of no files", ".*--per.*", f"{REPLAY} --per 0"),
        ("no file to show", ".*FILE.*", "show"),
        (
            "no UID",
            "error: index needs --uid UID, or --new-uid, which makes one",
            "index folder",
        ),
        (
            "a UID and a new one",
            "error: --uid and --new-uid exclude each other",
            "index folder --uid 2.25.1 --new-uid",
        ),
        ("an invalid UID", ".*--uid takes a UID.*", "index folder --uid 2.25.x"),
        ("no port", ".*--port.*", "serve --out ."),
        (
            "port 0",
            "error: --port takes a number from 1 to 65535, not '0'",
            "serve --out . --port 0",
        ),
        ("a port past the greatest", ".*--port.*", "serve --out . --port 65536"),
        ("an unknown form of the log", ".*--log takes text or json.*", f"{SERVE} --log xml"),
        ("a log both quiet and not", ".*--verbose and --quiet.*", f"{SERVE} -v -q"),
        ("a PDU that is too short", ".*--max-pdu.*", f"{SERVE} --max-pdu 1023"),
        ("too many titles", ".*--caller.*64 times.*", SERVE + " --caller SCANNER1" * 65),
        ("no time", ".*--timeout.*", f"{SERVE} --timeout 0"),
        ("no port, and no file", ".*--port.*", "serve --out . --port 70000 --callers none"),
        ("all classes twice", ".*--all-storage.*", f"{SERVE} --all-storage --all-storage"),
        (
            "--stop-file in no folder",
            ".*--stop-file names 'none/stop', but there is no folder 'none'.*",
            f"{SERVE} --stop-file none/stop",
        ),
        (
            "--storage-class 1.2.",
            r".*--storage-class names '1\.2\.', which ends in a dot.*",
            f"{SERVE} --storage-class 1.2.",
        ),
        (
            "a tag that is none",
            "error: --tag takes a tag as 0010,0020 or its keyword as PatientID, not '0010'",
            "show --tag 0010 ct.dcm",
        ),
        (
            "a tag of a group that repeats",
            ".* not 'OverlayData', whose group repeats: name the element of one, as 6000,3000",
            "show ct.dcm --tag OverlayData",
        ),
    ),
)
def test_rejected_arguments(expect, errors, arguments):
    expect(2, "", errors, *shlex.split(arguments))


@pytest.mark.parametrize(
    "option, least, most, value",
    [("--at-once", 1, 64, value) for value in ("0", "65", "x", "")]
    + [("--per-peer", 1, 1, value) for value in ("0", "2", "x", "")]
    + [("--longest", 1, 86400, "0"), ("--grace", 0, 86400, "x")],
)
def test_a_rejected_number(expect, option, least, most, value):
    errors = f".*{option} takes a number from {least} to {most}, not '{value}'.*"
    expect(2, "", errors, *SERVE.split(), option, value)


@pytest.mark.parametrize(
    "number, arguments",
    [(2, ["list", b"in\377"]), (4, ["arrange", ".", "--to", b"\377"])],
)
def test_an_argument_that_is_not_utf_8(expect, number, arguments):
    expect(2, "", rf"error: argument {number} is not UTF-8: (in)?\?", *arguments)


def test_a_file_whose_name_is_not_utf_8(expect):
    expect(3, "", r"dcmbox: \?: the file can't be opened: invalid filename; .*", "show", b"\377")


@pytest.mark.parametrize("command", ["check", "show"])
def test_one_file_of_several_whose_name_is_not_utf_8(run, command):
    """The program reports that file and reads the others."""
    done = run(command, "ct.dcm", b"b\377c", "ct.dcm")
    assert done.returncode == 3
    assert re.findall("^file (.*)$", done.stdout, re.M) == ["ct.dcm", "b?c", "ct.dcm"]
    first, last = done.stderr.splitlines()
    assert re.fullmatch(r"dcmbox: b\?c: the file can't be opened: invalid filename; .*", first)
    assert last.endswith(": a file or a folder can't be read, as is told above")


@pytest.mark.parametrize(
    "status, output, errors, arguments",
    cases(
        ("a file is shown", 0, f"{LISTING}end 336", "", "show ct.dcm"),
        ("a cut file is shown", 1, LISTING + CUT_FAULT, "", "show cut.dcm"),
        (
            "no value is shown",
            0,
            f"{SHOWN}0000000288 0008,0060 CS 4 Modality\n0000000300 0009,1001 LT 4 \\?\nend 312",
            "",
            "show control.dcm",
        ),
        ("a file is checked", 0, "good 336", "", "check ct.dcm"),
        ("a cut file is checked", 1, CUT_FAULT, "", "check cut.dcm"),
        (
            "a value is checked",
            0,
            "note 0000000288 0008,0060 CS 1 BadCharacter\ngood 312",
            "",
            "check control.dcm",
        ),
        ("a file that is no DICOM file", 1, "fault 50 NotPart10 at 128", "", "check text.bin"),
        (
            "a missing file is shown",
            3,
            "",
            "dcmbox: missing.dcm: the file can.t be opened: .*check its name.*",
            "show missing.dcm",
        ),
        (
            "a folder is checked",
            3,
            "",
            r"dcmbox: \.: it is a folder; -r takes the files in it"
            "\ndcmbox: \\.: the file can.t be read: Is a directory.*",
            "check .",
        ),
    ),
)
def test_file(expect, status, output, errors, arguments):
    expect(status, output, errors, *arguments.split())


@pytest.mark.parametrize(
    "errors, arguments",
    cases(
        (
            "a folder that is not there",
            "missing: the folder can.t be opened: .*create it.*",
            "replay empty.bin --out missing",
        ),
        (
            "a file instead of the folder",
            r"empty\.bin: the folder can.t be opened: .*check that it is a folder.*",
            "replay empty.bin --out empty.bin",
        ),
        (
            "a file that is not there",
            "missing.bin: the file can.t be opened: .*",
            "replay missing.bin --out .",
        ),
        (
            "a folder instead of a file",
            r"\.: the file can.t be read: .*",
            "replay . --out .",
        ),
        (
            "two titles",
            "missing: the folder .*",
            "serve --out missing --port 11112 --caller SCANNER1 --caller SCANNER2",
        ),
    ),
)
def test_errors_of_the_system(expect, errors, arguments):
    expect(3, "", f"dcmbox: {errors}", *arguments.split())


class TestIndex:
    """Folders for which `index` writes a directory, and folders for which it can't."""

    def test_a_folder_is_indexed(self, expect, put):
        put({"folder/I0000001": CT_FILE})
        skipped = "skipped I0000001 missing 0008,0020\nrecords 0"
        errors = "images 0 left out 1\nleft out: missing 0008,0020 StudyDate 1"
        expect(0, skipped, errors, "index", "folder", "--uid", "2.25.1")
        expect(0, "records 0", "", "checkdir", "folder/DICOMDIR")

    def test_an_empty_folder(self, expect, work):
        """A folder without files gets a directory without records; a missing folder gets none."""
        (work / "empty").mkdir()
        expect(0, "records 0", "images 0 left out 0", "index", "empty", "--uid", "2.25.1")
        assert (work / "empty/DICOMDIR").stat().st_size == 320
        errors = "dcmbox: missing: the folder can.t be opened: .*"
        expect(3, "", errors, "index", "missing", "--uid", "2.25.1")

    def test_a_missing_directory_with_keep(self, expect, work):
        (work / "empty").mkdir()
        errors = "dcmbox: empty: the folder.s DICOMDIR can.t be read: .*without --keep.*"
        expect(3, "", errors, "index", "empty", "--uid", "2.25.1", "--keep")

    def test_a_folder_instead_of_the_directory(self, expect, work):
        (work / "odd/DICOMDIR").mkdir(parents=True)
        errors = "dcmbox: odd: the folder.s DICOMDIR can.t be read: .*"
        expect(3, "", errors, "index", "odd", "--uid", "2.25.1", "--keep")

    def test_a_directory_that_is_not_a_dicom_file(self, expect, put):
        put({"other/DICOMDIR": SAMPLES["text.bin"]})
        fault = "fault 50 NotPart10 at 128"
        expect(1, fault, "", "index", "other", "--uid", "2.25.1", "--keep")
