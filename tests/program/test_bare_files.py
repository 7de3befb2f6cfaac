"""`show` and `check` with `--any`: files without preamble and file meta information, and every transfer syntax."""
import json
import re
import struct

import pytest
from peer import element
from samples import CT_FILE, DIRECTORY, HEADER, IMAGE, SAMPLES, cases, changed
from studies import image

IMPLICIT, EXPLICIT = "1.2.840.10008.1.2", "1.2.840.10008.1.2.1"
KEYWORDS = {IMPLICIT: "ImplicitVRLittleEndian", EXPLICIT: "ExplicitVRLittleEndian"}
# The header of a file in Explicit VR; in one in Implicit VR the UID is shorter and padded.
HEADERS = {EXPLICIT: HEADER, IMPLICIT: changed(HEADER, 231, b"\0\0")}
NO_HEADER = "fault 50 NotPart10 at 128\n"
NO_SYNTAX = "note 0000000000 0002,0010 UI 21 MissingUid"


def implicit(data):
    """Returns a data set in Implicit VR of one in Explicit VR, which has no sequence and no long value."""
    made, at = b"", 0
    while at < len(data):
        (length,) = struct.unpack_from("<H", data, at + 6)
        made += data[at : at + 4] + struct.pack("<L", length) + data[at + 8 : at + 8 + length]
        at += 8 + length
    return made


def encoded(data, syntax):
    return implicit(data) if syntax == IMPLICIT else data


DATA = image()[len(HEADER) :]


def said(name, syntax):
    return f"dcmbox: {name}: no file meta information: read as {KEYWORDS[syntax]}\n"


def moved(text, start):
    """Returns the lines of a listing or a check without class and instance, with offsets from that of the data set."""
    lines = [line for line in text.splitlines() if not line.startswith(("class ", "instance "))]
    return [
        re.sub(r"^(|note )(\d{10}) |^(end|good) (\d+)$", lambda found: offset(found, start), line)
        for line in lines
    ]


def offset(found, start):
    before, place, last, length = found.groups()
    return f"{last} {int(length) - start}" if last else f"{before}{int(place) - start:010} "


@pytest.fixture(params=[EXPLICIT, IMPLICIT], ids=["Explicit VR", "Implicit VR"])
def both(request, put):
    """A file and its data set alone, in a transfer syntax; returns this, and the offset of the data set in the file."""
    syntax = request.param
    data = encoded(DATA, syntax)
    put({"whole.dcm": HEADERS[syntax] + data, "bare.dcm": data})
    return syntax, len(HEADERS[syntax])


@pytest.mark.parametrize("options", ["", "--values", "--values --full", "--meta", "--tag PatientID"])
def test_a_data_set_alone_is_listed(run, both, options):
    """The listing is that of the whole file but for group 0002."""
    syntax, start = both
    whole = run("show", *options.split(), "whole.dcm")
    lines = [line for line in whole.stdout.splitlines(True) if " 0002," not in line]
    bare = run("show", "--any", *options.split(), "bare.dcm")
    assert (bare.returncode, bare.stderr) == (0, said("bare.dcm", syntax))
    assert moved(bare.stdout, 0) == moved("".join(lines), start)
    if not options:
        assert bare.stdout.startswith(f"syntax {syntax}\n0000000000 0008,0018 UI ")


def test_a_data_set_alone_as_json(run, both):
    syntax, start = both
    whole = json.loads(run("show", "--json", "--values", "whole.dcm").stdout)
    done = run("show", "--any", "--json", "--values", "bare.dcm")
    bare = json.loads(done.stdout)
    assert done.stderr == said("bare.dcm", syntax)
    for one in whole["elements"]:
        one["place"] -= start
    nothing = {"file": "bare.dcm", "class": None, "instance": None}
    assert bare == {**whole, **nothing, "length": whole["length"] - start}


def test_a_data_set_alone_is_checked(run, both):
    syntax, start = both
    done = run("check", "--any", "bare.dcm")
    good = f"good {len(encoded(DATA, syntax))}\n"
    assert (done.returncode, done.stdout, done.stderr) == (0, good, said("bare.dcm", syntax))
    done = run("check", "--any", "--strict", "bare.dcm")
    assert (done.returncode, done.stdout) == (1, f"{NO_SYNTAX}\n{good}")
    done = run("check", "--any", "--json", "bare.dcm")
    assert json.loads(done.stdout) == {
        "file": "bare.dcm",
        "notes": [],
        "result": "good",
        "length": len(encoded(DATA, syntax)),
    }


@pytest.mark.parametrize("syntax", [EXPLICIT, IMPLICIT])
def test_notes_and_faults_of_a_data_set_alone(run, put, syntax):
    noted = encoded(element((8, 0x60), "CS", b"ct") + element((0x10, 0x20), "LO", b"P1"), syntax)
    put({"noted": noted, "cut": noted[:-1]})
    note = "note 0000000000 0008,0060 CS 1 BadCharacter\n"
    assert run("check", "--any", "noted").stdout == f"{note}good {len(noted)}\n"
    done = run("check", "--any", "cut")
    fault = f"fault 20 Truncated at {len(noted) - 1} tag 0010,0020\n"
    assert (done.returncode, done.stdout, done.stderr) == (1, note + fault, said("cut", syntax))


@pytest.mark.parametrize("command", ["show", "check"])
def test_without_the_option(run, both, command):
    done = run(command, "--all-syntaxes", "bare.dcm")
    assert (done.returncode, done.stdout, done.stderr) == (1, NO_HEADER, "")


@pytest.mark.parametrize(
    "data",
    cases(
        ("an empty file", b""),
        ("text", b"GET / HTTP/1.0\r\n\r\n"),
        ("text in UTF-16", "\nPatientID\n".encode("utf-16-le")),
        ("zeros", bytes(5000)),
        ("an odd group", element((9, 0x10), "LO", b"DCMBOX")),
        ("a later group", element((0x12, 0x10), "LO", b"DCMBOX")),
        ("a command set", struct.pack("<HHLL", 0, 0, 4, 0)),
        ("a value that passes the end", implicit(element((8, 0x18), "UI", b"1.2.3\0"))[:-1]),
        ("a cut header", element((8, 0x18), "UI", b"")[:7]),
        ("big endian", b"\0\x08\0\x18UI\0\x061.2.3\0"),
    ),
)
def test_other_files_have_the_same_fault(run, put, data):
    put({"other": data})
    for command in ("show", "check"):
        done = run(command, "--any", "other")
        assert (done.returncode, done.stdout, done.stderr) == (1, NO_HEADER, "")


@pytest.mark.parametrize(
    "first, syntax",
    cases(
        ("a directory", element((4, 0x1130), "CS", b"A "), EXPLICIT),
        ("a patient", element((0x10, 0x20), "LO", b"P1"), IMPLICIT),
    ),
)
def test_first_groups(run, put, first, syntax):
    put({"bare": encoded(first, syntax)})
    done = run("check", "--any", "bare")
    assert (done.returncode, done.stderr) == (0, said("bare", syntax))


@pytest.mark.parametrize("options", ["", "--values --meta", "--json", "--strict", "--strict --values --json"])
def test_files_with_a_header(run, put, options):
    """With a header `--any` is `--all-syntaxes`."""
    command = "check" if "strict" in options else "show"
    rle, broken = changed(CT_FILE, 232, b"5"), changed(CT_FILE, 140, b"\xff")
    put({**SAMPLES, "image": IMAGE, "directory": DIRECTORY, "rle.dcm": rle, "broken.dcm": broken})
    for name in ("ct.dcm", "cut.dcm", "image", "directory", "rle.dcm", "broken.dcm", "big.dcm"):
        one, other = (
            run(command, option, *options.split(), name) for option in ("--any", "--all-syntaxes")
        )
        assert (one.returncode, one.stdout, one.stderr) == (other.returncode, other.stdout, other.stderr)


@pytest.mark.parametrize("option", ["--any", "--all-syntaxes", "--strict"])
@pytest.mark.parametrize(
    "syntax, keyword",
    cases(
        ("big endian", "1.2.840.10008.1.2.2", "ExplicitVRBigEndian"),
        ("deflated", "1.2.840.10008.1.2.1.99", "DeflatedExplicitVRLittleEndian"),
        ("JPIP", "1.2.840.10008.1.2.4.94", "JPIPReferenced"),
        ("a private one", "1.2.840.113619.5.2", "unknown"),
    ),
)
def test_other_transfer_syntaxes_are_named(run, put, option, syntax, keyword):
    """The message names the transfer syntax, and no option, as none accepts it."""
    meta = HEADER[144:206] + element((2, 0x10), "UI", syntax.encode() + b"\0" * (len(syntax) % 2))
    length = element((2, 0), "UL", struct.pack("<L", len(meta)))
    put({"other.dcm": HEADER[:132] + length + meta})
    done = run("check", option, "other.dcm")
    message = f"dcmbox: other.dcm: its transfer syntax is {keyword} ({syntax}), which is not taken\n"
    assert (done.returncode, done.stdout, done.stderr) == (1, "fault 53 OtherSyntax at 132\n", message)


def test_several_files(run, both, put):
    """Data sets alone are files of folders, and `--ignore-others` does not skip them."""
    syntax, _ = both
    put({"a/bare": encoded(DATA, syntax), "a/ct.dcm": CT_FILE, "a/text": b"hello"})
    done = run("check", "--any", "-r", "a")
    counts = "files 3 good 2 faulty 1 unread 0 notes 0"
    assert (done.returncode, done.stdout.splitlines()[-1]) == (1, counts)
    assert done.stderr == said("a/bare", syntax)
    done = run("check", "--any", "--ignore-others", "-r", "a")
    counts = "files 2 good 2 faulty 0 unread 0 notes 0"
    assert (done.returncode, done.stdout.splitlines()[-1]) == (0, counts)
    assert done.stderr == said("a/bare", syntax) + "dcmbox: ignored 1\n"
    done = run("check", "--ignore-others", "-r", "a")
    assert "files 1 good 1" in done.stdout and done.stderr == "dcmbox: ignored 2\n"


def test_standard_input(run, both):
    syntax, _ = both
    data = encoded(DATA, syntax)
    done = run("check", "--any", "-", input=data, text=False)
    assert (done.returncode, done.stdout) == (0, f"good {len(data)}\n".encode())
    assert done.stderr == said("-", syntax).encode()


def test_a_folder(run, work):
    (work / "folder").mkdir()
    done = run("show", "--any", "folder")
    assert done.returncode == 3 and done.stderr == run("show", "folder").stderr


def test_a_long_data_set(run, put):
    """More bytes than are read ahead."""
    comment = element((0x20, 0x4000), "LT", b"x" * 60000)
    put({"long": DATA + comment + element((0x28, 0x10), "US", b"\1\0")})
    done = run("show", "--any", "--values", "--tag", "Rows", "long")
    place = len(DATA) + len(comment)
    assert done.stdout == f"{place:010} 0028,0010 US 2 Rows\n           = 1\n"


@pytest.mark.parametrize("is_implicit", [False, True])
def test_an_image_of_pydicom(run, work, is_implicit):
    """A CT image of pydicom without its header, written by pydicom in both forms."""
    pydicom = pytest.importorskip("pydicom", reason="make packages installs it")
    from pydicom.data import get_testdata_file
    from pydicom.filebase import DicomBytesIO
    from pydicom.filewriter import write_dataset

    syntax = IMPLICIT if is_implicit else EXPLICIT
    read = pydicom.dcmread(get_testdata_file("CT_small.dcm"))
    written = DicomBytesIO()
    written.is_little_endian, written.is_implicit_VR = True, is_implicit
    write_dataset(written, read)
    data = written.getvalue()
    (work / "bare.dcm").write_bytes(data)
    (work / "whole.dcm").write_bytes(HEADERS[syntax] + data)
    for options in ([], ["--values", "--full"]):
        whole = run("show", *options, "whole.dcm")
        bare = run("show", "--any", *options, "bare.dcm")
        assert (whole.returncode, bare.returncode, bare.stderr) == (0, 0, said("bare.dcm", syntax))
        assert moved(bare.stdout, 0) == moved(whole.stdout, len(HEADERS[syntax]))
