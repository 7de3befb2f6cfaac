"""The directories (DICOMDIR) that `index` writes, and that `checkdir` lists."""
import json
import re
import subprocess

import pytest
from directories import FIRST, SECOND, THIRD, UNIDENTIFIED, UPPER, image, listed, numbered
from peer import element
from samples import DIRECTORY, IMAGE, cases, changed

pytestmark = pytest.mark.usefixtures("samples")
RECORDS = "0000000320 PATIENT\n0000000404   STUDY\n0000000534     SERIES\n0000000626       IMAGE"
ONE, COUNTED = "records 4", "images 1 left out 0"
ANOTHER_PROGRAM = "dcmbox: others: the folder.s DICOMDIR was written by another program, and stays"


def listing(file_id, indexed="IMAGE"):
    return f"{RECORDS.removesuffix('IMAGE')}{indexed} {file_id}\n{ONE}"


@pytest.mark.parametrize(
    "status, output, directory",
    cases(
        ("a directory is listed", 0, listing("I0000001"), DIRECTORY),
        ("a cut directory", 1, "fault 20 Truncated at 710 tag 0004,1510", DIRECTORY[:710]),
        (
            "a record that follows itself",
            1,
            "fault 61 Cycle at 320",
            changed(DIRECTORY, 336, b"\100\1\0\0"),
        ),
        (
            "a record type of control characters",
            0,
            listing("I0000001", r"\?\[2J\?"),
            changed(DIRECTORY, 676, b"\33[2J\7"),
        ),
    ),
)
def test_checkdir(expect, put, status, output, directory):
    put({"listed.bin": directory})
    expect(status, output, "", "checkdir", "listed.bin")


@pytest.mark.parametrize("kind", ["PALETTE", "IMPLANT", "PRIVATE"])
def test_a_record_of_the_root_that_is_not_supported(expect, put, kind):
    """PS3.3 section F.4 allows these types in addition to PATIENT; the fault is the same, and is explained."""
    put({"listed.bin": DIRECTORY.replace(b"PATIENT ", kind.ljust(8).encode())})
    errors = f"dcmbox: listed.bin: the record at 320 is of type {kind}, which PS3.3 section F.4 has .*"
    expect(1, "fault 64 WrongLevel at 320", errors, "checkdir", "listed.bin")


def test_a_record_of_the_root_that_is_not_in_the_standard(expect, put):
    put({"listed.bin": DIRECTORY.replace(b"PATIENT ", b"STUDY   ")})
    expect(1, "fault 64 WrongLevel at 320", "", "checkdir", "listed.bin")


def test_a_file_that_is_not_a_directory(expect, put):
    put({"listed.bin": IMAGE})
    errors = r"dcmbox: listed.bin: it is no DICOMDIR: its class is CTImageStorage \(1.2.840.*\)"
    expect(1, "fault .*", errors, "checkdir", "listed.bin")


def test_one_object_of_checkdir(run, put, work):
    """Directories that are good, truncated, with a quoted type, with a fault outside the data set, and unreadable."""
    quoted = changed(DIRECTORY, 676, b'"\\\33\t')
    cycle = changed(DIRECTORY, 336, b"\100\1\0\0")
    put({"good": DIRECTORY, 'cut"': DIRECTORY[:710], "quoted": quoted, "cycle": cycle})
    found = []
    for name, status in (("good", 0), ('cut"', 1), ("quoted", 0), ("cycle", 1), (".", 3), ("no", 3)):
        done = run("checkdir", "--json", name)
        assert done.returncode == status and done.stdout.count("\n") == 1
        found.append(json.loads(done.stdout))
        assert found[-1].pop("file") == name
    rows = [(320, 0, "PATIENT", None), (404, 1, "STUDY", None), (534, 2, "SERIES", None)]
    rows = [dict(zip(("place", "level", "type", "file"), row)) for row in rows]
    last = {"place": 626, "level": 3, "type": "IMAGE", "file": "I0000001"}
    assert found[0] == {"records": [*rows, last], "result": "good", "record_count": 4}
    fault = {"number": 20, "name": "Truncated", "place": 710, "tag": "0004,1510"}
    assert found[1] == {"result": "fault", **fault}
    assert found[2]["records"][3] == {**last, "type": '"\\%1b\tE'}
    assert found[3] == {"result": "fault", "number": 61, "name": "Cycle", "place": 320}
    assert found[4:] == [{"result": "unread"}] * 2
    assert json.loads(run("checkdir", "-", "--json", stdin=open(work / "good")).stdout)["file"] == "-"


NAMES = ("CT1", "ECG1", "PDF1", "SR1")
KINDS = (("ECG1", "WAVEFORM"), ("PDF1", "ENCAP DOC"), ("SR1", "SR DOCUMENT"))


class TestIndex:
    """Directories of images."""

    def test_of_an_image(self, expect, put, work):
        put({"one/I0000001": IMAGE})
        expect(0, ONE, COUNTED, "index", "one", "--uid", "2.25.1")
        assert (work / "one/DICOMDIR").read_bytes() == DIRECTORY

    def test_a_folder_of_two_levels(self, expect, put, work):
        """Files of subfolders are listed."""
        put({"two/S0000001/I0000001": IMAGE})
        expect(0, ONE, COUNTED, "index", "two", "--uid", "2.25.1")
        assert (work / "two/DICOMDIR").stat().st_size == 798
        expect(0, listing("S0000001/I0000001"), "", "checkdir", "two/DICOMDIR")

    def test_a_folder_of_five(self, expect, put, work):
        """Two images of a series, one of another series, a duplicate, and one without Study ID."""
        put(numbered(FIRST, SECOND, THIRD, FIRST, UNIDENTIFIED, folder="five"))
        put({"five/readme.txt": b"none of them"})
        output = "skipped I0000005 missing 0020,0010\ndouble I0000004\nrecords 7"
        errors = (
            "dcmbox: five/I0000004: a double of I0000001, with the same bytes\nimages 3 left out 2\n"
            "left out: missing 0020,0010 StudyID 1, doubles 1"
        )
        expect(0, output, errors, "index", "five", "--uid", "2.25.1")
        images = [image(626, "I0000001"), image(788, "I0000002")]
        others = [(950, 3, "SERIES", ""), image(1042, "I0000003")]
        expect(0, listed(*UPPER, *images, *others).rstrip(), "", "checkdir", "five/DICOMDIR")
        assert not (work / "five/DIRDRAFT").exists()


    def test_one_object(self, run, put, work):
        """Files without a record, a directory that is kept, and one with a fault."""
        report = IMAGE.replace(b"1.2.840.10008.5.1.4.1.1.2\0", b"1.2.840.10008.5.1.4.1.1.66")
        put({"in/I0000001": IMAGE, "in/I0000002": IMAGE[:406] + b"\0\0" + IMAGE[410:]})
        put({"in/I0000003": b"text", "in/I0000004": IMAGE, "in/I0000005": report})
        index = ["index", "in", "--uid", "2.25.1", "--json"]
        lines = [line.split() for line in run(*index[:-1]).stdout.splitlines()]
        done = run(*index, "--strict")
        assert done.returncode == 1 and done.stdout.count("\n") == 1
        found = json.loads(done.stdout)
        rows = [["skipped", *(str(argument) for pair in row.items() for argument in pair)] for row in found["skipped"]]
        duplicates = [["double", name] for name in found["doubles"]]
        assert found.pop("result") == "good" and len(rows) == 3 and len(duplicates) == 1
        rows = [[row[0], *row[2:]] for row in rows]
        assert [*rows, *duplicates, ["records", str(found["record_count"])]] == lines
        (work / "in/I0000001").unlink()
        kept = json.loads(run(*index, "--keep", "--strict").stdout)
        missing = {"file": "I0000001", "fault": 54}
        assert kept == {"skipped": [missing], "doubles": [], "result": "kept"}
        put({"in/DICOMDIR": DIRECTORY[:710]})
        done = run(*index, "--keep")
        fault = {"number": 20, "name": "Truncated", "place": 710, "tag": "0004,1510"}
        none = {"skipped": [], "doubles": [], "result": "fault"}
        assert (done.returncode, json.loads(done.stdout)) == (1, {**none, **fault})


    def test_of_duplicates(self, expect, put):
        """A duplicate with other bytes, a longer one, and one with the same bytes."""
        put(
            {
                "doubles/I0000001": IMAGE,
                "doubles/I0000002": IMAGE[:-1] + bytes([IMAGE[-1] ^ 1]),
                "doubles/S0000001/I0000001": IMAGE + b"\xfc\xff\xfc\xffOB\0\0\0\0\0\0",
                "doubles/S0000001/I0000002": IMAGE,
            }
        )
        output = "double I0000002\ndouble S0000001/I0000001\ndouble S0000001/I0000002\nrecords 4"
        errors = (
            "dcmbox: doubles/I0000002: a double of I0000001, with other bytes\n"
            "dcmbox: doubles/S0000001/I0000001: a double of I0000001, with other bytes\n"
            "dcmbox: doubles/S0000001/I0000002: a double of I0000001, with the same bytes\n"
            "images 1 left out 3\nleft out: doubles 3"
        )
        expect(0, output, errors, "index", "doubles", "--uid", "2.25.1")


    def test_files_left_out_are_a_fault(self, expect, put, work):
        """With --strict files left out are a fault; the directory is written nevertheless."""
        put({"strict/I0000001": IMAGE, "strict/I0000002": b"text"})
        output, errors = "skipped I0000002 fault 50\nrecords 4", "images 1 left out 1\nleft out: fault 50 NotPart10 1"
        for status, options in ((0, []), (1, ["--strict"])):
            expect(status, output, errors, "index", "strict", "--uid", "2.25.1", *options)
            assert (work / "strict/DICOMDIR").read_bytes() == DIRECTORY
        (work / "strict/I0000002").unlink()
        expect(0, ONE, COUNTED, "index", "strict", "--uid", "2.25.1", "--strict")


class TestKeptRecords:
    """A directory by DCMTK's dcmmkdir, of an image and of other objects."""

    @pytest.fixture
    def made(self, work, tool):
        """The folder with the directory."""
        pytest.importorskip("pydicom")
        from pydicom.data import get_testdata_file

        folder = work / "made"
        folder.mkdir()
        for name, source in {
            "CT1": "CT_small.dcm",
            "ECG1": "waveform_ecg.dcm",
            "SR1": "test-SR.dcm",
        }.items():
            (folder / name).write_bytes(open(get_testdata_file(source), "rb").read())
        (work / "some.pdf").write_bytes(b"%PDF-1.4\n1 0 obj<<>>endobj\ntrailer<</Root 1 0 R>>\n%%EOF\n")
        tool("pdf2dcm", "-q", "some.pdf", "made/PDF1")
        tool("dcmmkdir", "-q", "+I", "-Nxc", "-Pgp", "+D", "made/DICOMDIR", "+id", "made", *NAMES)
        return folder

    def test_are_not_lost(self, made, run):
        """With --strict the directory stays unchanged."""
        before = (made / "DICOMDIR").read_bytes()
        done = run(*"index made --uid 2.25.1 --keep --strict".split())
        assert (done.returncode, done.stdout) == (1, "")
        first, last = done.stderr.splitlines()[3:]
        assert first == (
            "dcmbox: made: the DICOMDIR stays as it is: 3 of its records would be lost; "
            "without --strict they are left out"
        )
        assert last == "left out: records of other types 3"
        assert (made / "DICOMDIR").read_bytes() == before

    def test_of_files_that_can_not_be_read(self, made, run):
        """The files are missing, as on a disk that is not mounted."""
        before = (made / "DICOMDIR").read_bytes()
        for name in NAMES:
            (made / name).unlink()
        done = run(*"index made --uid 2.25.1 --keep --strict".split())
        assert (done.returncode, done.stdout) == (1, "skipped CT1 fault 54\n")
        assert ": 4 of its records would be lost; " in done.stderr
        output = "left out: fault 54 ReadFailed 1, records of other types 3"
        assert done.stderr.splitlines()[-1] == output
        assert (made / "DICOMDIR").read_bytes() == before
        done = run(*"index made --uid 2.25.1 --keep".split())
        assert (done.returncode, done.stdout) == (0, "skipped CT1 fault 54\nrecords 0\n")
        assert done.stderr.splitlines()[-2:] == ["images 0 left out 4", output]

    def test_are_reported(self, expect, made, run):
        output = "".join(
            f"dcmbox: made/{name}: left out: its record is of type {kind}, not IMAGE\n"
            for name, kind in KINDS
        )
        output += "images 1 left out 3\nleft out: records of other types 3"
        expect(0, "records 4", output, *"index made --uid 2.25.1 --keep".split())
        assert run("checkdir", "made/DICOMDIR").stdout.count("IMAGE CT1") == 1

    def test_with_a_series_of_an_image(self, expect, made):
        """The written directory has only images, so the next run leaves out no record."""
        expect(0, "records 4", ".*left out 3\n.*", *"index made --uid 2.25.1 --keep".split())
        expect(0, "records 4", COUNTED, *"index made --uid 2.25.1 --keep --strict".split())


class TestDescriptions:
    """With --descriptions the record of a series has its Series Description."""

    @pytest.fixture
    def index(self, expect, put, work):
        """The directory of an image with this Series Description, or without any."""

        def made(value, *options):
            description = b"" if value is None else element((0x0008, 0x103E), "LO", value)
            put({"described/I0000001": IMAGE[:344] + description + IMAGE[344:]})
            expect(0, ONE, COUNTED, "index", "described", "--uid", "2.25.1", *options)
            return (work / "described/DICOMDIR").read_bytes()

        return made

    @pytest.mark.parametrize(
        "value, options",
        cases(
            ("a description", b"AXIAL ", ()),
            ("too long", b"1" * 300, ()),
            ("too long with the option", b"1" * 300, ("--descriptions",)),
            ("a little too long with the option", b"1" * 258, ("--descriptions",)),
            ("spaces", b" " * 300, ()),
            ("spaces with the option", b" " * 300, ("--descriptions",)),
            ("none with the option", None, ("--descriptions",)),
        ),
    )
    def test_directories_without_descriptions(self, index, value, options):
        """The directory is byte for byte that of an image without Series Description."""
        assert index(value, *options) == DIRECTORY

    def test_directories_with_descriptions(self, index, run):
        """The record of the series has Series Description after Modality, at 590, and is longer by that."""
        directory = index(b"AXIAL ", "--descriptions")
        assert len(directory) == 802
        added = element((0x0008, 0x0060), "CS", b"CT") + element((0x0008, 0x103E), "LO", b"AXIAL ")
        assert directory[590:620] == added + b"\x20\0\x0e\0UI"
        shown = run("show", "--tag", "0008,103e", "described/DICOMDIR").stdout
        assert len(shown.splitlines()) == 1
        assert len(index(b"1" * 256, "--descriptions")) == 1052


class TestOfAnotherProgram:
    """A directory by another program stays, except with --keep or --replace."""

    @pytest.fixture
    def others(self, put, work):
        """The path of a directory with another implementation class UID."""
        offset = DIRECTORY.index(b"2.25.20260101")
        directory = changed(DIRECTORY, offset, b"2.25.20260102")
        put({"others/I0000001": IMAGE, "others/DICOMDIR": directory})
        return work / "others/DICOMDIR"

    def test_it_stays_as_it_was(self, expect, others):
        before = others.read_bytes()
        errors = f"{ANOTHER_PROGRAM} as it is; .*--keep.*--replace.*"
        expect(3, "", errors, "index", "others", "--uid", "2.25.1")
        assert others.read_bytes() == before
        assert sorted(path.name for path in others.parent.iterdir()) == ["DICOMDIR", "I0000001"]

    @pytest.mark.parametrize("option", ["--keep", "--replace"])
    def test_it_is_replaced(self, expect, others, option):
        expect(0, ONE, COUNTED, "index", "others", "--uid", "2.25.1", option)
        assert others.read_bytes() == DIRECTORY

    def test_a_directory_that_is_not_read_stays(self, expect, others):
        others.unlink()
        others.mkdir()
        errors = "dcmbox: others: the folder's DICOMDIR can't be looked at: Is a directory"
        expect(3, "", errors + ".*--replace.*", "index", "others", "--uid", "2.25.1")
        assert others.is_dir()


class TestUid:
    """The UID of a directory."""

    @pytest.fixture(autouse=True)
    def folder(self, put):
        put({"indexed/I0000001": IMAGE})

    @pytest.mark.parametrize("uid", ["2.25.01", "2..25", ".2.25", "2.25.", "02.25"])
    def test_warned_of(self, expect, uid):
        warning = "dcmbox: --uid is taken as it is, but a component of it is empty or begins with 0"
        expect(0, ONE, f"{warning}\n{COUNTED}", "index", "indexed", "--uid", uid)

    @pytest.mark.parametrize("uid", ["2.0.25", "0", "2.25.10"])
    def test_accepted(self, expect, uid):
        expect(0, ONE, COUNTED, "index", "indexed", "--uid", uid)

    def test_new_instances(self, expect, run, work):
        """Each directory with a new UID has another UID, a decimal number under 2.25."""
        instances = []
        for _ in range(2):
            expect(0, ONE, COUNTED, "index", "indexed", "--new-uid")
            shown = run("show", "indexed/DICOMDIR").stdout
            instances.append(re.search(r"^instance (.*)$", shown, re.M)[1])
            assert (work / "indexed/DICOMDIR").read_bytes()[194:].startswith(instances[-1].encode())
        first, second = instances
        assert first != second
        assert all(re.fullmatch(r"2\.25\.[1-9][0-9]{30,38}", instance) for instance in instances)

    @pytest.mark.parametrize("errors", ["/dev/full", "&-"])
    def test_lost_messages(self, program, work, errors):
        """Standard error can't be written, and the directory is written nevertheless."""
        arguments = ["sh", "-c", f'exec "$0" index indexed --uid 2.25.1 2>{errors}', program]
        done = subprocess.run(arguments, cwd=work, stdout=subprocess.PIPE, text=True, timeout=60)
        assert (done.returncode, done.stdout) == (0, f"{ONE}\n")
        assert (work / "indexed/DICOMDIR").read_bytes() == DIRECTORY
