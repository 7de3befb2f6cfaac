"""`show` and `check` over several files, over folders and standard input, and as JSON."""
import json
import re
import subprocess

import pytest
from box import LITTLE, PATIENCE
from images import need
from peer import element
from samples import CT_FILE, CUT_FAULT, ELEMENTS, HEADER, SAMPLES, SHOWN, cases, changed

pytestmark = pytest.mark.usefixtures("samples")
LISTING = SHOWN + ELEMENTS
NOTE = "note 0000000288 0008,0060 CS 1 BadCharacter\n"
CHECKED = f"file ct\\.dcm\ngood 336\nfile control\\.dcm\n{NOTE}good 312\n"
# A strict check also notes that SOP and Study Instance UID are missing.
STRICT = (
    f"note 0000000288 0008,0018 UI 21 MissingUid\n{NOTE}"
    "note 0000000312 0020,000d UI 21 MissingUid\ngood 312"
)
MODALITY = "0000000288 0008,0060 CS 4 Modality"
BELOW = (
    f"file many/I0000001\ngood 336\nfile many/I0000002\n{NOTE}good 312\n"
    f"file many/deeper/I0000001\n{CUT_FAULT}\n"
)


def counts(files, good=0, faulty=0, unread=0, notes=0):
    """Returns the last line of a check of several files."""
    return f"files {files} good {good} faulty {faulty} unread {unread} notes {notes}"


@pytest.fixture
def many(put, work):
    """A folder with a good file, one with a note, a truncated one in a folder, and something that is not a file."""
    put(
        {
            "many/I0000001": CT_FILE,
            "many/I0000002": SAMPLES["control.dcm"],
            "many/deeper/I0000001": SAMPLES["cut.dcm"],
        }
    )
    (work / "many/deeper/empty").mkdir()
    (work / "many/up").symlink_to(work)
    (work / "many/linked").symlink_to("../ct.dcm")


@pytest.mark.parametrize(
    "status, output, errors, arguments",
    cases(
        (
            "two files are checked",
            0,
            CHECKED + counts(2, good=2, notes=1),
            "",
            "check ct.dcm control.dcm",
        ),
        (
            "a cut file among others",
            1,
            f"{CHECKED}file cut\\.dcm\n{CUT_FAULT}\n" + counts(3, good=2, faulty=1, notes=1),
            "",
            "check ct.dcm control.dcm cut.dcm",
        ),
        (
            "two files are shown",
            1,
            f"file ct\\.dcm\n{LISTING}end 336\nfile cut\\.dcm\n{LISTING}{CUT_FAULT}",
            "",
            "show ct.dcm cut.dcm",
        ),
        (
            "a missing file among others",
            3,
            "file missing\\.dcm\nfile ct\\.dcm\ngood 336\n" + counts(2, good=1, unread=1),
            r"dcmbox: missing\.dcm: the file can.t be opened: .*check its name.*"
            "\ndcmbox: a file or a folder can.t be read, as is told above",
            "check missing.dcm ct.dcm",
        ),
        (
            "the files in a folder",
            1,
            BELOW + counts(3, good=2, faulty=1, notes=1),
            "dcmbox: links passed over 2",
            "check -r many",
        ),
        (
            "a folder whose name ends with a slash, and a file",
            1,
            f"{BELOW}file ct\\.dcm\ngood 336\n" + counts(4, good=3, faulty=1, notes=1),
            "dcmbox: links passed over 2",
            "check many/ --recursive ct.dcm",
        ),
        ("an empty folder", 0, counts(0), "", "check -r many/deeper/empty"),
        (
            "one file where folders may be",
            0,
            "file ct\\.dcm\ngood 336\n" + counts(1, good=1),
            "",
            "check -r ct.dcm",
        ),
        (
            "a missing folder",
            3,
            "file missing\n" + counts(1, unread=1),
            "dcmbox: missing: the file can.t be opened: .*\ndcmbox: missing: a file .*",
            "check -r missing",
        ),
        (
            "a folder among files",
            3,
            "file many\nfile ct\\.dcm\ngood 336\n" + counts(2, good=1, unread=1),
            "dcmbox: many: it is a folder; -r takes the files in it\n"
            "dcmbox: many: the file can.t be read: Is a directory.*",
            "check many ct.dcm",
        ),
        ("a strict check", 1, STRICT, "", "check --strict control.dcm"),
        ("a strict check without notes", 0, "good 788", "", "check --strict directory.bin"),
        (
            "a strict check of two files",
            1,
            f"file directory\\.bin\ngood 788\nfile control\\.dcm\n{STRICT}\n" + counts(2, good=2, notes=3),
            "",
            "check --strict directory.bin control.dcm",
        ),
    ),
)
@pytest.mark.usefixtures("many")
def test_files(expect, status, output, errors, arguments):
    expect(status, output, errors, *arguments.split())


@pytest.mark.usefixtures("many")
def test_a_name_with_control_characters(expect, put):
    put({"many/deeper/empty/a\33[mb": b""})
    output = "file many/deeper/empty/a\\?\\[mb\nfault 50 NotPart10 at 128\n" + counts(1, faulty=1)
    expect(1, output, "", "check", "-r", "many/deeper/empty")


@pytest.mark.parametrize("command", ["check", "show"])
def test_a_name_that_is_not_utf_8(run, put, command):
    """The program reports that file and reads the others, before it and after it."""
    put({"in/a": CT_FILE, "in/b\udcffc": CT_FILE, "in/d": CT_FILE, "in/e/f": CT_FILE})
    done = run(command, "-r", "in")
    assert done.returncode == 3
    assert re.findall("^file (.*)$", done.stdout, re.M) == ["in/a", "in/d", "in/e/f"]
    first, last = done.stderr.splitlines()
    assert re.fullmatch(r"dcmbox: in/b\?c: the file can't be opened: invalid filename; .*", first)
    assert last.endswith(": a file or a folder can't be read, as is told above")
    if command == "check":
        assert done.stdout.endswith(counts(4, good=3, unread=1) + "\n")


@pytest.mark.parametrize("command", ["check", "show"])
def test_an_object_of_an_unread_file(run, put, command):
    """A file in a folder that can't be opened has an object, too."""
    put({"in/a": CT_FILE, "in/b\udcffc": CT_FILE})
    done = run(command, "-r", "--json", "in")
    found = [json.loads(line) for line in done.stdout.splitlines()]
    assert done.returncode == 3 and found[0] == {"file": "in/b?c", "result": "unread"}
    assert [one["file"] for one in found[1:]] == ["in/a"]


@pytest.mark.parametrize("command", ["check", "show"])
def test_drafts(run, put, command):
    """Files that are still being written are skipped in a folder, and read as arguments."""
    put({f"in/{name}": b"x" for name in ("DRAFT", "DRAFT12", "DIRDRAFT", ".DRAFT", "S0000001/DRAFT")})
    put({"in/a": CT_FILE, "in/DRAFTED": CT_FILE})
    done = run(command, "-r", "in")
    assert (done.returncode, done.stderr) == (0, "")
    assert re.findall("^file (.*)$", done.stdout, re.M) == ["in/DRAFTED", "in/a"]
    assert run(command, "in/DRAFT").returncode == 1


class TestOtherFiles:
    """Files that are not DICOM files are skipped with --ignore-others."""

    FILES = {"in/a": CT_FILE, "in/README": b"text", "in/deeper/Thumbs.db": bytes(200)}

    def test_they_are_faulty(self, run, put):
        put(self.FILES)
        done = run("check", "-r", "in")
        assert (done.returncode, done.stderr) == (1, "")
        assert done.stdout.endswith(counts(3, good=1, faulty=2) + "\n")

    def test_they_are_skipped(self, expect, put):
        put(self.FILES)
        output = "file in/a\ngood 336\n" + counts(1, good=1)
        expect(0, output, "dcmbox: ignored 2", "check", "-r", "--ignore-others", "in")

    def test_an_empty_file_is_not_skipped(self, run, put):
        put({**self.FILES, "in/b": b""})
        done = run("check", "-r", "--ignore-others", "in")
        assert (done.returncode, done.stderr) == (1, "dcmbox: ignored 2\n")
        assert done.stdout.endswith(counts(2, good=1, faulty=1) + "\n")

    def test_an_unreadable_file_is_not_skipped(self, expect, put):
        put(self.FILES)
        output = "file missing\nfile in/a\ngood 336\n" + counts(2, good=1, unread=1)
        errors = "dcmbox: missing: .*\ndcmbox: ignored 1\ndcmbox: a file .*"
        arguments = "check --ignore-others missing in/a in/README"
        expect(3, output, errors, *arguments.split())

    def test_a_truncated_one_is_faulty(self, run, put):
        put({**self.FILES, "in/b": SAMPLES["cut.dcm"]})
        done = run("check", "-r", "--ignore-others", "in")
        assert done.returncode == 1 and done.stdout.endswith(counts(2, good=1, faulty=1) + "\n")


class TestWholeValues:
    """Values of more than 64 bytes."""

    TEXT = "ORIGINAL\\" * 30 + "AXIAL "
    LONG = HEADER + element((0x08, 0x08), "CS", TEXT.encode()) + element((0x28, 0x10), "US", b"\1\0")

    def test_as_their_length(self, run, put):
        put({"long.dcm": self.LONG})
        shown = run("show", "--values", "long.dcm").stdout
        assert f"           = ({len(self.TEXT)} bytes)\n" in shown

    @pytest.mark.parametrize("options", [["--full"], ["--full", "--values"]])
    def test_whole(self, run, put, options):
        put({"long.dcm": self.LONG})
        lines = run("show", *options, "long.dcm").stdout.splitlines()
        assert "           = " + self.TEXT.strip() in lines and "           = 1" in lines

    def test_as_json(self, run, put):
        put({"long.dcm": self.LONG})
        found = json.loads(run("show", "--json", "--values", "long.dcm").stdout)
        assert [one["value"] for one in found["elements"]] == [self.TEXT.strip(), "1"]

    @pytest.mark.parametrize("size, is_whole", [(65536, True), (65538, False)])
    def test_the_longest(self, run, put, size, is_whole):
        data = b"\x04\0\x20\x04UN\0\0" + size.to_bytes(4, "little") + b"\7" * size
        put({"long.dcm": HEADER + data})
        shown = run("show", "--full", "long.dcm").stdout.splitlines()[-2]
        value = "\\".join(["07"] * size) if is_whole else f"({size} bytes)"
        assert shown == f"           = {value}"
        found = json.loads(run("show", "--json", "--values", "long.dcm").stdout)["elements"][0]
        assert ("value" in found) is is_whole
        assert (found["length"], found.get("cut", False)) == (size, not is_whole)


class TestGroup2:
    """The file meta information as elements."""

    LINES = [
        "0000000132 0002,0000 UL 4 FileMetaInformationGroupLength",
        "0000000144 0002,0001 OB 2 FileMetaInformationVersion",
        "0000000158 0002,0002 UI 26 MediaStorageSOPClassUID",
        "0000000192 0002,0003 UI 6 MediaStorageSOPInstanceUID",
        "0000000206 0002,0010 UI 20 TransferSyntaxUID",
        "0000000234 0002,0012 UI 14 ImplementationClassUID",
        "0000000256 0002,0013 SH 8 ImplementationVersionName",
        "0000000272 0002,0016 AE 8 SourceApplicationEntityTitle",
    ]

    def test_without_options(self, run):
        assert run("show", "ct.dcm").stdout == f"{LISTING}end 336\n"

    def test_listed(self, expect):
        output = SHOWN + "\n".join(self.LINES) + "\n" + ELEMENTS + "end 336"
        expect(0, output, "", "show", "--meta", "ct.dcm")

    def test_values(self, run):
        lines = run("show", "--meta", "--values", "ct.dcm").stdout.splitlines()
        assert lines[lines.index(self.LINES[4]) + 1] == "           = 1.2.840.10008.1.2.1"
        assert lines[lines.index(self.LINES[0]) + 1] == "           = 144"

    @pytest.mark.parametrize("tag", ["0002,0010", "TransferSyntaxUID"])
    def test_an_element(self, expect, tag):
        output = f"{self.LINES[4]}\n           = 1.2.840.10008.1.2.1"
        expect(0, output, "", "show", "--values", "--tag", tag, "ct.dcm")

    def test_as_json(self, run):
        found = json.loads(run("show", "--json", "--meta", "ct.dcm").stdout)
        assert [one["tag"][:4] for one in found["elements"]] == ["0002"] * 8 + ["0008"] * 2

    def test_a_fault_of_the_header(self, expect, put):
        put({"broken.dcm": CT_FILE[:200]})
        expect(1, "fault 51 BadMeta at 132", ".*", "show", "--meta", "broken.dcm")


class TestStandardInput:
    """Files on standard input."""

    @pytest.fixture
    def check_input(self, run, work):
        """Runs the program with a file as its standard input."""

        def done(name, *arguments):
            with open(work / name) as file:
                return run(*arguments, stdin=file)

        return done

    def test_is_checked(self, check_input):
        assert check_input("ct.dcm", "check", "-").stdout == "good 336\n"

    def test_a_cut_file(self, check_input):
        done = check_input("cut.dcm", "check", "-")
        assert (done.returncode, done.stdout) == (1, CUT_FAULT + "\n")

    def test_among_others(self, run):
        shown = run("show", "-", "cut.dcm", text=False, input=CT_FILE).stdout.decode()
        heads = r"^(file (?:-|cut.dcm)|end 336|fault 20 .*)$"
        assert len(re.findall(heads, shown, re.M)) == 4

    def test_another_transfer_syntax(self, check_input):
        done = check_input("big.dcm", "check", "-")
        assert done.returncode == 1
        assert done.stderr.startswith("dcmbox: -: its transfer syntax is ExplicitVRBigEndian")


@pytest.mark.parametrize(
    "status, output, arguments",
    cases(
        (
            "values",
            0,
            r"class 1\.2\.840\.10008\.5\.1\.4\.1\.1\.2"
            "\ninstance 1\\.2\\.3\nsyntax 1\\.2\\.840\\.10008\\.1\\.2\\.1"
            "\n0000000288 0008,0016 UI 26 SOPClassUID"
            "\n           = 1\\.2\\.840\\.10008\\.5\\.1\\.4\\.1\\.1\\.2"
            "\n0000000322 0008,0018 UI 6 SOPInstanceUID"
            "\n           = 1\\.2\\.3\nend 336",
            "--values ct.dcm",
        ),
        (
            "control characters of values",
            0,
            "0000000288 0008,0060 CS 4 Modality\n           = c%1b\\[m\n"
            "0000000300 0009,1001 LT 4 \\?\n           = %1b\\[2J",
            "--values --tag 0008,0060 --tag 0009,1001 control.dcm",
        ),
        (
            "one element",
            0,
            "0000000322 0008,0018 UI 6 SOPInstanceUID\n           = 1\\.2\\.3",
            "--values --tag 0008,0018 ct.dcm",
        ),
        ("two elements", 0, ELEMENTS.strip(), "--tag 0008,0018 --tag 0008,0016 ct.dcm"),
        ("a tag without comma", 0, MODALITY, "--tag 00080060 control.dcm"),
        ("a tag in parentheses", 0, MODALITY, "--tag (0008,0060) control.dcm"),
        ("a keyword", 0, MODALITY, "--tag Modality control.dcm"),
        ("a keyword and a tag", 0, ELEMENTS.strip(), "--tag SOPInstanceUID --tag 00080016 ct.dcm"),
        ("an element of a cut file", 1, CUT_FAULT, "--tag 0010,0010 cut.dcm"),
    ),
)
def test_values(expect, status, output, arguments):
    expect(status, output, "", "show", *arguments.split())


@pytest.mark.parametrize(
    "text", ["10", "0010;0020", "(0010,0020", "patientname", "Patient", "OverlayData", "0010,002"]
)
def test_no_tag(expect, text):
    expected = "a tag as 0010,0020 or its keyword as PatientID"
    errors = f"error: --tag takes {expected}, not '{re.escape(text)}'.*"
    expect(2, "", errors, "show", "--tag", text, "ct.dcm")


def test_keywords_of_the_standard(run, put):
    """`show` with every tenth keyword of PS3.6, as pydicom has it, shows only its element."""
    pydicom = pytest.importorskip("pydicom")
    rows = [(row[4], tag) for tag, row in sorted(pydicom._dicom_dict.DicomDictionary.items())]
    rows = [(keyword, tag) for keyword, tag in rows if keyword and 2 < tag >> 16 < 0xFFFE]
    assert len({keyword for keyword, _ in rows}) == len(rows) > 4000
    rows = rows[::10]
    for start in range(0, len(rows), 50):
        part = rows[start : start + 50]
        data = b"".join(element((tag >> 16, tag & 0xFFFF), "UN", b"") for _, tag in part)
        put({"part.dcm": HEADER + data})
        half = part[::2]
        done = run("show", *(argument for row in half for argument in ("--tag", row[0])), "part.dcm")
        found = [line.split()[1].replace(",", "") for line in done.stdout.splitlines()]
        assert found == [f"{tag:08x}" for _, tag in half], done.stderr


class TestNotedValues:
    """Keywords and values with notes and faults."""

    def test_of_a_note(self, expect):
        value = r"           Modality = c%1b\[m\n"
        expect(0, f"{NOTE}{value}good 312", "", "check", "--values", "control.dcm")

    def test_of_a_fault(self, expect):
        keyword = "           SOPInstanceUID"
        expect(1, f"{CUT_FAULT}\n{keyword}", "", "check", "--values", "cut.dcm")

    def test_of_several_files(self, expect):
        value = r"           Modality = c%1b\[m\n"
        output = CHECKED.replace(NOTE, NOTE + value) + counts(2, good=2, notes=1)
        expect(0, output, "", "check", "--values", "ct.dcm", "control.dcm")

    def test_as_json(self, run):
        found = json.loads(run("check", "--json", "--values", "control.dcm").stdout)
        assert (found["notes"][0]["keyword"], found["notes"][0]["value"]) == ("Modality", "c%1b[m")
        fault = json.loads(run("check", "--json", "cut.dcm").stdout)
        assert fault["keyword"] == "SOPInstanceUID"


META = ["check", "show"]


class TestFileMetaInformation:
    """Standard error names the rule of the file meta information that a file breaks."""

    @pytest.mark.parametrize("command", META)
    @pytest.mark.parametrize(
        "offset, data, rule",
        cases(
            ("no length", 134, b"\1", "group 0002 does not begin with its length"),
            ("a length too short", 140, b"\x8f", "the length of group 0002 ends inside an element"),
            ("a length too long", 140, b"\xa2", "0008,0016 SOPClassUID stands within the length .*"),
            ("a VR in lower case", 148, b"o", "an element of group 0002 has no VR"),
            ("an odd length", 152, b"\3", "0002,0001 FileMetaInformationVersion has an odd .*"),
            ("no class", 166, b"x", "0002,0002 MediaStorageSOPClassUID is missing or no UID"),
            ("tags that don't rise", 160, b"\1", "0002,0001 .* does not rise above the tag before it"),
        ),
    )
    def test_broken(self, expect, put, command, offset, data, rule):
        put({"broken.dcm": CT_FILE[:offset] + data + CT_FILE[offset + len(data) :]})
        errors = f"dcmbox: broken.dcm: its file meta information is wrong: {rule}"
        expect(1, "fault 51 BadMeta at 132", errors, command, "broken.dcm")

    def test_cut(self, expect, put):
        put({"broken.dcm": CT_FILE[:200]})
        errors = ".* wrong: the file ends inside group 0002"
        expect(1, "fault 51 BadMeta at 132", errors, "check", "broken.dcm")

    @pytest.mark.parametrize(
        "name, rule",
        [
            ("meta_missing_tsyntax.dcm", "0002,0002 MediaStorageSOPClassUID is missing or no UID"),
            ("no_meta_group_length.dcm", "group 0002 does not begin with its length"),
        ],
    )
    def test_of_pydicom(self, expect, name, rule):
        pytest.importorskip("pydicom")
        from pydicom.data import get_testdata_file

        path = get_testdata_file(name)
        errors = f"dcmbox: .*{name}: its file meta information is wrong: {rule}"
        expect(1, "fault 51 BadMeta at 132", errors, "check", path)

    def test_as_json(self, run, put):
        put({"broken.dcm": CT_FILE[:200]})
        done = run("check", "--json", "broken.dcm")
        assert json.loads(done.stdout)["number"] == 51 and "ends inside" in done.stderr


def test_a_check_as_json(run):
    done = run("check", "--json", "control.dcm")
    note = (
        '{"place":288,"tag":"0008,0060","vr":"CS","number":1,"name":"BadCharacter",'
        '"keyword":"Modality"}'
    )
    message = f'{{"file":"control.dcm","notes":[{note}],"result":"good","length":312}}\n'
    assert (done.returncode, done.stdout, done.stderr) == (0, message, "")


def test_json_of_several_files(run, put):
    put({'a"b\\.dcm': CT_FILE})
    names = ["ct.dcm", "control.dcm", "cut.dcm", 'a"b\\.dcm', "missing.dcm", "."]
    done = run("check", "--json", *names)
    objects = [json.loads(line) for line in done.stdout.splitlines()]
    assert done.returncode == 3
    assert [one["file"] for one in objects] == names
    results = ["good", "good", "fault", "good", "unread", "unread"]
    assert [one["result"] for one in objects] == results
    fault = objects[2]
    assert (fault["number"], fault["place"], fault["tag"]) == (20, 330, "0008,0018")
    assert "notes" not in objects[4] and objects[5]["notes"] == []


def test_json_of_elements(run):
    done = run("show", "--json", "--values", "ct.dcm", "cut.dcm", "header.dcm", ".")
    good, cut, header, folder = [json.loads(line) for line in done.stdout.splitlines()]
    assert done.returncode == 3
    assert (good["instance"], good["length"]) == ("1.2.3", 336)
    assert [one["value"] for one in good["elements"]] == ["1.2.840.10008.5.1.4.1.1.2", "1.2.3"]
    assert cut["result"] == "fault" and "value" not in cut["elements"][1]
    assert [one["keyword"] for one in cut["elements"]] == ["SOPClassUID", "SOPInstanceUID"]
    assert header["elements"] == [] and folder["result"] == "unread"


@pytest.mark.parametrize("command", ["check", "show"])
def test_another_transfer_syntax(expect, command):
    syntax = r"ExplicitVRBigEndian \(1\.2\.840\.10008\.1\.2\.2\)"
    errors = rf"dcmbox: big\.dcm: its transfer syntax is {syntax}, which is not taken"
    expect(1, "fault 53 OtherSyntax at 132", errors, command, "big.dcm")


@pytest.mark.parametrize("command", ["check", "show"])
def test_a_compressed_transfer_syntax(run, put, command):
    """The message names the option that accepts the transfer syntax."""
    put({"rle.dcm": changed(CT_FILE, 232, b"5")})
    done = run(command, "rle.dcm")
    syntax = "RLELossless (1.2.840.10008.1.2.5)"
    message = f"dcmbox: rle.dcm: its transfer syntax is {syntax}, which is not taken; --all-syntaxes takes it\n"
    assert (done.returncode, done.stdout, done.stderr) == (1, "fault 53 OtherSyntax at 132\n", message)
    assert run(command, "--all-syntaxes", "rle.dcm").returncode == 0


def test_files_are_counted_on_a_terminal(program, work):
    need("script")
    command = f"'{program}' check ct.dcm control.dcm ct.dcm >out.txt"
    done = subprocess.run(
        ["script", "-qec", command, "/dev/null"],
        cwd=work,
        stdin=subprocess.DEVNULL,
        capture_output=True,
        timeout=PATIENCE,
    )
    assert b"\rfiles 2" in done.stdout
    last = (work / "out.txt").read_text().splitlines()[-1]
    assert last == counts(3, good=3, notes=1)


def test_files_are_not_counted_elsewhere(run):
    assert "files" not in run("check", "ct.dcm", "control.dcm").stderr


def test_a_large_file_in_little_memory(run, work):
    """A value of 1 GiB, which uses no space on the disk, with 16 MB of memory."""
    with open(work / "large.dcm", "wb") as file:
        file.write(SAMPLES["header.dcm"] + b"\340\177\20\0OW\0\0\0\0\0\100")
        file.truncate(288 + 12 + (1 << 30))
    assert run("check", "large.dcm", memory=LITTLE).stdout == "good 1073742124\n"


@pytest.mark.parametrize("command", ["replay large.bin --out .", "checkdir large.bin"])
def test_too_little_memory(expect, work, command):
    """A recording of 1 GiB, which uses no space on the disk, with 400 MB of memory."""
    with open(work / "large.bin", "wb") as file:
        file.truncate(1 << 30)
    errors = "dcmbox: large.bin: out of memory; give the program more"
    expect(3, "", errors, *command.split(), memory=400000)
