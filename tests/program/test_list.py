"""The studies that `list` finds in a folder: of generated images, of pydicom's test files, and of 20,000 files."""
import contextlib
import json
import os
import pathlib
import pty
import re
import subprocess

import pytest
from box import PATIENCE
from images import need
from peer import element
from samples import DIRECTORY, HEADER, cases
from studies import folder_of_images, image, measured

FOUR = {
    "in/I0000001": image(),
    "in/I0000002": image(instance="1.2.3.1.2", number="2"),
    "in/S0000001/I0000001": image(
        instance="1.2.3.10.1",
        series="1.2.3.10",
        series_number="10",
        modality="PR",
        description=None,
    ),
    "in/I0000003": image(
        instance="1.2.4.1.1",
        study="1.2.4",
        series="1.2.4.1",
        date="20251231",
        name=None,
        patient="P 2",
    ),
}
STUDY = "20260101\tP1\tDOE^JANE\tCT\\PR\t2\t3\t1.2.3"
OTHER = "20251231\tP 2\t-\tCT\t1\t1\t1.2.4"


def test_a_line_for_each_study(expect, put):
    put(FOUR)
    expect(0, f"{OTHER}\n{STUDY}".replace("\\", "\\\\").replace("^", "\\^"), "", "list", "in")


@pytest.mark.parametrize("slash", ["", "/"])
def test_series_and_files(run, put, slash):
    put(FOUR)
    series = ["  1\tCT\tHEAD\t2\t1.2.3.1", "  10\tPR\t-\t1\t1.2.3.10"]
    other = "  1\tCT\tHEAD\t1\t1.2.4.1"
    lines = run("list", "in" + slash, "--series").stdout.splitlines()
    assert lines == [OTHER, other, STUDY, *series]
    files = ["    1\t1.2.3.1.1\tin/I0000001", "    2\t1.2.3.1.2\tin/I0000002"]
    assert run("list", "in" + slash, "--instances").stdout.splitlines() == [
        *(OTHER, other, "    1\t1.2.4.1.1\tin/I0000003"),
        *(STUDY, series[0], *files, series[1], "    1\t1.2.3.10.1\tin/S0000001/I0000001"),
    ]


def test_one_object(run, put):
    put({**FOUR, "in/notes.txt": b"no image"})
    done = run("list", "in", "--json")
    study = {
        "study": "1.2.3",
        "date": "20260101",
        "patient_id": "P1",
        "patient_name": "DOE^JANE",
        "modalities": ["CT", "PR"],
        "series_count": 2,
        "image_count": 3,
    }
    other = {**study, "study": "1.2.4", "date": "20251231", "patient_id": "P 2"}
    other.update(patient_name=None, modalities=["CT"], series_count=1, image_count=1)
    whole = json.dumps({"studies": [other, study], "left_out": 1}, separators=(",", ":")) + "\n"
    assert (done.returncode, done.stdout) == (1, whole)
    found = json.loads(run("list", "in", "--json", "--instances").stdout)
    assert list(found["studies"][1]) == [*study, "series"]
    assert list(found["studies"][1]["series"][1]) == "series number modality description image_count instances".split()
    assert found["studies"][1]["series"][1] == {
        "series": "1.2.3.10",
        "number": "10",
        "modality": "PR",
        "description": None,
        "image_count": 1,
        "instances": [
            {"instance": "1.2.3.10.1", "number": "1", "file": "in/S0000001/I0000001"}
        ],
    }
    series = json.loads(run("list", "in", "--json", "--series").stdout)["studies"][1]["series"]
    assert [row["number"] for row in series] == ["1", "10"] and "instances" not in series[0]


def test_several_folders(run, put):
    """Several folders have one listing, also if a study is in two of them; a missing one is reported."""
    whole = run("list", put(FOUR).parent, "--json").stdout
    for index, (name, data) in enumerate(FOUR.items()):
        put({f"{index % 2}{name.removeprefix('in')}": data})
    done = run("list", "0", "1/", "--json")
    assert (done.returncode, done.stdout, done.stderr) == (0, whole, "")
    put({"2/notes": b"text"})
    done = run("list", "2", "missing", "1", "0", "--json", "--ignore-others")
    assert (done.returncode, done.stdout) == (3, whole.replace('left_out":0', 'left_out":1'))
    first, second, last = done.stderr.splitlines()
    assert re.fullmatch("dcmbox: missing: the folder can't be opened: .*", first)
    assert second == "dcmbox: ignored 1" and last.endswith("can't be read, as is told above")


def test_files_with_a_value(run, put):
    """A condition matches one value of a text, without padding; other files are not reported; all conditions have to match."""
    put({**FOUR, "in/two": image(study="1.5", patient="A\\P1 \\B", comment="y" * 256, name="M\u00fcller")})

    def studies(*conditions):
        done = run("list", "in", *(argument for text in conditions for argument in ("--where", text)))
        assert (done.returncode, done.stderr) == (0, "")
        return [(line.split("\t")[-1], line.split("\t")[5]) for line in done.stdout.splitlines()]

    both = [("1.2.3", "3"), ("1.5", "1")]
    assert studies("PatientID=P1") == studies("0010,0020=P1 ") == both
    assert studies("PatientID=P1", "Modality=CT") == [("1.2.3", "2"), ("1.5", "1")]
    assert studies("PatientID=P1", "Modality=CT", "PatientID=B") == studies("PatientID=B") == [both[1]]
    assert studies(*["StudyInstanceUID=1.2.4"] * 8) == [("1.2.4", "1")]
    assert studies("SeriesDescription=", "Modality=PR") == [("1.2.3", "1")]
    for none in ("PatientID=p1", "PatientID=P", "PatientID=A\\P1", f"ImageComments={'y' * 256}", "PatientName=Müller"):
        assert studies(none) == []
    put({"in/three": image(study="1.6", comment="y" * 254)})
    assert studies(f"ImageComments={'y' * 254}") == [("1.6", "1")]
    put({"in/notes": b"text", "in/cut": image()[:300]})
    found = json.loads(run("list", "in", "--json", "--where", "PatientID=x").stdout)
    assert found == {"studies": [], "left_out": 2}


@pytest.mark.parametrize(
    "condition, error",
    [
        ("PatientID", "KEYWORD=VALUE, as PatientID=P1, not 'PatientID'"),
        ("Nonsense=1", "a tag as 0010,0020 or its keyword as PatientID, not 'Nonsense'"),
        ("Rows=512", "an element of the data set whose value is text, not 'Rows'"),
        ("TransferSyntaxUID=1.2", "an element of the data set .*, not 'TransferSyntaxUID'"),
    ],
)
def test_a_rejected_condition(expect, condition, error):
    expect(2, "", f"error: --where takes {error}", "list", ".", "--where", condition)


def test_too_many_conditions(expect):
    arguments = ["--where", "PatientID=1"] * 9
    expect(2, "", "error: --where may be given 8 times at most", "list", ".", *arguments)


def test_further_columns(run, put):
    """The values of each line's first file, in the order given; a value that the file does not have is empty."""
    put({**FOUR, "in/S0000001/I0000001": image(instance="1.2.3.10.1", series="1.2.3.10", comment="a\tb%\xe9 ")})
    plain = run("list", "in", "--instances").stdout.splitlines()
    done = run("list", "in", "--instances", "--columns", "ImageComments,00100020,InstanceNumber")
    assert (done.returncode, done.stderr) == (0, "")
    added = [line.removeprefix(old) for line, old in zip(done.stdout.splitlines(), plain, strict=True)]
    assert added[:3] == ["\t\tP 2\t1"] * 3
    assert added[5:] == ["\t\tP1\t1", "\t\tP1\t2", *["\ta%09b%25%e9\tP1\t1"] * 2]
    # The first file of the study, in the order in which the system lists them, is that of its first series.
    assert added[3] == added[4] and added[3] in added[5:7]
    assert run("list", "in", "--columns", "StudyID").stdout == "".join(
        f"{line}\t\n" for line in run("list", "in").stdout.splitlines()
    )
    longest = {"in/long": image(study="1.9", comment="y" * 300)}
    put(longest)
    lines = run("list", "in", "--where", "StudyInstanceUID=1.9", "--columns", "ImageComments").stdout
    assert lines.endswith("\t1.9\t" + "y" * 256 + "\n")


def test_further_columns_in_json(run, put):
    """They are an object with the keywords as names, in the order given."""
    put({"in/a": image(name="M\xfcller", comment="\xe9", number=None)})
    names = "PatientName,InstanceNumber,PatientID"
    done = run("list", "in", "--json", "--instances", "--columns", names)
    study = json.loads(done.stdout)["studies"][0]
    series = study["series"][0]
    instance = series["instances"][0]
    values = {"PatientName": "M%fcller", "InstanceNumber": None, "PatientID": "P1"}
    assert study["columns"] == series["columns"] == instance["columns"] == values
    assert list(study["columns"]) == names.split(",")
    with_one = json.loads(run("list", "in", "--json", "--columns", "Modality").stdout)["studies"][0]
    assert with_one.pop("columns") == {"Modality": "CT"}
    assert with_one == json.loads(run("list", "in", "--json").stdout)["studies"][0]


def test_eight_columns_and_conditions(run, put):
    """All values that can be asked for are read of a file that has them: the listed, of eight conditions, of eight columns."""
    listed = {
        (0x08, 0x05): ("CS", b"ISO_IR 100"),
        (0x08, 0x18): ("UI", b"1.2.3.45"),
        (0x08, 0x20): ("DA", b"20260101"),
        (0x08, 0x60): ("CS", b"CT"),
        (0x08, 0x103E): ("LO", b"HEAD"),
        (0x10, 0x10): ("PN", b"D\xd6"),
        (0x10, 0x20): ("LO", b"P1"),
        (0x20, 0x0D): ("UI", b"1.2.3\0"),
        (0x20, 0x0E): ("UI", b"1.2.3.1\0"),
        (0x20, 0x11): ("IS", b"1 "),
        (0x20, 0x13): ("IS", b"2 "),
    }
    conditions = {
        "AccessionNumber": ((0x08, 0x50), "SH"),
        "Manufacturer": ((0x08, 0x70), "LO"),
        "InstitutionName": ((0x08, 0x80), "LO"),
        "StationName": ((0x08, 0x1010), "SH"),
        "StudyDescription": ((0x08, 0x1030), "LO"),
        "PatientSex": ((0x10, 0x40), "CS"),
        "PatientAge": ((0x10, 0x1010), "AS"),
        "PatientComments": ((0x10, 0x4000), "LT"),
    }
    columns = {
        "ImageComments": ((0x20, 0x4000), "LT"),
        "BodyPartExamined": ((0x18, 0x15), "CS"),
        "SoftwareVersions": ((0x18, 0x1020), "LO"),
        "ProtocolName": ((0x18, 0x1030), "LO"),
        "PatientPosition": ((0x18, 0x5100), "CS"),
        "StudyID": ((0x20, 0x10), "SH"),
        "FrameOfReferenceUID": ((0x20, 0x52), "UI"),
        "Laterality": ((0x20, 0x60), "CS"),
    }
    named = {tag: (vr, keyword.encode().ljust(254, b"x")) for keyword, (tag, vr) in {**conditions, **columns}.items()}
    elements = sorted({**listed, **named}.items())
    put({"in/a": HEADER + b"".join(element(tag, vr, value) for tag, (vr, value) in elements)})
    asked = [argument for name in conditions for argument in ("--where", f"{name}={name.ljust(254, 'x')}")]
    done = run("list", "in", "--instances", *asked, "--columns", ",".join(columns))
    values = "".join("\t" + name.ljust(254, "x") for name in columns)
    assert (done.returncode, done.stderr) == (0, "")
    study, series, instance = done.stdout.splitlines()
    assert study == f"20260101\tP1\tD%d6\tCT\t1\t1\t1.2.3{values}"
    assert series == f"  1\tCT\tHEAD\t1\t1.2.3.1{values}" and instance == f"    2\t1.2.3.45\tin/a{values}"
    done = run("list", "in", "--json", "--columns", "PatientName,StudyDate")
    assert json.loads(done.stdout)["studies"][0]["columns"] == {"PatientName": "D\u00d6", "StudyDate": "20260101"}


@pytest.mark.parametrize(
    "columns, error",
    [
        ("Nonsense", "takes keywords as PatientID, or tags as 00100020, not 'Nonsense'"),
        ("", "takes keywords as PatientID, or tags as 00100020, not ''"),
        ("Modality,", "takes keywords as PatientID, or tags as 00100020, not ''"),
        ("Modality,Rows", "takes elements of the data set whose value is text, not 'Rows'"),
        ("TransferSyntaxUID", "takes elements of the data set whose value is text, not 'TransferSyntaxUID'"),
        ("Modality,StudyID,Modality", "has 'Modality' twice"),
        ("PatientID,00100020", "has '00100020' twice"),
        (
            "Modality,StudyID,StudyDate,StudyTime,PatientID,PatientName,PatientSex,PatientAge,PatientSize",
            "takes 8 keywords at most",
        ),
    ],
)
def test_rejected_columns(expect, columns, error):
    expect(2, "", f"error: --columns {error}", "list", ".", "--columns", columns)


def test_the_order_is_numeric(run, put):
    """10 follows 2, equal numbers are ordered by UID, and missing numbers are last; studies are ordered by date."""
    numbers = ["10", "2", "1", None, "-1", "2 ", "x"]
    for index, number in enumerate(numbers):
        put({f"in/i{index}": image(instance=f"1.5.{9 - index}", number=number)})
        series = f"1.2.3.{30 - index}"
        put({f"in/s{index}": image(instance=f"1.6.{index}", series=series, series_number=number)})
    put({"in/z": image(study="1.1", instance="1.7", date="20260102")})
    lines = run("list", "in", "--instances").stdout.splitlines()
    order = ["-1", "1", "2", "2", "10", "x", "-"]
    rows = [line.split("\t") for line in lines]
    first = rows.index(["  1", "CT", "HEAD", "7", "1.2.3.1"])
    assert [row[0].strip() for row in rows[first + 1 : first + 8]] == order
    assert [row[1] for row in rows[first + 3 : first + 5]] == ["1.5.4", "1.5.8"]
    listed = [row[0].strip() for row in rows if row[0][:2] == "  " and row[0][2] != " "]
    assert [number for number in listed[:-1] if number != "1"] == [n for n in order if n != "1"]
    assert [row[-1] for row in rows if row[0][0] != " "] == ["1.2.3", "1.1"]


def test_a_study_of_several_patients(run, put):
    put({"in/a": image(), "in/b": image(instance="1.2.3.1.2", patient="P2")})
    put({"in/c": image(study="1.9"), "in/d": image(study="1.9", patient="P1 ")})
    done = run("list", "in")
    assert (done.returncode, done.stdout.count("\n")) == (0, 2)
    assert done.stderr == "dcmbox: study 1.2.3: its files have several Patient IDs\n"
    studies = json.loads(run("list", "in", "--json").stdout)["studies"]
    assert [study.get("several_patients") for study in studies] == [True, None]


@pytest.mark.parametrize("form", ["", "--json"])
def test_an_empty_folder(run, work, form):
    (work / "in").mkdir()
    done = run("list", "in", *form.split())
    expected = '{"studies":[],"left_out":0}\n' if form else ""
    assert (done.returncode, done.stdout, done.stderr) == (0, expected, "")


@pytest.mark.parametrize(
    "name, data, fault",
    cases(
        ("a text", "notes.txt", b"no image" * 40, "fault 50 NotPart10 at 128"),
        ("an empty file", "empty", b"", "fault 50 NotPart10 at 128"),
        (
            "cut off before the keys",
            "cut.dcm",
            image()[:342],
            "fault 20 Truncated at 342 tag 0008,103e",
        ),
        (
            "a fault before the keys",
            "order.dcm",
            HEADER + element((8, 0x20), "DA", b"20260101") + element((8, 0x18), "UI", b"1\0"),
            "fault 12 Order at 304 tag 0008,0018",
        ),
    ),
)
def test_a_file_that_is_left_out(run, put, name, data, fault):
    put({"in/I0000001": image(), f"in/{name}": data})
    done = run("list", "in")
    assert done.returncode == 1 and done.stdout.count("\n") == 1
    assert done.stderr == f"dcmbox: in/{name}: left out: {fault}\n"


def test_bytes_after_the_values_are_not_read(run, put):
    bad = image(comment="x") + b"\x28\0\x10\0??\2\0\1\1"
    put({"in/I0000001": bad, "in/I0000002": image()[:-1]})
    done = run("list", "in")
    assert done.returncode == 1 and "I0000001" not in done.stderr


def test_what_is_skipped(run, put, work):
    """Drafts and DICOMDIR files are skipped silently; links are counted; a pipe is reported, and not waited for."""
    put({"in/I0000001": image(), "in/DICOMDIR": DIRECTORY, "in/DRAFT": b"x", "in/DRAFT2": b"x"})
    put({"in/DIRDRAFT": b"x", "elsewhere/I0000001": image(study="1.9")})
    (work / "in/link").symlink_to(work / "elsewhere/I0000001")
    (work / "in/folder").symlink_to(work / "elsewhere")
    os.mkfifo(work / "in/pipe")
    done = run("list", "in")
    message = "dcmbox: in/pipe: it is a pipe, a socket or a device, and no file\n"
    assert (done.returncode, done.stderr) == (0, message + "dcmbox: links passed over 2\n")
    assert done.stdout.endswith("\t1\t1\t1.2.3\n")


def test_values_that_do_not_print(run, put):
    put({"in/a": image(name=b"M\xfcller\x1b[2J\t%\"\\", patient="  ")})
    shown = "M%fcller%1b[2J%09%25\"\\"
    assert run("list", "in").stdout.split("\t")[1:3] == ["-", shown]
    study = json.loads(run("list", "in", "--json").stdout)["studies"][0]
    assert (study["patient_name"], study["patient_id"]) == (shown.replace("%09", "\t"), None)


def test_names_of_files_that_do_not_print(run, put, work):
    put({'in/a"\\\n\u00e9': image()})
    assert run("list", "in", "--instances").stdout.endswith('\tin/a"\\???\n')
    found = json.loads(run("list", "in", "--instances", "--json").stdout)
    assert found["studies"][0]["series"][0]["instances"][0]["file"] == 'in/a"\\\n\u00e9'


def test_a_name_that_is_not_utf8(run, put, work):
    put({"in/I0000001": image()})
    path = os.fsencode(work / "in") + b"/\xff"
    with open(path, "wb") as file:
        file.write(image())
    done = run("list", "in")
    assert done.returncode == 3 and done.stdout.count("\n") == 1
    named = "dcmbox: in/?: the file can't be opened: invalid filename; "
    assert done.stderr.splitlines()[0].startswith(named)


@pytest.mark.parametrize("command", ["list in", "arrange in --to tree"])
def test_files_that_are_not_dicom_files(run, put, command):
    put({"in/I0000001": image(), "in/README": b"text", "in/deeper/Thumbs.db": bytes(200)})
    done = run(*command.split())
    assert done.returncode == 1 and done.stderr.count(": left out: fault 50 NotPart10 ") == 2
    done = run(*command.split(), "--ignore-others")
    assert (done.returncode, done.stderr) == (0, "dcmbox: ignored 2\n")
    put({"in/cut": image()[:300]})
    assert run(*command.split(), "--ignore-others").returncode == 1
    put({"in/cut": b""})
    done = run(*command.split(), "--ignore-others")
    errors = "dcmbox: in/cut: left out: fault 50 NotPart10 at 128\ndcmbox: ignored 2\n"
    assert (done.returncode, done.stderr) == (1, errors)


@pytest.mark.parametrize("folder", ["missing", "file"])
def test_no_folder(expect, put, folder):
    put({"file": image()})
    expect(3, "", rf"dcmbox: {folder}: the folder can't be opened: .*", "list", folder)


@pytest.mark.parametrize("command", ["list in", "arrange in --to tree", "check -r in"])
def test_files_are_counted_on_a_terminal(program, put, work, command):
    """The count is on standard error, if standard output is not a terminal, and is cleared at the end."""
    put({f"in/{n}": image(instance=f"1.{n}") for n in range(3)})
    ours, theirs = pty.openpty()
    arguments = [program, *command.split()]
    done = subprocess.run(arguments, cwd=work, stdout=subprocess.PIPE, stderr=theirs, timeout=PATIENCE)
    os.close(theirs)
    reported = b""
    with contextlib.suppress(OSError):  # a terminal whose other end is closed ends with EIO
        while piece := os.read(ours, 10_000):
            reported += piece
    os.close(ours)
    assert done.returncode == 0
    assert re.fullmatch(rb"\rfiles 1\rfiles 2\r +\r", reported)


def test_one_read_for_a_file(run, put, work, trace):
    put({f"in/{n}": image(instance=f"1.{n}", comment="x" * 60000) for n in range(20)})
    assert run("list", "in", before=trace("--trace=openat,read,pread64")).returncode == 0
    calls = (work / "calls.txt").read_text()
    read = calls[calls.index('"in/') :].count("read(")
    assert calls.count('"in/') == 21 and read <= 21


def test_pydicoms_files(run):
    """`list` shows what pydicom reads, and leaves out no good file."""
    pydicom = pytest.importorskip("pydicom", reason="make packages installs it")
    from pydicom.data import get_testdata_file

    folder = pathlib.Path(get_testdata_file("CT_small.dcm")).parent
    done = run("list", folder, "--json", "--instances")
    found = {}
    for study in json.loads(done.stdout)["studies"]:
        for series in study["series"]:
            for instance in series["instances"]:
                ours = (study["study"], series["series"], instance["instance"], series["modality"])
                found[instance["file"]] = ours
    assert len(found) > 80
    for path, ours in found.items():
        data = pydicom.dcmread(path, stop_before_pixels=True, force=True)
        keys = ("StudyInstanceUID", "SeriesInstanceUID", "SOPInstanceUID", "Modality")
        theirs = [str(data.get(key, "") or "") or None for key in keys]
        assert list(ours) == theirs, path
    checked = run("check", "-r", "--all-syntaxes", "--json", folder).stdout.splitlines()
    good = {row["file"] for row in map(json.loads, checked) if row["result"] == "good"}
    directories = {path for path in good if pathlib.Path(path).name.startswith("DICOMDIR")}
    assert good - set(found) <= directories


@pytest.fixture(scope="module")
def many(shared):
    """A folder with a study of 20,000 files."""
    folder = shared("many") / "in"
    folder_of_images(folder, 20_000)
    return folder


def test_20000_files(program, many):
    """`list` needs at most two CPU seconds with a warm cache, and less time and memory than DCMTK and pydicom."""
    need("dcmdump")
    ours = min(measured(program, "list", many, cwd=many.parent) for _ in range(3))
    keys = [argument for key in ("0010,0020", "0020,000d", "0020,000e") for argument in ("+P", key)]
    dcmtk = measured("dcmdump", "-q", "+sd", "+r", *keys, many, cwd=many.parent)
    script = "import sys, pydicom, pathlib\nfor p in pathlib.Path(sys.argv[1]).iterdir():\n"
    script += " pydicom.dcmread(p, stop_before_pixels=True).StudyInstanceUID"
    python = measured("/usr/bin/python3", "-c", script, many, cwd=many.parent)
    print(f"list {ours}, dcmdump {dcmtk}, pydicom {python}")
    assert ours[0] == dcmtk[0] == python[0] == 0
    assert ours[1] < 2 and ours[1] < dcmtk[1] and ours[1] < python[1]
    assert ours[2] < dcmtk[2] and ours[2] < python[2]
