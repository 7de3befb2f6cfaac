"""What a strict check notes, keywords and values beside notes and faults, and which values are shown."""
import struct

import pytest
from peer import element
from samples import CUT_FAULT, HEADER, SAMPLES, SHOWN, cases, changed

STRICT, JSON, VALUES = "--strict", "--json", "--values"
UTF_8 = element((0x08, 0x05), "CS", b"ISO_IR 192")
LATIN_1 = element((0x08, 0x05), "CS", b"ISO_IR 100")
NO_SUCH_DATE = element((0x08, 0x20), "DA", b"20230229")


def text(tag, count):
    """Returns an element of VR LO with `count` characters of two bytes in UTF-8."""
    return element(tag, "LO", "\u00e9".encode() * count)


def sequence(item):
    """Returns a sequence of undefined length with one item of undefined length."""
    opening = b"\x40\0\x75\x02SQ\0\0\xff\xff\xff\xff\xfe\xff\0\xe0\xff\xff\xff\xff"
    return opening + item + b"\xfe\xff\x0d\xe0\0\0\0\0\xfe\xff\xdd\xe0\0\0\0\0"


def counted(lines, notes):
    """Returns the lines of a check with `-r` of a good file, of which the last has the number of notes."""
    return f"file a.dcm\n{lines}files 1 good 1 faulty 0 unread 0 notes {notes}\n"


def as_json(members):
    """Returns the object of a file with these members."""
    return f'{{"file":"a.dcm",{members}}}\n'


@pytest.fixture
def prints(run, put):
    """Asserts the status of a command for a file with this data set, and all that it prints."""

    def asserted(data, status, output, command, *options):
        put({"a.dcm": HEADER + data})
        done = run(command, "a.dcm", *options)
        assert (done.returncode, done.stdout, done.stderr) == (status, output, "")

    return asserted


# A date that does not exist, a name of four groups, and 65 characters, in UTF-8.
BROKEN = UTF_8 + NO_SUCH_DATE + element((0x10, 0x10), "PN", b"A=B=C=") + text((0x10, 0x20), 65)
NOTES = """\
note 0000000306 0008,0018 UI 21 MissingUid
note 0000000306 0008,0020 DA 7 NoSuchDate
note 0000000322 0010,0010 PN 12 BadName
note 0000000336 0010,0020 LO 5 LongText
note 0000000474 0020,000d UI 21 MissingUid
good 474
"""
NOTES_JSON = as_json(
    '"notes":['
    '{"place":306,"tag":"0008,0018","vr":"UI","number":21,"name":"MissingUid","keyword":"SOPInstanceUID"},'
    '{"place":306,"tag":"0008,0020","vr":"DA","number":7,"name":"NoSuchDate","keyword":"StudyDate"},'
    '{"place":322,"tag":"0010,0010","vr":"PN","number":12,"name":"BadName","keyword":"PatientName"},'
    '{"place":336,"tag":"0010,0020","vr":"LO","number":5,"name":"LongText","keyword":"PatientID"},'
    '{"place":474,"tag":"0020,000d","vr":"UI","number":21,"name":"MissingUid","keyword":"StudyInstanceUID"}],'
    '"result":"good","length":474'
)


@pytest.mark.parametrize(
    "status, output, options",
    cases(
        ("strict as lines", 1, counted(NOTES, 5), ["-r", STRICT]),
        ("strict as JSON", 1, NOTES_JSON, ["-r", STRICT, JSON]),
        ("usual as lines", 0, counted("good 474\n", 0), ["-r"]),
        ("usual as JSON", 0, as_json('"notes":[],"result":"good","length":474'), ["-r", JSON]),
    ),
)
def test_strict_notes(prints, status, output, options):
    prints(BROKEN, status, output, "check", *options)


def test_sets_of_items(prints):
    """A character set that an item names applies in the item: 64 characters of two bytes are too many in ASCII."""
    data = sequence(UTF_8 + text((0x10, 0x20), 64)) + text((0x40, 0x3001), 64)
    lines = (
        "note 0000000288 0008,0018 UI 21 MissingUid\n"
        "note 0000000288 0020,000d UI 21 MissingUid\n"
        "note 0000000478 0040,3001 LO 5 LongText\n"
        "good 614\n"
    )
    prints(data, 1, counted(lines, 3), "check", "-r", STRICT)


def test_sizes_of_long_values(prints):
    """For a value that is too long for the table, the size of its numbers is checked."""
    data = b"\xe0\x7f\x08\0OF\0\0\x02\0\x01\0" + bytes(65538)
    lines = (
        "note 0000000288 0008,0018 UI 21 MissingUid\n"
        "note 0000000288 0020,000d UI 21 MissingUid\n"
        "note 0000000288 7fe0,0008 OF 2 WrongSize\n"
        "good 65838\n"
    )
    prints(data, 1, counted(lines, 3), "check", "-r", STRICT)


# A code with ESC, a tag, two numbers, two floating-point numbers, and two words.
SEVERAL = (
    element((0x08, 0x60), "CS", b"M\x1bR ")
    + element((0x28, 0x09), "AT", b"\x18\0\x63\x10")
    + element((0x28, 0x10), "US", b"\2\1\3\0")
    + element((0x70, 0x10), "FL", struct.pack("<ff", 1.5, -2))
    + element((0x7FE0, 0x10), "OW", b"\1\2\3\4")
)
ROWS = "0000000312 0028,0010 US 4 Rows\n           = 258\\3\n"
LINES = f"""\
{SHOWN}0000000288 0008,0060 CS 4 Modality
           = M%1bR
0000000300 0028,0009 AT 4 FrameIncrementPointer
           = 0018,1063
{ROWS}0000000324 0070,0010 FL 8 BoundingBoxTopLeftHandCorner
           = 1.5\\-2
0000000340 7fe0,0010 OW 4 PixelData
           = 0201\\0403
end 356
"""
ROWS_JSON = as_json(
    '"class":"1.2.840.10008.5.1.4.1.1.2","instance":"1.2.3","syntax":"1.2.840.10008.1.2.1",'
    '"elements":[{"place":312,"level":0,"tag":"0028,0010","vr":"US","length":4,"keyword":"Rows",'
    '"value":"258\\\\3"}],"result":"good","length":356'
)


@pytest.mark.parametrize(
    "output, options",
    cases(
        ("all as lines", LINES, []),
        ("those of a tag as lines", ROWS, ["--tag", "0028,0010"]),
        ("those of a tag as JSON", ROWS_JSON, ["--tag", "0028,0010", JSON]),
    ),
)
def test_shown_values(prints, output, options):
    prints(SEVERAL, 0, output, "show", VALUES, *options)


def test_named_syntaxes(run, put):
    """A transfer syntax that is not accepted is named, of a header alone, too; one that is accepted is not."""
    put({"good.dcm": HEADER, "cut.dcm": SAMPLES["cut.dcm"], "big.dcm": changed(HEADER, 232, b"2")})
    done = run("check", "good.dcm", "cut.dcm", "big.dcm")
    output = (
        f"file good.dcm\ngood 288\nfile cut.dcm\n{CUT_FAULT}\n"
        "file big.dcm\nfault 53 OtherSyntax at 132\nfiles 3 good 1 faulty 2 unread 0 notes 0\n"
    )
    syntax = "ExplicitVRBigEndian (1.2.840.10008.1.2.2)"
    errors = f"dcmbox: big.dcm: its transfer syntax is {syntax}, which is not taken\n"
    assert (done.returncode, done.stdout, done.stderr) == (1, output, errors)


# A name of four groups in ISO 8859-1, a date that does not exist, and an element without a keyword that has an invalid
# character.
NOTED = (
    LATIN_1
    + NO_SUCH_DATE
    + element((0x09, 0x1001), "CS", b"ab")
    + element((0x10, 0x10), "PN", b"\xc9=B=C=\xe9 ")
)
NOTED_LINES = """\
note 0000000306 0008,0018 UI 21 MissingUid
           SOPInstanceUID
note 0000000306 0008,0020 DA 7 NoSuchDate
           StudyDate = 20230229
note 0000000322 0009,1001 CS 1 BadCharacter
           ? = ab
note 0000000332 0010,0010 PN 12 BadName
           PatientName = %c9=B=C=%e9
note 0000000348 0020,000d UI 21 MissingUid
           StudyInstanceUID
good 348
"""
NOTED_JSON = as_json(
    '"notes":['
    '{"place":306,"tag":"0008,0018","vr":"UI","number":21,"name":"MissingUid","keyword":"SOPInstanceUID"},'
    '{"place":306,"tag":"0008,0020","vr":"DA","number":7,"name":"NoSuchDate","keyword":"StudyDate",'
    '"value":"20230229"},'
    '{"place":322,"tag":"0009,1001","vr":"CS","number":1,"name":"BadCharacter","keyword":null,"value":"ab"},'
    '{"place":332,"tag":"0010,0010","vr":"PN","number":12,"name":"BadName","keyword":"PatientName",'
    '"value":"\u00c9=B=C=\u00e9"},'
    '{"place":348,"tag":"0020,000d","vr":"UI","number":21,"name":"MissingUid","keyword":"StudyInstanceUID"}],'
    '"result":"good","length":348'
)


@pytest.mark.parametrize(
    "output, options", cases(("as lines", NOTED_LINES, []), ("as JSON", NOTED_JSON, [JSON]))
)
def test_values_of_strict_notes(prints, output, options):
    prints(NOTED, 1, output, "check", STRICT, VALUES, *options)


CODE = "note 0000000306 0008,0060 CS 1 BadCharacter\n           Modality = %c9a\ngood 316\n"
CODE_JSON = as_json(
    '"notes":[{"place":306,"tag":"0008,0060","vr":"CS","number":1,"name":"BadCharacter",'
    '"keyword":"Modality","value":"%c9a"}],"result":"good","length":316'
)


@pytest.mark.parametrize("output, options", cases(("as lines", CODE, []), ("as JSON", CODE_JSON, [JSON])))
def test_values_of_usual_notes(prints, output, options):
    """A code has only ASCII, whatever character set its data set names."""
    data = LATIN_1 + element((0x08, 0x60), "CS", b"\xc9a")
    prints(data, 0, output, "check", VALUES, *options)


LONG = element((0x08, 0x60), "CS", b"A" * 258)
CUT = b"\x10\0\x10\0PN\x04\0A"


@pytest.mark.parametrize(
    "data, status, output, options",
    cases(
        (
            "a long value",
            LONG,
            0,
            "note 0000000288 0008,0060 CS 3 TooLongValue\n           Modality = (258 bytes)\ngood 554\n",
            [],
        ),
        (
            "a fault as lines",
            CUT,
            1,
            "fault 20 Truncated at 297 tag 0010,0010\n           PatientName\n",
            [],
        ),
        (
            "a fault as JSON",
            CUT,
            1,
            as_json(
                '"notes":[],"result":"fault","number":20,"name":"Truncated",'
                '"place":297,"tag":"0010,0010","keyword":"PatientName"'
            ),
            [JSON],
        ),
    ),
)
def test_long_values_and_faults(prints, data, status, output, options):
    """For a value of more than 256 bytes its length is written, and for a fault its keyword."""
    prints(data, status, output, "check", VALUES, *options)


@pytest.mark.parametrize(
    "tag, value", cases(("in it", "0010,0020", "\u00e9\u00e9"), ("after it", "0040,3001", "\u00c3\u00a9"))
)
def test_sets_of_shown_items(run, put, tag, value):
    """A character set that an item names applies in the item, even if it is not shown, and the former one after it."""
    put({"a.dcm": HEADER + LATIN_1 + sequence(UTF_8 + text((0x10, 0x20), 2)) + text((0x40, 0x3001), 1)})
    done = run("show", VALUES, JSON, "--tag", tag, "a.dcm")
    assert (done.returncode, done.stderr) == (0, "")
    assert f'"value":"{value}"}}],"result":"good"' in done.stdout
