"""Directories (DICOMDIR) whose bytes are changed: the records that `checkdir` lists, and the faults that it finds."""
import re

import pytest
from directories import UPPER, image, listed
from peer import from_hex
from samples import DIRECTORY, cases, changed


def long(number):
    """Returns the value of an element of VR UL, as offsets in the file have."""
    return number.to_bytes(4, "little")


def altered(directory, *changes):
    """Returns the directory with other bytes at several offsets."""
    for offset, new in changes:
        directory = changed(directory, offset, new)
    return directory


# The directory of two images, 950 bytes long: the sequence of records is longer, the first image names the second as
# the next record, and the record of the second image is that of the first with another file ID, UID and number.
TWO_IMAGES = altered(
    DIRECTORY + DIRECTORY[626:], (316, long(630)), (642, long(788)), (859, b"2"), (910, b"2"), (948, b"2")
)
# A directory of one image, 920 bytes long, in which every level has an undefined length; the patient's record has a
# private sequence and unknown content before its keys.
UNDEFINED = from_hex("tests/data/directory_of_undefined_lengths.hex")

FIRST, SECOND = image(626, "I0000001"), image(788, "I0000002")
FAULT = r"fault [1-9]\d* [A-Z][A-Za-z0-9]+ at \d+( tag [\da-f]{4},[\da-f]{4})?\n"


def accepted(*records):
    """Returns the status, the output and the errors of `checkdir` for a directory of these records."""
    return 0, listed(*records), ""


def refused(fault):
    """Returns the status, the output and the errors of `checkdir` for a directory with this fault."""
    return 1, f"fault {fault}\n", ""


@pytest.fixture
def checked(run, put):
    """Checks a directory, and returns the status, the output and the errors."""

    def done_of(directory):
        put({"checked.bin": directory})
        done = run("checkdir", "checked.bin")
        return done.returncode, done.stdout, done.stderr

    return done_of


@pytest.fixture
def expect_kept(run, put):
    """Asserts which files a directory keeps: `index --keep` reports each of them, since there is none in the folder."""

    def expected(directory, files):
        put({"kept/DICOMDIR": directory})
        done = run(*"index kept --uid 2.25.1 --keep".split())
        output = "".join(f"skipped {file} fault 54\n" for file in files) + "records 0\n"
        assert (done.returncode, done.stdout) == (0, output)

    return expected


@pytest.fixture
def expect_records(checked, expect_kept):
    """Asserts that a directory is accepted with these records, and keeps their files."""

    def expected(directory, records):
        assert checked(directory) == accepted(*records)
        expect_kept(directory, [file for *_, file in records if file])

    return expected


@pytest.fixture
def expect_no_front(checked):
    """Asserts that each beginning of a directory has a fault, as given for its length, and that memory did not run out
    (status 3).
    """

    def expected(directory, fault_of=lambda length: "fault "):
        for length in range(len(directory)):
            status, output, errors = checked(directory[:length])
            assert (status, errors) == (1, "") and re.fullmatch(FAULT, output), (length, status, output, errors)
            assert output.startswith(fault_of(length)), (length, output)

    return expected


def test_a_directory_of_one_image(expect_records):
    assert len(DIRECTORY) == 788
    expect_records(DIRECTORY, (*UPPER, FIRST))


@pytest.mark.parametrize(
    "result, offset, number",
    cases(
        ("a byte of the preamble", accepted(*UPPER, FIRST), 0, 1),
        ("the patient names itself as the next record", refused("61 Cycle at 320"), 336, 320),
        ("the patient names its study as the next record", refused("62 TwiceReached at 320"), 336, 404),
        ("the patient names the byte after the start of its study", refused("60 BadOffset at 320"), 358, 405),
        ("the patient names no study", refused("63 Unreached at 404"), 358, 0),
        ("the root names the study as its last record", refused("60 BadOffset at 286"), 294, 404),
        ("the image names its patient", refused("61 Cycle at 626"), 664, 320),
        ("the series names its study as the next record", refused("61 Cycle at 534"), 550, 404),
        ("the root names no first record", refused("60 BadOffset at 286"), 282, 0),
        ("the root names the second byte of the file", refused("60 BadOffset at 274"), 282, 1),
        ("an offset counted from the end of the preamble", refused("60 BadOffset at 274"), 282, 192),
    ),
)
def test_offsets_that_are_changed(checked, result, offset, number):
    assert checked(changed(DIRECTORY, offset, long(number))) == result


@pytest.mark.parametrize(
    "fault, offset, new",
    cases(
        ("0004,1201 for 0004,1200", "68 BadRecord at 266", 276, b"\1"),
        ("0004,1203 for 0004,1202", "68 BadRecord at 266", 288, b"\3"),
        ("0004,1221 for 0004,1220", "68 BadRecord at 266", 310, b"\x21"),
        ("0004,1401 for 0004,1400", "68 BadRecord at 320", 330, b"\1"),
        ("0004,1411 for 0004,1410", "68 BadRecord at 320", 342, b"\x11"),
        ("0004,1421 for 0004,1420", "68 BadRecord at 320", 352, b"\x21"),
        ("0004,1431 for 0004,1430", "68 BadRecord at 320", 364, b"\x31"),
        ("a type of only spaces", "68 BadRecord at 320", 370, b" " * 8),
        ("a file ID in small letters", "65 BadFileId at 626", 690, b"i"),
        ("0004,1501 for 0004,1500", "65 BadFileId at 626", 684, b"\1\x15"),
        ("another flag", "68 BadRecord at 626", 654, b"\1\0"),
        ("a study at the root", "64 WrongLevel at 320", 370, b"STUDY   "),
    ),
)
def test_records_and_roots_that_lack_something(checked, fault, offset, new):
    assert checked(changed(DIRECTORY, offset, new)) == refused(fault)


@pytest.mark.parametrize(
    "fault, directory",
    cases(
        ("another letter after the preamble", "50 NotPart10 at 128", changed(DIRECTORY, 128, b"d")),
        ("another group in the file meta information", "51 BadMeta at 132", changed(DIRECTORY, 132, b"\3")),
        ("Implicit VR Little Endian", "53 OtherSyntax at 132", changed(DIRECTORY, 225, b"\0\0")),
        ("a VR in small letters", "10 BadVr at 274 tag 0004,1200", changed(DIRECTORY, 278, b"ul")),
        ("an odd length", "11 OddLength at 274 tag 0004,1200", changed(DIRECTORY, 280, b"\3")),
        ("without the last byte", "20 Truncated at 787 tag 0020,0013", DIRECTORY[:787]),
    ),
)
def test_headers_and_data_sets_that_are_refused(checked, fault, directory):
    assert checked(directory) == refused(fault)


def fault_of(length):
    """Returns how the fault of a beginning of the directory of one image begins.

    Some beginnings end before an element of the root: its last elements are missing.
    """
    if length < 132:
        return "fault 50 NotPart10 at 128\n"
    if length < 266:
        return "fault 51 BadMeta at 132\n"
    if length in (266, 274, 286, 298, 308):
        return "fault 68 BadRecord at 266\n"
    return f"fault 20 Truncated at {length} tag "


def test_every_front_of_a_directory_has_a_fault(expect_no_front):
    assert len(DIRECTORY) == 788
    expect_no_front(DIRECTORY, fault_of)


@pytest.mark.parametrize(
    "records, changes",
    cases(
        ("no change", (*UPPER, FIRST, SECOND), ()),
        ("the first image", (*UPPER, SECOND), [(654, b"\0\0")]),
        ("the series", UPPER[:2], [(562, b"\0\0")]),
        ("the second image which no record names", (*UPPER, FIRST), [(642, long(0)), (816, b"\0\0")]),
    ),
)
def test_inactive_records(expect_records, records, changes):
    assert len(TWO_IMAGES) == 950
    expect_records(altered(TWO_IMAGES, *changes), records)


@pytest.mark.parametrize(
    "fault, changes",
    cases(
        ("another flag", "68 BadRecord at 626", [(654, b"\1\0")]),
        ("an invalid offset of an inactive record", "60 BadOffset at 626", [(654, b"\0\0"), (642, long(787))]),
        ("an image in use that no record names", "63 Unreached at 788", [(642, long(0))]),
    ),
)
def test_inactive_records_that_are_refused(checked, fault, changes):
    assert checked(altered(TWO_IMAGES, *changes)) == refused(fault)


def test_undefined_lengths(expect_records, expect_no_front):
    """The records are found after sequences and items of undefined or defined length."""
    upper = ((320, 1, "PATIENT", ""), (504, 2, "STUDY", ""), (642, 3, "SERIES", ""))
    expect_records(UNDEFINED, (*upper, (742, 4, "IMAGE", "I0000001")))
    expect_no_front(UNDEFINED)
