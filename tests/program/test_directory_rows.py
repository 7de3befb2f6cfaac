"""The rows that `index` reads of files, why a file has none, and the directories of these rows byte by byte."""
import re
import struct

import pytest
from peer import CT, EXPLICIT, element
from samples import DIRECTORY, cases

IMPLICIT, BIG_ENDIAN = "1.2.840.10008.1.2", "1.2.840.10008.1.2.2"
JPEG_LOSSLESS = "1.2.840.10008.1.2.4.57"
# The elements of a directory record: type, file ID, and the class, instance and syntax of the file.
KIND, FILE_ID = (0x0004, 0x1430), (0x0004, 0x1500)
CLASS, INSTANCE, SYNTAX = (0x0004, 0x1510), (0x0004, 0x1511), (0x0004, 0x1512)
KINDS = [b"PATIENT", b"STUDY", b"SERIES", b"IMAGE"]
CHARACTER_SET, STUDY_DATE, STUDY_ID = (0x0008, 0x0005), (0x0008, 0x0020), (0x0020, 0x0010)
STUDY_DESCRIPTION, SERIES_DESCRIPTION = (0x0008, 0x1030), (0x0008, 0x103E)
PATIENT, STUDY, SERIES = (0x0010, 0x0020), (0x0020, 0x000D), (0x0020, 0x000E)
PATIENT_NAME, NUMBER, PIXELS = (0x0010, 0x0010), (0x0020, 0x0013), (0x7FE0, 0x0010)
# The data set of an image, with another SOP Class UID than its header.
ELEMENTS = {
    CHARACTER_SET: ("CS", b"ISO_IR 100"),
    (0x0008, 0x0016): ("UI", b"1.2.840.10008.5.1.4.1.1.4\0"),
    STUDY_DATE: ("DA", b"20260101"),
    (0x0008, 0x0030): ("TM", b"120000"),
    (0x0008, 0x0050): ("SH", b""),
    (0x0008, 0x0060): ("CS", b"CT"),
    STUDY_DESCRIPTION: ("LO", b"HEAD"),
    SERIES_DESCRIPTION: ("LO", b"AXIAL "),
    PATIENT_NAME: ("PN", b"DOE^JANE"),
    PATIENT: ("LO", b"P1"),
    (0x0010, 0x0040): ("CS", b"F "),
    STUDY: ("UI", b"1.2.3\0"),
    SERIES: ("UI", b"1.2.3.1\0"),
    STUDY_ID: ("SH", b"S1"),
    (0x0020, 0x0011): ("IS", b"1 "),
    NUMBER: ("IS", b"1 "),
}
VALUES = {tag: value for tag, (_, value) in ELEMENTS.items()}
# The keys of a row, without Series Description, and their greatest sizes in bytes.
SIZES = {
    CHARACTER_SET: 64,
    STUDY_DATE: 32,
    (0x0008, 0x0030): 32,
    (0x0008, 0x0050): 64,
    (0x0008, 0x0060): 64,
    STUDY_DESCRIPTION: 256,
    PATIENT_NAME: 512,
    PATIENT: 256,
    STUDY: 64,
    SERIES: 64,
    STUDY_ID: 64,
    (0x0020, 0x0011): 32,
    NUMBER: 32,
}
# Keys that may be empty: of type 2, which a record always has, and Specific Character Set, of type 1C.
TYPE_2 = [(0x0008, 0x0050), STUDY_DESCRIPTION, PATIENT_NAME]
NEEDED = [tag for tag in SIZES if tag not in (CHARACTER_SET, *TYPE_2)]
LONG = b"1" * 514


def encoded(tag, vr, value, syntax):
    """Returns an element in this transfer syntax."""
    if syntax == IMPLICIT:
        return struct.pack("<HHL", *tag, len(value)) + value
    return element(tag, vr, value)


def uid(text):
    return text + b"\0" * (len(text) % 2)


def file(changes=(), syntax=EXPLICIT, after=b""):
    """Returns the file of the image with these values in place of others, and these bytes at its end.

    An element whose value is `None` is absent.
    """
    values = {INSTANCE: b"1.2.3.1.1", **VALUES, **dict(changes)}
    header = (
        element((2, 1), "OB", b"\0\1")
        + element((2, 2), "UI", uid(CT.encode()))
        + element((2, 3), "UI", uid(values[INSTANCE]))
        + element((2, 0x10), "UI", uid(syntax.encode()))
        + element((2, 0x12), "UI", b"1.2.3.4\0")
    )
    data = b"".join(
        encoded(tag, vr, values[tag], syntax)
        for tag, (vr, _) in ELEMENTS.items()
        if values[tag] is not None
    )
    length = element((2, 0), "UL", struct.pack("<L", len(header)))
    return bytes(128) + b"DICM" + length + header + data + after


def row(changes, syntax):
    """Returns the row of this file without its file ID and without padding: what its header has, and the keys."""
    values = {**VALUES, **changes}
    header = {CLASS: CT.encode(), INSTANCE: values[INSTANCE], SYNTAX: syntax.encode()}
    keys = {tag: values[tag] for tag in SIZES if values[tag] is not None}
    given = {**header, **dict.fromkeys(TYPE_2, b""), **keys}
    return {tag: value.rstrip(b" \0") for tag, value in given.items()}


def records(directory):
    """Yields the elements of each record of a directory with the SOP Instance UID 2.25.1, without padding."""
    at = 320
    while at < len(directory):
        end, record = at + 8 + struct.unpack_from("<L", directory, at + 4)[0], {}
        at += 8
        while at < end:
            *tag, length = struct.unpack_from("<HH2xH", directory, at)
            record[tuple(tag)] = directory[at + 8 : at + 8 + length].rstrip(b" \0")
            at += 8 + length
        yield record


def rows(directory):
    """Returns the row of each image: the elements of its four records, without offsets, flags and types."""
    found, levels = [], {}
    for record in records(directory):
        kind = record[KIND]
        levels[kind] = {tag: value for tag, value in record.items() if tag >= FILE_ID}
        if kind == b"IMAGE":
            found.append({tag: value for above in KINDS for tag, value in levels[above].items()})
    return found


def names(count):
    return [f"I{number:07}" for number in range(1, count + 1)]


@pytest.fixture
def written(expect, put, work):
    """Writes files into a folder, and its directory with this output; returns the bytes of the directory."""

    def directory(files, output, *options):
        (work / "in").mkdir(exist_ok=True)
        for name, data in files.items():
            put({f"in/{name}": data})
        doubles = re.findall("^double (.*)", output, re.M)
        left_out = len(doubles) + output.count("skipped ")
        errors = "".join(f"dcmbox: in/{name}: a double of I0000..., with the same bytes\n" for name in doubles)
        errors += f"images {len(files) - left_out} left out {left_out}"
        errors += "\nleft out: [^\n]*" * (left_out > 0)
        expect(0, output, errors, "index", "in", "--uid", "2.25.1", *options)
        return (work / "in/DICOMDIR").read_bytes()

    return directory


@pytest.fixture
def index(written):
    """Compares the rows of files, each of another patient, with those in their directory.

    Each file is given by its other values; by the reason why it has no row, or by what its row has besides or in
    place of its keys; and by the bytes at its end.
    """

    def compare(given, *options, syntax=EXPLICIT):
        files, skipped, expected = {}, [], []
        for number, (changes, wanted, *after) in enumerate(given, 101):
            name = f"I{number:07}"
            changes = {
                INSTANCE: b"1.2.3.1.%d" % number,
                PATIENT: b"P%d" % number,
                STUDY: uid(b"1.2.%d" % number),
                SERIES: uid(b"1.2.%d.1" % number),
                **changes,
            }
            files[name] = file(changes, syntax, *after)
            if isinstance(wanted, str):
                skipped.append(f"skipped {name} {wanted}")
            else:
                expected.append({FILE_ID: name.encode(), **row(changes, syntax), **wanted})
        output = "\n".join([*skipped, f"records {4 * len(expected)}"])
        assert rows(written(files, output, *options)) == expected

    return compare


def missing(tag):
    return "missing %04x,%04x" % tag


@pytest.mark.parametrize("syntax", [IMPLICIT, EXPLICIT])
def test_the_row_of_an_image(index, syntax):
    """A file is read to its end, also after the last key."""
    index([({}, {}), ({}, "fault 20", b"\x20")], syntax=syntax)


def test_five_files_of_a_folder(written):
    """Two images of a series, one of another series, a duplicate of the first, and one without Study ID."""
    first, second = b"1.2.3.1", b"1.2.3.2"
    given = [
        {INSTANCE: b"1.2.3.1.1"},
        {INSTANCE: b"1.2.3.1.2", NUMBER: b"2 "},
        {INSTANCE: b"1.2.3.2.1", SERIES: second + b"\0"},
        {INSTANCE: b"1.2.3.1.1"},
        {STUDY_ID: None},
    ]
    output = "skipped I0000005 missing 0020,0010\ndouble I0000004\nrecords 7"
    found = rows(written(dict(zip(names(5), map(file, given))), output))
    expected = [(b"1.2.3.1.1", first), (b"1.2.3.1.2", first), (b"1.2.3.2.1", second)]
    assert [(image[INSTANCE], image[SERIES]) for image in found] == expected


def test_keys_that_must_not_be_empty(index):
    """A required key that is absent, empty or only padding is reported; other keys may be."""
    index(
        [
            ({tag: value}, missing(tag) if tag in NEEDED else {})
            for tag in ELEMENTS
            for value in (None, b"", b"  \0 ")
        ]
    )


def test_the_first_missing_key(index):
    """Of several missing keys, the first is reported; a file without a data set has none."""
    index([(dict.fromkeys(ELEMENTS), missing(STUDY_DATE))])


def test_a_key_that_may_be_missing(index):
    """Specific Character Set is present, empty, or absent."""
    index(
        [
            ({CHARACTER_SET: b"ANY "}, {CHARACTER_SET: b"ANY"}),
            ({CHARACTER_SET: b""}, {CHARACTER_SET: b""}),
            ({CHARACTER_SET: None}, {}),
        ]
    )


def test_rooms_of_the_keys(index):
    """A value of the greatest size is accepted; a longer value is a fault of the data set."""
    for more, wanted in ((0, {}), (2, "fault 21")):
        index([({tag: LONG[: size + more]}, wanted) for tag, size in SIZES.items()])


@pytest.mark.parametrize(
    "fault, syntax, after",
    cases(
        ("an element of group 0002", 13, EXPLICIT, element((0x0002, 0x0010), "UI", b"")),
        ("an element out of order", 12, EXPLICIT, element(CHARACTER_SET, "CS", b"")),
        ("an odd length", 11, IMPLICIT, encoded(PIXELS, "UN", b"odd", IMPLICIT)),
    ),
)
def test_faults_precede_missing_keys(index, fault, syntax, after):
    """The first fault of the data set precedes a missing key; one of the header precedes both (the next test)."""
    index([({STUDY_ID: None}, f"fault {fault}", after)], syntax=syntax)


def test_other_transfer_syntaxes(index):
    """Another transfer syntax: Explicit VR Big Endian."""
    index([({STUDY_ID: None}, "fault 53")], syntax=BIG_ENDIAN)


def test_compressed_files(index):
    """A compressed file has its row if its transfer syntax is accepted, and is walked to its end."""
    # Pixel Data of undefined length: an empty Basic Offset Table, and a fragment like a delimitation.
    pixels = bytes.fromhex("e07f1000 4f420000 ffffffff feff00e000000000 feff00e004000000 feffdde0 feffdde000000000")
    whole, cut = pixels, pixels[:-9]
    index([({}, {}, whole), ({}, "fault 20", cut)], "--all-syntaxes", syntax=JPEG_LOSSLESS)
    index([({}, "fault 53", whole), ({}, "fault 53", cut)], syntax=JPEG_LOSSLESS)


@pytest.mark.parametrize("options", [(), ("--descriptions",)])
def test_descriptions_are_read_where_they_are_asked_for(index, options):
    """Series Description is read if it is not too long, and never costs the image its row."""
    given = {b"AXIAL ": b"AXIAL", b"": b"", LONG[:256]: LONG[:256], None: None, LONG[:258]: None, LONG[:300]: None}
    index(
        [
            ({SERIES_DESCRIPTION: value}, {} if read is None or not options else {SERIES_DESCRIPTION: read})
            for value, read in given.items()
        ],
        *options,
    )


def test_faults_are_those_without_descriptions(index):
    """Another value that is too long, a missing key, and a later fault than a description that is too long."""
    index(
        [
            ({STUDY_DESCRIPTION: LONG[:258]}, "fault 21"),
            ({STUDY_ID: None}, missing(STUDY_ID)),
            ({SERIES_DESCRIPTION: LONG[:300]}, "fault 12", element(CHARACTER_SET, "CS", b"")),
        ],
        "--descriptions",
    )


# An image; another of its series, with more padding, which does not count in keys; one of another series of the
# study; and one of another patient.
FIRST = {INSTANCE: b"1.2.3.1.1", CHARACTER_SET: None}
SECOND = {**FIRST, INSTANCE: b"1.2.3.1.2", PATIENT: b"P1  ", STUDY: b"1.2.3\0\0\0", NUMBER: b"2 "}
OF_ANOTHER_SERIES = {**FIRST, INSTANCE: b"1.2.3.2.1", SERIES: b"1.2.3.2\0"}
OF_ANOTHER_PATIENT = {
    **{**FIRST, INSTANCE: b"1.2.4.1.1"},
    **{PATIENT: b"P2", STUDY: b"1.2.4\0", SERIES: b"1.2.4.1\0"},
}
FILES = [FIRST, SECOND, OF_ANOTHER_SERIES, FIRST, OF_ANOTHER_PATIENT]
SEVERAL = [OF_ANOTHER_SERIES, OF_ANOTHER_PATIENT, SECOND, FIRST, FIRST]
LISTED = """0000000320 PATIENT
0000000404   STUDY
0000000534     SERIES
0000000626       IMAGE I0000001
0000000788     SERIES
0000000880       IMAGE I0000003
0000001042       IMAGE I0000004
0000001204 PATIENT
0000001288   STUDY
0000001418     SERIES
0000001510       IMAGE I0000002
records 11"""


def with_changes(data, *changes):
    """Returns the bytes with others from an offset to another, for each of these changes, the last offsets first."""
    for begin, end, new in changes:
        data = data[:begin] + new + data[end:]
    return data


def images(*given):
    return dict(zip(names(len(given)), map(file, given)))


def test_one_image_is_written(expect, written):
    assert len(DIRECTORY) == 788
    assert written(images(FIRST), "records 4") == DIRECTORY
    listed = "\n".join([*LISTED.splitlines()[:4], "records 4"])
    expect(0, listed, "", "checkdir", "in/DICOMDIR")


def test_two_images_are_written(written):
    """Two images of a series: the first names the second at 788, and all records have 162 bytes more."""
    last = with_changes(
        DIRECTORY[626:],
        (160, 161, b"2"),
        (122, 123, b"2"),
        (71, 72, b"2"),
    )
    one = with_changes(DIRECTORY, (642, 644, b"\x14\3"), (316, 318, b"\x76\2"))
    directory = written(images(FIRST, SECOND), "records 5")
    assert len(directory) == 950
    assert directory == one + last


def test_file_ids_of_two_components_are_written(expect, written):
    """The image is in a folder: its record, and all records together, are ten bytes longer."""
    directory = written({"S0000001/I0000001": file(FIRST)}, "records 4")
    assert len(directory) == 798
    assert directory == with_changes(
        DIRECTORY,
        (682, 698, b"\4\0\0\x15CS\x12\0S0000001\\I0000001 "),
        (630, 634, b"\xa4\0\0\0"),
        (316, 320, b"\xde\1\0\0"),
    )
    listed = "\n".join([*LISTED.splitlines()[:3], "0000000626       IMAGE S0000001/I0000001", "records 4"])
    expect(0, listed, "", "checkdir", "in/DICOMDIR")


@pytest.mark.parametrize("description, padded", cases(("a text", b"AXIAL  \0", b"AXIAL "), ("none", b"", b"")))
def test_series_descriptions_are_written(expect, written, description, padded):
    """The record of the series has Series Description after Modality, padded, and is longer by that."""
    more = 8 + len(padded)
    directory = written(images({**FIRST, SERIES_DESCRIPTION: description}), "records 4", "--descriptions")
    assert len(directory) == 788 + more
    assert directory == with_changes(
        DIRECTORY,
        (600, 600, element(SERIES_DESCRIPTION, "LO", padded)),
        (572, 576, struct.pack("<L", 626 + more)),
        (538, 542, struct.pack("<L", 0x54 + more)),
        (316, 320, struct.pack("<L", 0x1D4 + more)),
    )
    last = f"{626 + more:010}       IMAGE I0000001"
    expect(0, "\n".join([*LISTED.splitlines()[:3], last, "records 4"]), "", "checkdir", "in/DICOMDIR")


def test_no_rows_are_written(expect, written):
    """Without rows there are no records.

    The offsets of the first and the last record of the root, and the length of the records, are 0.
    """
    directory = written({}, "records 0")
    assert len(directory) == 320
    none = bytes(4)
    assert directory == with_changes(DIRECTORY[:320], (316, 320, none), (294, 298, none), (282, 286, none))
    expect(0, "records 0", "", "checkdir", "in/DICOMDIR")


@pytest.mark.parametrize(
    "given, output",
    cases(
        ("one of four", FILES[:4], "double I0000004\nrecords 7"),
        ("one of five", FILES, "double I0000004\nrecords 11"),
        (
            "between and after others",
            [FIRST, FIRST, SECOND, FIRST, SECOND],
            "double I0000002\ndouble I0000004\ndouble I0000005\nrecords 5",
        ),
    ),
)
def test_duplicates_are_omitted(written, given, output):
    written(images(*given), output)


def test_several_images_are_written(expect, written):
    """Each level is in first-seen order, with a record's children after it."""
    directory = written(images(*SEVERAL), "double I0000005\nrecords 11")
    expect(0, LISTED, "", "checkdir", "in/DICOMDIR")
    assert len(directory) == 1672


def test_offsets_to_siblings_of_records_above(expect, put, written):
    """The study of the second patient names the first patient as its next record, or the second.

    The first patient is before a record above the study, and neither above the study nor in its chain: a second
    path to a record, and no cycle.
    """
    directory = written(images(*SEVERAL), "double I0000005\nrecords 11")
    for record, fault in ((320, "62 TwiceReached"), (1204, "61 Cycle")):
        put({"listed": with_changes(directory, (1304, 1308, struct.pack("<L", record)))})
        expect(1, f"fault {fault} at 1288", "", "checkdir", "listed")


def test_a_directory_of_5000_images(run, work, written):
    """Each four images have a series, and their patient's record has 914 bytes, with values of the greatest size.

    The files that the directory keeps are reported in the order of its records where they are missing.
    """
    patient = {CHARACTER_SET: LONG[:64], PATIENT_NAME: LONG[:512], PATIENT: LONG[:256]}
    files = {
        f"I{number:07}": file(
            {**patient, INSTANCE: b"1.2.1%04d" % number, SERIES: b"1.2.1%04d " % (number // 4)}
        )
        for number in range(5000)
    }
    directory = written(files, "records 6252")
    assert struct.unpack_from("<L", directory, 324) == (906,)
    listed = run("checkdir", "in/DICOMDIR").stdout
    assert re.findall("IMAGE (.*)", listed) == list(files)
    assert listed.endswith("\nrecords 6252\n") and listed.count("\n") == 6253
    for name in files:
        (work / "in" / name).unlink()
    done = run("index", "in", "--uid", "2.25.1", "--keep")
    assert done.stdout.splitlines() == [*(f"skipped {name} fault 54" for name in files), "records 0"]
    assert (done.returncode, len((work / "in/DICOMDIR").read_bytes())) == (0, 320)
