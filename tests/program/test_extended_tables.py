"""What `show` and `check` write for a file with encapsulated Pixel Data: its fragments and their offset tables.

Basic Offset Tables are those of PS3.5 section A.4, Extended Offset Tables and their lengths those of PS3.3
section C.7.6.3.1.8.
"""
import re
import struct

import pytest
from peer import CT, element
from samples import HEADER, cases, changed

JPEG = "1.2.840.10008.1.2.4.50"
# The header of a CT image in JPEG Baseline, whose data set begins at byte 290.
JPEG_HEADER = changed(HEADER[:206] + element((2, 0x10), "UI", JPEG.encode()) + HEADER[234:], 140, b"\x92")
START = len(JPEG_HEADER)
UNDEFINED = b"\xff\xff\xff\xff"
END_OF_ITEM = bytes.fromhex("feff0de0") + bytes(4)
END = bytes.fromhex("feffdde0") + bytes(4)


def fragment(content):
    return bytes.fromhex("feff00e0") + struct.pack("<L", len(content)) + content


def pixels(basic, *contents):
    """Returns encapsulated Pixel Data with this Basic Offset Table and fragments of these contents."""
    table = struct.pack(f"<{len(basic)}L", *basic)
    return b"\xe0\x7f\x10\0OB\0\0" + UNDEFINED + b"".join(map(fragment, (table, *contents))) + END


def extended(number, values):
    """Returns the extended table 7fe0,0001 of offsets or 7fe0,0002 of lengths, or nothing if it has no values."""
    value = struct.pack(f"<{len(values)}Q", *values)
    return struct.pack("<HH2sHL", 0x7FE0, number, b"OV", 0, len(value)) + value if values else b""


def two_frames(frames=b"02", basic=(0, 12)):
    """Returns a data set of two frames of one fragment each, after a Basic Offset Table."""
    return element((0x28, 8), "IS", frames) + pixels(basic, b"abcd", b"ef")


def two_fragments(frames=b"2 ", offsets=(0, 12), lengths=(3, 6), basic=()):
    """Returns a data set of fragments of 4 bytes and of 6, with these tables."""
    tables = extended(1, offsets) + extended(2, lengths)
    return element((0x28, 8), "IS", frames) + tables + pixels(basic, b"abc\0", b"defghi")


FRAMES = two_frames()
LINES = f"""class {CT}
instance 1.2.3
syntax {JPEG}
0000000290 0028,0008 IS 2 NumberOfFrames
           = 02
0000000300 7fe0,0010 OB undefined PixelData
0000000312   fffe,e000 -- 8 Item
             = 0\\12
0000000328   fffe,e000 -- 4 Item
0000000340   fffe,e000 -- 2 Item
0000000350   fffe,e0dd -- 0 End
end 358
"""
TABLE_JSON = '{"place":312,"level":1,"tag":"fffe,e000","vr":null,"length":8,"keyword":"Item","value":"0\\\\12"}'
NOT_TAKEN = "fault 53 OtherSyntax at 132\n"
NAMED = f"its transfer syntax is JPEGBaseline8Bit ({JPEG}), which is not taken; --all-syntaxes takes it\n"
ALL = "--all-syntaxes"


@pytest.fixture
def frames(put):
    """Writes the file of two frames."""
    put({"frames.dcm": JPEG_HEADER + FRAMES})


def without_missing(lines):
    """Returns these lines without the notes about missing UIDs, which each data set here causes."""
    kept = [line for line in lines.splitlines(keepends=True) if not line.endswith(" 21 MissingUid\n")]
    return "".join(kept)


@pytest.fixture
def check(put, run):
    """Checks several files of data sets, and returns what is written for each by its name.

    The program's status and the counts of good and of faulty files have to be those of these lines.
    """

    def checked(data_sets, *options):
        put({name: JPEG_HEADER + data for name, data in data_sets.items()})
        done = run("check", *options, *data_sets)
        lines, counts = re.fullmatch(r"(.*\n)(files .*)\n", done.stdout, re.DOTALL).groups()
        before, *parts = re.split("^file (.*)\n", without_missing(lines), flags=re.M)
        assert (before, parts[::2]) == ("", [*data_sets])
        found = dict(zip(data_sets, parts[1::2]))
        faulty = sum("fault " in written for written in found.values())
        good, notes = len(found) - faulty, len(re.findall("^note ", lines, re.M))
        assert counts == f"files {len(found)} good {good} faulty {faulty} unread 0 notes {notes}"
        assert (done.returncode, done.stderr) == (int("--strict" in options or faulty > 0), "")
        return found

    return checked


@pytest.fixture
def are_noted(check):
    """Asserts that a strict check writes its note for each data set, or none, and that each is good."""

    def noted(*rows):
        wanted = {
            name: (f"note {note}\n" if note else "") + f"good {START + len(data)}\n" for name, data, note in rows
        }
        assert len(wanted) == len(rows)
        assert check({name: data for name, data, _ in rows}, "--strict", ALL) == wanted

    return noted


@pytest.mark.parametrize(
    "status, output, errors, options",
    cases(
        ("every syntax", 0, LINES, "", [ALL]),
        ("native syntaxes", 1, NOT_TAKEN, f"dcmbox: frames.dcm: {NAMED}", []),
    ),
)
@pytest.mark.usefixtures("frames")
def test_fragments_are_shown(run, status, output, errors, options):
    done = run("show", "--values", *options, "frames.dcm")
    assert (done.returncode, done.stdout, done.stderr) == (status, output, errors)


@pytest.mark.usefixtures("frames")
def test_fragments_are_shown_as_json(run):
    done = run("show", "--values", "--json", ALL, "frames.dcm")
    assert TABLE_JSON in done.stdout
    assert done.stdout.endswith('"result":"good","length":358}\n')
    assert (done.returncode, done.stderr) == (0, "")


@pytest.mark.parametrize("strict", cases(("a check", []), ("a strict check", ["--strict"])))
def test_fragments_are_checked(check, strict):
    """An item of undefined length among them is a fault, as is an end before that of the items."""
    data_sets = {
        "good": FRAMES,
        "an item cut": FRAMES[:-9],
        "the end cut": FRAMES[:-4],
        "an endless item": changed(FRAMES, 42, UNDEFINED),
    }
    assert check(data_sets, *strict, ALL) == {
        "good": "good 358\n",
        "an item cut": "fault 20 Truncated at 349 tag fffe,e000\n",
        "the end cut": "fault 20 Truncated at 354 tag fffe,e0dd\n",
        "an endless item": "fault 14 UndefinedLength at 328 tag fffe,e000\n",
    }


@pytest.mark.parametrize("strict", cases(("a check", []), ("a strict check", ["--strict"])))
@pytest.mark.usefixtures("frames")
def test_a_syntax_that_is_not_accepted_is_named(run, strict):
    done = run("check", *strict, "frames.dcm")
    assert (done.returncode, done.stdout, done.stderr) == (1, NOT_TAKEN, f"dcmbox: frames.dcm: {NAMED}")
    done = run("check", *strict, ALL, "frames.dcm")
    assert (done.returncode, without_missing(done.stdout), done.stderr) == (len(strict), "good 358\n", "")


def test_offset_tables_are_held_against_fragments(are_noted):
    offset, count = (f"0000000312 fffe,e000 -- {rule}" for rule in ("15 WrongOffset", "16 WrongCount"))
    wrong = ((4, 12), (0, 10), (0, 0), (0, 22), (12, 0))
    are_noted(
        ("02 frames", two_frames(), ""),
        ("2 frames", two_frames(b"2 "), ""),
        ("no number", two_frames(b"x "), "0000000290 0028,0008 IS 1 BadCharacter"),
        ("3 frames", two_frames(b"3 "), count),
        *((f"offsets {offsets}", two_frames(basic=offsets), offset) for offsets in wrong),
    )


# The notes of the two extended tables.
WRONG_OFFSET = "0000000300 7fe0,0001 OV 15 WrongOffset"
WRONG_COUNT = "0000000300 7fe0,0001 OV 16 WrongCount"
WRONG_LENGTH = "0000000328 7fe0,0002 OV 17 WrongLength"


def test_offsets_are_held_against_fragments(are_noted):
    wrong = ((4, 12), (0, 0), (0, 10), (12, 0), (0, 26), (0, (1 << 32) + 12), (0, (1 << 64) - 1))
    are_noted(
        ("offsets of the fragments", two_fragments(offsets=(0, 12)), ""),
        *((f"offsets {offsets}", two_fragments(offsets=offsets), WRONG_OFFSET) for offsets in wrong),
        ("02 frames", two_fragments(b"02"), ""),
        ("1 frame", two_fragments(b"1 "), WRONG_COUNT),
        ("3 frames", two_fragments(b"3 "), WRONG_COUNT),
    )


def test_lengths_are_held_against_fragments(are_noted):
    """One frame of two fragments has no extended table."""
    wrong = ((2, 6), (5, 6), (3, 7), (3, (1 << 32) + 6), ((1 << 64) - 1, 6))
    are_noted(
        *((f"lengths {lengths}", two_fragments(lengths=lengths), "") for lengths in ((3, 6), (4, 5))),
        *((f"lengths {lengths}", two_fragments(lengths=lengths), WRONG_LENGTH) for lengths in wrong),
        ("one frame", two_fragments(b"1 ", (0,), (10,)), "0000000320 7fe0,0002 OV 17 WrongLength"),
    )


def test_there_are_as_many_lengths_as_offsets(are_noted):
    are_noted(
        ("fewer lengths", two_fragments(lengths=(3,)), "0000000328 7fe0,0002 OV 16 WrongCount"),
        ("no lengths", two_fragments(lengths=()), WRONG_COUNT),
        ("lengths alone", two_fragments(offsets=()), "0000000300 7fe0,0002 OV 16 WrongCount"),
    )


def test_a_second_table_is_noted(are_noted):
    note = "0000000368 fffe,e000 -- 18 SecondTable"
    are_noted(
        ("both", two_fragments(basic=(0, 12)), note),
        ("basic", two_fragments(offsets=(), lengths=(), basic=(0, 12)), ""),
    )


def test_notes_of_tables_need_strict(put, run):
    put({"wrong.dcm": JPEG_HEADER + two_fragments(offsets=(4, 12))})
    done = run("check", ALL, "wrong.dcm")
    assert (done.returncode, done.stdout, done.stderr) == (0, "good 410\n", "")
    done = run("check", "--strict", "--json", ALL, "wrong.dcm")
    note = (
        '{"place":300,"tag":"7fe0,0001","vr":"OV","number":15,"name":"WrongOffset",'
        '"keyword":"ExtendedOffsetTable"}'
    )
    assert note in done.stdout
    assert (done.returncode, done.stderr) == (1, "")


def icon(offsets, has_pixels):
    """Returns an image of two frames with this Extended Offset Table in its Icon Image Sequence."""
    inner = extended(1, offsets) + (extended(2, (2,)) + pixels((), b"ab") if has_pixels else b"")
    item = bytes.fromhex("feff00e0") + UNDEFINED + inner + END_OF_ITEM
    sequence = b"\x88\0\0\x02SQ\0\0" + UNDEFINED + item + END
    return element((0x28, 8), "IS", b"2 ") + sequence + pixels((0, 12), b"abc\0", b"defghi")


def test_each_level_has_tables_of_its_own(are_noted):
    """A table applies only to the Pixel Data of its own level, and Number of Frames only to that of the top level."""
    are_noted(
        ("the right offset", icon((0,), True), ""),
        ("a wrong offset", icon((4,), True), "0000000320 7fe0,0001 OV 15 WrongOffset"),
        ("no pixels", icon((4,), False), ""),
    )


def many(count, last):
    """Returns Pixel Data of empty fragments with extended tables, whose last offset is this."""
    offsets = [*range(0, 8 * (count - 1), 8), last]
    return extended(1, offsets) + extended(2, [0] * count) + pixels((), *[b""] * count)


def test_tables_up_to_65536_bytes_are_looked_at(are_noted):
    """A table of as many bytes as are kept, and one with one more number."""
    are_noted(
        ("right", many(8192, 65528), ""),
        ("wrong", many(8192, 65530), "0000000290 7fe0,0001 OV 15 WrongOffset"),
        ("one more", many(8193, 65538), ""),
    )
