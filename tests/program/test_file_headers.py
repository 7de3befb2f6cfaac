"""File meta information (PS3.10 section 7.1) as it is written and read, its faults and its broken rules."""
import re
import struct

import pytest
from peer import CT, EXPLICIT, RELEASE, STORES, data_set_pdus, element, request, store_command
from samples import CT_FILE, ELEMENTS, HEADER, IMAGE, SHOWN, cases, changed

IMPLICIT, BIG_ENDIAN, JPEG = "1.2.840.10008.1.2", "1.2.840.10008.1.2.2", "1.2.840.10008.1.2.4.70"
ALL = "--all-syntaxes"
# The header of a CT image and one element after it. The header's elements are at the bytes 132 (length), 144 (version),
# 158 (SOP Class UID), 192 (SOP Instance UID), 206 (Transfer Syntax UID), 234 and later.
FILE = HEADER + element((0x08, 0x05), "CS", b"ISO_IR 192")
NOT_PART_10 = "fault 50 NotPart10 at 128\n"
BAD_META = "fault 51 BadMeta at 132\n"
OTHER_SYNTAX = "fault 53 OtherSyntax at 132\n"
CUT = "the file ends inside group 0002"
ENDS_WITHIN = "the length of group 0002 ends inside an element"
NO_LENGTH = "group 0002 does not begin with its length"
NO_VR = "an element of group 0002 has no VR"
LENGTH = "0002,0000 FileMetaInformationGroupLength"
VERSION = "0002,0001 FileMetaInformationVersion"
CLASS = "0002,0002 MediaStorageSOPClassUID"
INSTANCE = "0002,0003 MediaStorageSOPInstanceUID"
SYNTAX = "0002,0010 TransferSyntaxUID"


def within(tag):
    return f"{tag} stands within the length of group 0002"


def not_rising(tag):
    return f"{tag} does not rise above the tag before it"


def odd(tag):
    return f"{tag} has an odd or undefined length"


def missing(tag):
    return f"{tag} is missing or no UID"


# What a check returns and prints, on standard output and on standard error.
GOOD, NO_PREFIX = (0, f"good {len(FILE)}\n", ""), (1, NOT_PART_10, "")


def named(rule, file="a.dcm"):
    """Returns the line of standard error that names the rule that a file breaks."""
    return f"dcmbox: {file}: its file meta information is wrong: {rule}\n"


def broken(rule):
    """Returns what a check returns and prints if the file meta information breaks this rule."""
    return 1, BAD_META, named(rule)


def other(syntax, rest=""):
    """Returns what a check returns and prints if the transfer syntax, a keyword with its UID, is not accepted."""
    return 1, OTHER_SYNTAX, f"dcmbox: a.dcm: its transfer syntax is {syntax}, which is not taken{rest}\n"


def uid(number, text):
    """Returns an element of group 0002 with a UID."""
    return element((2, number), "UI", text.encode() + b"\0" * (len(text) % 2))


def file_of(group, preamble=bytes(128)):
    """Returns a file that has these elements of group 0002 after their length."""
    return preamble + b"DICM" + element((2, 0), "UL", struct.pack("<L", len(group))) + group


def header(title=b"", syntax=EXPLICIT):
    """Returns the header of a stored CT image 1.2.3 from this calling AE title."""
    return file_of(
        element((2, 1), "OB", b"\0\1")
        + uid(2, CT)
        + uid(3, "1.2.3")
        + uid(0x10, syntax)
        + uid(0x12, "2.25.20260101")
        + element((2, 0x13), "SH", b"DCMBOX_1")
        + (element((2, 0x16), "AE", title) if title else b"")
    )


@pytest.fixture
def printed(run, put):
    """Returns the status, the output and the standard error of a command for a file of these bytes."""

    def of(data, command="check", *options):
        put({"a.dcm": data})
        done = run(command, *options, "a.dcm")
        return done.returncode, done.stdout, done.stderr

    return of


@pytest.fixture
def stored(run, put, work):
    """Replays a recording with this calling AE title, and returns the first stored file."""

    def first(recording, title, *options):
        put({"sent.bin": changed(recording, 26, title.ljust(16))})
        (work / "received").mkdir(exist_ok=True)
        done = run("replay", "sent.bin", "--out", "received", *options)
        assert (done.returncode, done.stderr) == (0, "")
        return (work / "received/I0000001").read_bytes()

    return first


@pytest.mark.parametrize(
    "title, size, length", cases(("a title", b"SCANNER1", 288, 144), ("no title", b"", 272, 128))
)
def test_headers_with_a_title_and_without(stored, title, size, length):
    file, wanted = stored(STORES, title), header(title)
    assert (len(wanted), wanted[140:144]) == (size, bytes([length, 0, 0, 0]))
    assert file == wanted + CT_FILE[288:]


def test_headers_in_a_compressed_syntax(stored, printed):
    """The header alone is a file without a data set."""
    sent = store_command(1, CT, "1.2.3") + b"".join(data_set_pdus(1, CT_FILE[288:])) + RELEASE
    compressed = header(syntax=JPEG)
    assert stored(request([(CT, JPEG)]) + sent, b"", ALL) == compressed + CT_FILE[288:]
    assert printed(compressed) == other(f"JPEGLosslessSV1 ({JPEG})", "; --all-syntaxes takes it")
    assert printed(compressed, "show", ALL) == (0, SHOWN.replace(EXPLICIT, JPEG) + "end 274\n", "")
    assert printed(header(), "show", ALL) == (0, f"{SHOWN}end 272\n", "")


def test_a_stored_file_is_read_back(run, put, printed):
    """Cut after any byte of its header, it has no prefix DICM (fault 50), or no file meta information (fault 51)."""
    assert len(CT_FILE) == 336 and printed(CT_FILE, "show") == (0, f"{SHOWN}{ELEMENTS}end 336\n", "")
    put({f"in/{size:03}": CT_FILE[:size] for size in range(288)})
    done = run("check", "-r", "in")
    lines = [f"file in/{size:03}\n{NOT_PART_10 if size < 132 else BAD_META}" for size in range(288)]
    assert done.stdout == "".join(lines) + "files 288 good 0 faulty 288 unread 0 notes 0\n"
    assert done.stderr == "".join(named(CUT, f"in/{size}") for size in range(132, 288))
    assert done.returncode == 1


@pytest.mark.parametrize(
    "file, expected",
    cases(
        ("any preamble", changed(CT_FILE, 0, b"\1"), (0, "good 336\n", "")),
        ("the first letter", changed(CT_FILE, 128, b"d"), NO_PREFIX),
        ("the last letter", changed(CT_FILE, 131, b"m"), NO_PREFIX),
        ("the group of the length", changed(CT_FILE, 132, b"\1"), broken(NO_LENGTH)),
        ("the number of the length", changed(CT_FILE, 134, b"\1"), broken(NO_LENGTH)),
        ("the VR of the length", changed(CT_FILE, 136, b"O"), broken(NO_LENGTH)),
        ("the length of the length", changed(CT_FILE, 138, b"\2"), broken(NO_LENGTH)),
        ("past the last element", changed(CT_FILE, 140, b"\x92"), broken(ENDS_WITHIN)),
        ("within the last element", changed(CT_FILE, 140, b"\x8e"), broken(ENDS_WITHIN)),
        ("past the end of the file", changed(CT_FILE, 141, b"\1"), broken(within("0008,0016 SOPClassUID"))),
        ("a tag that does not rise", changed(CT_FILE, 146, b"\0"), broken(not_rising(LENGTH))),
        ("no VR", changed(CT_FILE, 148, b"o"), broken(NO_VR)),
        ("an odd length", changed(CT_FILE, 152, b"\3"), broken(odd(VERSION))),
        ("a length past the group", changed(CT_FILE, 165, b"\xff"), broken(ENDS_WITHIN)),
        ("a class that is no UID", changed(CT_FILE, 166, b"x"), broken(missing(CLASS))),
        ("an element of another group", changed(CT_FILE, 158, b"\4"), broken(within("0004,0002"))),
        ("another transfer syntax", changed(CT_FILE, 232, b"2"), other(f"ExplicitVRBigEndian ({BIG_ENDIAN})")),
        ("an empty file", b"", NO_PREFIX),
    ),
)
def test_faults_of_file_headers(printed, file, expected):
    assert printed(file) == expected


def test_lengths_take_no_room(printed):
    """A UID with 60,001 bytes of padding and a skipped element of 70,000 bytes are read."""
    group = (
        uid(2, CT)
        + element((2, 3), "UI", b"1.2.3" + bytes(60001))
        + uid(0x10, IMPLICIT)
        + element((2, 0x102), "OB", b"\5" * 70000)
    )
    file = file_of(group, b"\7" * 128) + b"data"
    # The data set is the four letters, as a tag.
    fault = f"fault 20 Truncated at {len(file)} tag 6164,6174\n"
    assert printed(file, "show") == (1, SHOWN.replace(EXPLICIT, IMPLICIT) + fault, "")
    # A character after the padding is part of the UID.
    assert printed(changed(file, 60000, b"4")) == (1, BAD_META, "")


def test_faults_have_numbers_and_names(run, put, work):
    """`check` and `index` print those of file headers, and `index` that of a file that can't be read."""
    files = [b"text", HEADER[:200], changed(CT_FILE, 232, b"2"), IMAGE]
    put({f"in/I000000{number}": data for number, data in zip("1235", files)})
    done = run("check", "-r", "in")
    results = zip("1235", (NOT_PART_10, BAD_META, OTHER_SYNTAX, "good 430\n"))
    lines = "".join(f"file in/I000000{number}\n{result}" for number, result in results)
    assert (done.returncode, done.stdout) == (1, lines + "files 4 good 1 faulty 3 unread 0 notes 0\n")
    (work / "in/I0000004").symlink_to("missing")
    done = run("index", "in", "--uid", "2.25.1")
    faults = zip("1234", (50, 51, 53, 54))
    skipped = "".join(f"skipped I000000{number} fault {fault}\n" for number, fault in faults)
    assert (done.returncode, done.stdout) == (0, f"{skipped}records 4\n")
    assert done.stderr == (
        "dcmbox: in/I0000004: No such file or directory (os error 2)\n"
        "images 1 left out 4\n"
        "left out: fault 50 NotPart10 1, fault 51 BadMeta 1, fault 53 OtherSyntax 1, fault 54 ReadFailed 1\n"
    )


@pytest.mark.parametrize(
    "offset, new, expected",
    cases(
        ("any preamble", 0, b"x", GOOD),
        ("other letters", 128, b"dicm", NO_PREFIX),
        ("another tag of the length", 134, b"\1", broken(NO_LENGTH)),
        ("another VR of the length", 136, b"US", broken(NO_LENGTH)),
        ("the VR of the version", 148, b"o", broken(NO_VR)),
        ("its group", 144, b"\4", broken(within("0004,0001"))),
        ("its number", 146, b"\0", broken(not_rising(LENGTH))),
        ("its odd length", 152, b"\3", broken(odd(VERSION))),
        ("its undefined length", 152, b"\xff\xff\xff\xff", broken(odd(VERSION))),
        ("its length past the group", 152, b"\xf0\xff", broken(ENDS_WITHIN)),
    ),
)
def test_broken_rules(printed, offset, new, expected):
    assert printed(changed(FILE, offset, new)) == expected


@pytest.mark.parametrize(
    "file, expected",
    cases(
        ("one byte less", changed(FILE, 140, b"\x8f"), broken(ENDS_WITHIN)),
        ("less than a header", changed(FILE, 140, b"\7"), broken(ENDS_WITHIN)),
        ("with the data set", changed(FILE, 140, b"\xa2"), broken(within("0008,0005 SpecificCharacterSet"))),
        ("none", changed(FILE, 140, b"\0"), broken(missing(CLASS))),
        ("up to the transfer syntax", changed(FILE, 140, b"\x3e"), broken(missing(SYNTAX))),
        *((f"a file of {end} bytes", HEADER[:end], broken(CUT)) for end in (132, 143, 144, 150, 287)),
        ("a file of 131 bytes", HEADER[:131], NO_PREFIX),
    ),
)
def test_wrong_lengths_of_the_group(printed, file, expected):
    """The length is less or more than the group has, or more than the file has."""
    assert printed(file) == expected


@pytest.mark.parametrize(
    "offset, new, rule",
    cases(
        ("a second version", 160, b"\1\0", not_rising(VERSION)),
        ("no class", 166, b"x", missing(CLASS)),
        ("no instance", 200, b"x", missing(INSTANCE)),
        ("no transfer syntax", 208, b"\x11", missing(SYNTAX)),
    ),
)
def test_needed_elements(printed, offset, new, rule):
    assert printed(changed(FILE, offset, new)) == broken(rule)


@pytest.mark.parametrize("size, errors", cases(("4095 bytes", 4095, named(CUT)), ("4096 bytes", 4096, "")))
def test_rules_after_what_is_kept(printed, size, errors):
    """The broken rule is unknown after the first 4096 bytes, inside a group of 65,536 bytes."""
    file = changed(HEADER, 140, b"\0\0\1\0") + b"\2\0\2\1OB\0\0\0\x40\0\0"
    assert printed(file.ljust(size, b"\7")) == (1, BAD_META, errors)


def test_rules_are_found_where_headers_are_bad(run, put):
    """For each beginning of a header, and each header with one byte changed in several ways."""
    files = {f"in/cut{end:03}": HEADER[:end] for end in range(288)}
    for offset in range(128, 288):
        for change in (1, 2, 8, 32, 127, 128):
            byte = bytes([HEADER[offset] ^ change])
            files[f"in/{offset}changed{change:03}"] = changed(FILE, offset, byte)
    put(files)
    done = run("check", "-r", ALL, "in")
    assert re.findall("^file (.*)$", done.stdout, re.M) == sorted(files)
    bad = re.findall("^file (.*)\nfault 51 BadMeta at 132$", done.stdout, re.M)
    assert 156 < len(bad) < len(files) and done.stdout.count("fault 51 ") == len(bad)
    assert re.findall(named(".+", "(.*)"), done.stderr) == bad
