"""What `index` prints for a folder and leaves there, and what `checkdir` lists, also if calls fail or memory ends."""
import os
import re
import threading

import pytest
from box import PATIENCE
from directories import FIRST, SECOND, THIRD, UNIDENTIFIED, UPPER, counted, image, listed, numbered, reported
from peer import element
from samples import DIRECTORY, cases, changed

ONE, TWO = "records 4\n", "records 5\n"
OLD = b"as it was"
NO_MEMORY = r"(dcmbox: .* a double of .*\n)?dcmbox: (.*: )?out of memory(; .*)?\n"


@pytest.fixture
def index(run, work):
    """Runs `index` over the folder, asserts its status, output and errors, and returns the bytes of its directory."""

    def indexed(options, output, errors, status=0, **keywords):
        done = run("index", "in", "--uid", "2.25.1", *options.split(), **keywords)
        assert (done.returncode, done.stdout, done.stderr) == (status, output, errors)
        return (work / "in/DICOMDIR").read_bytes()

    return indexed


@pytest.fixture
def expect_listed(run):
    """Asserts that `checkdir` lists these records of the folder's directory."""

    def expected(*records):
        done = run("checkdir", "in/DICOMDIR")
        assert (done.returncode, done.stdout, done.stderr) == (0, listed(*records), "")

    return expected


def shown(call):
    """Returns the name of a call that strace -y wrote, and the last name of the first path."""
    return " ".join(re.match(r'(\w+)\((?:AT_FDCWD[^,]*, )?(?:\d+<|")[^">]*?(\w+)[">]', call).groups())


def names(work):
    """Returns the names in the folder."""
    return sorted(os.listdir(work / "in"))


def test_files_by_name(index, put, expect_listed):
    """Files of the folder come first, by name, then those of its subfolders, in whatever order a folder lists them."""
    paths = [f"{folder}I000000{n}" for folder in ("", "S0000001/", "S0000002/") for n in (1, 2, 3)]
    for n in (8, 9, 7, 5, 6, 4, 2, 3, 1):
        put({f"in/{paths[n - 1]}": changed(FIRST, 208, b"%d" % n)})
    index("", "records 12\n", counted(9))
    offsets = (626, 788, 950, 1112, 1284, 1456, 1628, 1800, 1972)
    expect_listed(*UPPER, *map(image, offsets, paths))


class TestKeptRecords:
    """With --keep the files of the present directory are listed."""

    @pytest.fixture(autouse=True)
    def whole(self, index, put):
        """The directory of two images."""
        put(numbered(FIRST, SECOND))
        directory = index("", TWO, counted(2))
        assert len(directory) == 950
        return directory

    def test_inactive_records_are_not_kept(self, index, put, whole):
        """The files are kept whose records, and all records above them, are in use.

        The flags of the record of the first image are at 654, and of its series at 562.
        """
        put({"in/DICOMDIR": changed(whole, 654, b"\0\0")})
        assert len(index("--keep", ONE, counted(1))) == 788
        put({"in/DICOMDIR": changed(whole, 562, b"\0\0")})
        assert len(index("--keep", "records 0\n", counted(0))) == 320
        faulty = changed(whole, 654, b"\1\0")
        put({"in/DICOMDIR": faulty})
        assert index("--keep", "fault 68 BadRecord at 626\n", "", 1) == faulty

    def test_records_of_other_types_are_not_kept(self, index, put, whole, expect_listed):
        """Records at the fourth level of another type than IMAGE keep no file."""
        put({"in/DICOMDIR": changed(whole, 676, b"PLAN  ")})
        errors = "dcmbox: in/I0000001: left out: its record is of type PLAN, not IMAGE\n"
        index("--keep", ONE, errors + counted(1, 1, "records of other types 1"))
        expect_listed(*UPPER, image(626, "I0000002"))

    def test_records_of_other_types(self, index, put, work, whole):
        """A record of another type than IMAGE is reported, and its file is not read."""
        (work / "in/I0000001").unlink()
        put({"in/DICOMDIR": changed(whole, 676, b"RTDOSE")})
        errors = "dcmbox: in/I0000001: left out: its record is of type RTDOSE, not IMAGE\n"
        index("--keep", ONE, errors + counted(1, 1, "records of other types 1"))
        index("--keep --strict", ONE, counted(1))

    def test_a_missing_file_is_skipped(self, index, work, whole):
        """A kept record whose file is missing is skipped; with --strict the directory is unchanged."""
        (work / "in/I0000001").unlink()
        skipped = "skipped I0000001 fault 54\n"
        missing = "dcmbox: in/I0000001: No such file or directory (os error 2)\n"
        why = "fault 54 ReadFailed 1"
        stays = (
            "dcmbox: in: the DICOMDIR stays as it is: 1 of its records would be lost; "
            "without --strict they are left out\n"
        )
        for options in ("--keep --strict", "--keep --strict --drop"):
            assert index(options, skipped, f"{missing}{stays}left out: {why}\n", 1) == whole
        assert len(index("--keep", skipped + ONE, missing + counted(1, 1, why))) == 788
        assert len(index("--keep --strict", ONE, counted(1))) == 788

    def test_drop_does_nothing_more(self, index, put, work, whole):
        """With --drop the output and the directory are those without it."""
        (work / "in/I0000001").unlink()
        skipped = "skipped I0000001 fault 54\n"
        errors = "dcmbox: in/I0000001: No such file or directory (os error 2)\n" + counted(1, 1, "fault 54 ReadFailed 1")
        directories = []
        for options in ("--keep", "--keep --drop"):
            put({"in/DICOMDIR": whole})
            directories.append(index(options, skipped + ONE, errors))
        assert directories[0] == directories[1] != whole

    def test_a_double_is_not_kept(self, index, put, whole):
        """The record of a file that is now a double of another one is lost; with --strict the directory stays."""
        put({"in/I0000002": FIRST})
        double, why = "double I0000002\n", "doubles 1"
        stays = "dcmbox: in: the DICOMDIR stays as it is: 1 of its records would be lost; without --strict they are left out\n"
        assert index("--keep --strict", double, f"{stays}left out: {why}\n", 1) == whole
        same = "dcmbox: in/I0000002: a double of I0000001, with the same bytes\n"
        index("--keep", double + ONE, same + counted(1, 1, why))


def test_a_directory_that_is_not_written(index, put, work):
    """If the new directory can't be written, the old one is unchanged."""
    put(numbered(FIRST))
    assert index("", ONE, counted(1)) == DIRECTORY
    (work / "in/I0000001").unlink()
    (work / "in/DIRDRAFT").mkdir()
    errors = (
        "dcmbox: in: the directory can't be written: File exists (os error 17); "
        "check that the disk has room, and that you may write into the folder\n"
    )
    assert index("", "", errors, 3) == DIRECTORY


@pytest.fixture(params=["/dev/full", "a pipe that is closed"])
def lost(request):
    """An output that fails."""
    if request.param == "/dev/full":
        with open(request.param, "wb") as full:
            yield full
    else:
        reading, writing = os.pipe()
        os.close(reading)
        yield writing
        os.close(writing)


def test_the_output_fails(run, put, work, lost):
    """The output is lost, but the directory is written."""
    put(numbered(FIRST, UNIDENTIFIED))
    done = run("index", "in", "--uid", "2.25.1", stdout=lost)
    assert done.returncode == 3
    assert (work / "in/DICOMDIR").read_bytes() == DIRECTORY


class TestDuplicates:
    """Files with the SOP Instance UID of an earlier file."""

    def double(self, name, of, what):
        return f"dcmbox: in/{name}: a double of {of}, {what}\n"

    def test_duplicates_are_compared(self, index, put, work):
        """Two doubles with the same bytes, and one of another series."""
        put(numbered(FIRST, SECOND, FIRST, SECOND, changed(FIRST, 398, b"2")))
        errors = self.double("I0000003", "I0000001", "with the same bytes")
        errors += self.double("I0000004", "I0000002", "with the same bytes")
        errors += self.double("I0000005", "I0000001", "with other bytes")
        output = "double I0000003\ndouble I0000004\ndouble I0000005\n" + TWO
        index("", output, errors + counted(2, 3, "doubles 3"))
        for name in ("I0000003", "I0000004", "I0000005"):
            (work / "in" / name).unlink()
        index("", TWO, counted(2))

    def test_duplicates_that_differ_late(self, index, put):
        """Two large files whose last bytes are the same or differ; and a file that goes on after another ends."""
        large = FIRST + bytes.fromhex("fcfffcff 4f42 0000 00400000") + b"\7" * 16383
        compared = [
            (large + b"\7", large + b"\7", "with the same bytes"),
            (large + b"\7", large + b"\10", "with other bytes"),
            (FIRST, large + b"\10", "with other bytes"),
        ]
        for first, second, what in compared:
            put(numbered(first, second))
            errors = self.double("I0000002", "I0000001", what) + counted(1, 1, "doubles 1")
            index("", "double I0000002\n" + ONE, errors)

    @pytest.mark.parametrize("name", ["I0000002", "I0000001"])
    def test_duplicates_that_are_not_compared(self, run, put, work, trace, calls, name):
        """A duplicate that can't be opened again, and the file before it; the directory is written and synced."""
        put(numbered(FIRST, FIRST))
        traced = ("-y", "-P", f"in/{name}", "-P", "in", "-e", "trace=openat,fsync")
        failing = trace(*traced, "-e", "inject=openat:error=ENOENT:when=2")
        done = run(*"index in --uid 2.25.1".split(), before=failing)
        assert (done.returncode, done.stdout) == (0, "double I0000002\n" + ONE)
        line = self.double("I0000002", "I0000001", "which can't be compared")
        assert reported(done) == line + counted(1, 1, "doubles 1")
        assert (work / "in/DICOMDIR").read_bytes() == DIRECTORY
        assert [shown(call) for call in calls()] == [f"openat {name}", f"openat {name}", "openat in", "fsync in"]


# A file header up to its Implementation Class UID.
FRONT = bytes(128) + b"DICM" + element((2, 0), "UL", b"\44\0\0\0") + element((2, 1), "OB", b"\0\1") + b"\2\0\22\0UI"


def test_directories_of_the_program_are_replaced(index, put):
    """A file header up to the Implementation Class UID of the program suffices."""
    own = FRONT + b"\16\0" + b"2.25.20260101\0"
    for options in ("", "--replace"):
        put({**numbered(FIRST), "in/DICOMDIR": own})
        assert index(options, ONE, counted(1)) == DIRECTORY


@pytest.mark.parametrize(
    "directory",
    cases(
        ("another UID", FRONT + b"\16\0" + b"2.25.20260102\0"),
        ("a longer UID", FRONT + b"\16\0" + b"2.25.202601011"),
        ("a UID that its length cuts off", FRONT + b"\74\0" + b"2.25.20260101\0"),
        ("another tag", FRONT.replace(b"\22\0UI", b"\23\0UI") + b"\16\0" + b"2.25.20260101\0"),
        ("a cut header", FRONT + b"\16\0" + b"2.25"),
        ("text", OLD),
        ("an empty file", b""),
    ),
)
def test_directories_of_other_implementations_stay(index, put, directory):
    """They stay unless --replace is given."""
    errors = (
        "dcmbox: in: the folder's DICOMDIR was written by another program, and stays as it is; "
        "take the images that it names with --keep, or write over it with --replace\n"
    )
    put({**numbered(FIRST), "in/DICOMDIR": directory})
    assert index("", "", errors, 3) == directory
    assert index("--replace", ONE, counted(1)) == DIRECTORY


def test_a_folder_with_a_compressed_file(index, put):
    """A file in JPEG Lossless is skipped without --all-syntaxes; with it, its record has its transfer syntax.

    The option is named where it takes the file: not where one in big endian is left out.
    Its Pixel Data has an empty Basic Offset Table and no fragments.
    """
    syntax = b"\26\0" + b"1.2.840.10008.1.2.4.57"
    pixels = bytes.fromhex("e07f1000 4f42 0000 ffffffff feff00e0 00000000 feffdde0 00000000")
    put(numbered(FIRST, changed(SECOND[:216] + syntax + SECOND[238:], 140, b"\x96") + pixels))
    output, why = "skipped I0000002 fault 53\n" + ONE, "fault 53 OtherSyntax 1"
    assert len(index("", output, counted(1, 1, f"{why} (taken with --all-syntaxes)"))) == 788
    directory = index("--all-syntaxes", TWO, counted(2))
    assert len(directory) == 952
    assert directory[912:942] == b"\4\0\22\25UI" + syntax
    put(numbered(FIRST, SECOND.replace(b"1.2.840.10008.1.2.1\0", b"1.2.840.10008.1.2.2\0")))
    for options in ("", "--all-syntaxes"):
        index(options, output, counted(1, 1, why))


def test_images_and_files_that_are_omitted(index, put, work):
    """A duplicate and a file without Study ID are left out, then a kept file that is missing.

    A directory with a fault has no counts.
    """
    put(numbered(FIRST, SECOND, THIRD, FIRST, UNIDENTIFIED))
    double = "dcmbox: in/I0000004: a double of I0000001, with the same bytes\n"
    errors = double + counted(3, 2, "missing 0020,0010 StudyID 1, doubles 1")
    index("", "skipped I0000005 missing 0020,0010\ndouble I0000004\nrecords 7\n", errors)
    (work / "in/I0000001").unlink()
    missing = "dcmbox: in/I0000001: No such file or directory (os error 2)\n"
    errors = missing + counted(2, 1, "fault 54 ReadFailed 1")
    index("--keep", "skipped I0000001 fault 54\nrecords 6\n", errors)
    put({"in/DICOMDIR": b"no directory"})
    assert index("--keep", "fault 50 NotPart10 at 128\n", "", 1) == b"no directory"


# The calls that replace a directory, in order.
CALLS = [
    *("unlink DIRDRAFT", "openat DIRDRAFT", "write DIRDRAFT", "fsync DIRDRAFT", "rename DIRDRAFT"),
    *("openat in", "fsync in"),
]


@pytest.mark.parametrize(
    "injected, reached, left",
    cases(
        ("no call", "", CALLS, DIRECTORY),
        ("a write is short", "write:retval=100:when=1", [*CALLS[:3], *CALLS[2:]], DIRECTORY[100:]),
        ("an earlier draft is not removed", "unlink:error=EIO:when=1", [*CALLS[:2], CALLS[0]], OLD),
        ("the draft is not created", "openat:error=EIO:when=1", [*CALLS[:2], CALLS[0]], OLD),
        # (a buffer that is given up is written once more)
        ("the draft is not written", "write:error=EIO:when=1", [*CALLS[:3], CALLS[2], CALLS[0]], OLD),
        ("the draft is not synced", "fsync:error=EIO:when=1", [*CALLS[:4], CALLS[0]], OLD),
        ("the draft is not renamed", "rename:error=EIO:when=1", [*CALLS[:5], CALLS[0]], OLD),
        ("the folder is not opened", "openat:error=EIO:when=2", CALLS[:6], DIRECTORY),
        ("the folder is not synced", "fsync:error=EIO:when=2", CALLS, DIRECTORY),
    ),
)
def test_each_call_of_the_disk_fails(run, put, work, trace, calls, injected, reached, left):
    """A file with the draft's name is removed; the draft is created, written and synced before it gets its name; then
    the folder is synced.

    A failure before the rename leaves the old directory unchanged and no draft. (By strace's report, 100 bytes of a
    short write are written.)
    """
    put({**numbered(FIRST), "in/DICOMDIR": OLD, "in/DIRDRAFT": b"of an earlier run"})
    options = ["-y", "-P", "in", "-P", "in/DIRDRAFT", "-e", "trace=unlink,openat,write,fsync,rename"]
    if injected:
        options += ["-e", f"inject={injected}"]
    done = run(*"index in --uid 2.25.1 --replace".split(), before=trace(*options))
    if "EIO" in injected:
        why = "File exists" if "unlink" in injected else "Input/output error"
        error = f"dcmbox: in: the directory can't be written: {why} (os error "
        assert (done.returncode, done.stdout) == (3, "") and reported(done).startswith(error)
    else:
        assert (done.returncode, done.stdout, reported(done)) == (0, ONE, counted(1))
    assert [shown(call) for call in calls()] == reached
    assert (work / "in/DICOMDIR").read_bytes() == left
    assert names(work) == ["DICOMDIR", "I0000001"]


@pytest.fixture
def refused(run, work, refuse):
    """Runs the program while each allocation in turn is refused, and then the directory is as it was before.

    Returns the runs for which memory ran out in the command itself, and the first run that meets no refusal.
    """

    def ran(*arguments):
        old, entries, found, number = (work / "in/DICOMDIR").read_bytes(), names(work), [], 1
        while True:
            done = run(*arguments, before=refuse(number))
            assert names(work) == entries
            if (work / "refused.txt").stat().st_size == 0:
                return found, done
            assert done.returncode == 3 and re.fullmatch(NO_MEMORY, done.stderr), (number, done)
            assert (work / "in/DICOMDIR").read_bytes() == old
            if "dcmbox: in" in done.stderr:
                found.append(done)
            else:
                assert done.stdout == ""
            number += 1

    return ran


class TestRefusedAllocations:
    """Whichever allocation is refused, `index` fails because memory ran out, and the old directory is unchanged."""

    @pytest.mark.parametrize("options", [(), ("--keep",)], ids=["all", "kept"])
    def test_each_allocation_is_refused(self, index, refused, put, work, options):
        """If no directory can be built, the files without a row are reported."""
        put(numbered(FIRST, SECOND))
        index("", TWO, counted(2))
        put({"in/I0000002": UNIDENTIFIED})
        runs, last = refused("index", "in", "--uid", "2.25.1", *options)
        skipped = "skipped I0000002 missing 0020,0010\n"
        assert (last.returncode, last.stdout) == (0, skipped + ONE)
        assert (work / "in/DICOMDIR").read_bytes() == DIRECTORY
        outputs = [done.stdout for done in runs]
        assert set(outputs) == {"", skipped} and 30 < len(outputs) and 5 < outputs.count(skipped)

    def test_memory_for_what_is_reported(self, refused, put, work):
        """Memory runs out even for a report."""
        put({**numbered(FIRST, FIRST), "in/DICOMDIR": OLD})
        runs, last = refused("index", "in", "--uid", "2.25.1", "--replace")
        errors = "dcmbox: in/I0000002: a double of I0000001, with the same bytes\n" + counted(1, 1, "doubles 1")
        assert (last.returncode, last.stderr) == (0, errors)
        assert (work / "in/DICOMDIR").read_bytes() == DIRECTORY and 20 < len(runs)


def write_bytes(pipe, data):
    """Writes each byte by itself, and closes the pipe."""
    for byte in data:
        os.write(pipe, bytes([byte]))
    os.close(pipe)


class TestCheckdir:
    """The records of a directory while its reads are short or fail, and while memory runs out."""

    RECORDS = listed(*UPPER, image(626, "I0000001"))
    READS = ("-P", "in/DICOMDIR", "-e", "trace=read")

    @pytest.fixture(autouse=True)
    def directory(self, put):
        """The folder with the directory of an image."""
        put({"in/DICOMDIR": DIRECTORY})

    def test_records_are_listed(self, run, trace, calls):
        """The read that would find the end of the directory fails."""
        done = run("checkdir", "in/DICOMDIR", before=trace(*self.READS))
        assert (done.returncode, done.stdout, reported(done)) == (0, self.RECORDS, "")
        failing = f"inject=read:error=EIO:when={len(calls())}"
        done = run("checkdir", "in/DICOMDIR", before=trace(*self.READS, "-e", failing))
        assert (done.returncode, done.stdout) == (3, "")
        assert reported(done).startswith("dcmbox: in/DICOMDIR: the file can't be read: Input/output error ")

    def test_records_are_listed_by_byte(self, run, trace, calls):
        """In a pipe of packets each read returns what one write wrote, a byte."""
        reading, writing = os.pipe2(os.O_DIRECT)
        writer = threading.Thread(target=write_bytes, args=(writing, DIRECTORY), daemon=True)
        writer.start()
        done = run("checkdir", "-", stdin=reading, before=trace("-e", "trace=read"))
        os.close(reading)
        writer.join(PATIENCE)
        assert (done.returncode, done.stdout, done.stderr) == (0, self.RECORDS, "")
        reads = [call for call in calls() if call.startswith("read(0,")]
        assert [call.split(" = ")[-1] for call in reads] == ["1"] * len(DIRECTORY) + ["0"]

    def test_each_allocation_is_refused(self, refused):
        """While the directory is read, or after that: nothing is printed."""
        runs, last = refused("checkdir", "in/DICOMDIR")
        assert (last.returncode, last.stdout, last.stderr) == (0, self.RECORDS, "")
        assert {done.stdout for done in runs} == {""} and 5 < len(runs)
