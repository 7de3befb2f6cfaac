"""`dcmbox send`: what an archive receives, what is removed, and what is said of the files that stay."""
import json
import pathlib
import re
import shutil
import socket
import struct
import tempfile
import time

import pytest
from box import PATIENCE, listeners, wait_for
from images import data_set, digests, filed, need
from peer import (
    ASSOCIATE_RQ,
    CT,
    DATA,
    EXPLICIT,
    Archive,
    acceptance,
    element,
    fields_of,
    item,
    pdu,
    store_reply,
    values,
)
from ports import free_port
from samples import CT_FILE, DIRECTORY, cases

RLE = "1.2.840.10008.1.2.5"


def uid(tag, text):
    return element(tag, "UI", text.encode() + b"\0" * (len(text) % 2))


def small_set(instance="1.2.1", sop_class=CT):
    """Returns a data set that names its instance, and has nothing else."""
    return uid((8, 0x16), sop_class) + uid((8, 0x18), instance)


def part10(instance, data=None, sop_class=CT, syntax=EXPLICIT):
    """Returns a file with this header, by default of a small image of the instance."""
    if data is None:
        data = small_set(instance, sop_class)
    group = element((2, 1), "OB", b"\0\1") + uid((2, 2), sop_class) + uid((2, 3), instance)
    group += uid((2, 0x10), syntax) + uid((2, 0x12), "1.2.3")
    length = element((2, 0), "UL", struct.pack("<L", len(group)))
    return bytes(128) + b"DICM" + length + group + data


def pixels(size):
    """Returns a data set with Pixel Data of this size."""
    data = bytes(n % 251 for n in range(size))
    return b"\340\177\20\0OB\0\0" + struct.pack("<L", size) + data


def counts(sent=0, warned=0, refused=0, left_out=0, removed=0, set_aside=0, remaining=0):
    """Returns the last line of `send`."""
    return (
        f"sent {sent} warned {warned} refused {refused} left out {left_out} "
        f"removed {removed} set aside {set_aside} remaining {remaining}\n"
    )


def until_listening(port):
    wait_for(lambda: listeners(port), "the archive listens")


@pytest.fixture
def archive_port():
    return free_port()


@pytest.fixture
def send(run, archive_port):
    """Runs `send`, and returns its status, its output and its errors."""

    def sent(*options, folder="in", **keywords):
        done = run("send", folder, f"127.0.0.1:{archive_port}", "--aec", "ARCHIVE", *options, **keywords)
        return done.returncode, done.stdout, done.stderr

    return sent


@pytest.fixture
def numbered(put, work):
    """Writes images with the instances 1.2.1, 1.2.2, .. into the folder `in`."""

    def written(count):
        put({f"in/I{n:07}": part10(f"1.2.{n}") for n in range(1, count + 1)})
        return work / "in"

    return written


def names(folder):
    return sorted(str(path.relative_to(folder)) for path in folder.rglob("*") if path.is_file())


class Recorded(dict):
    """Statuses by instance, which note the instances in the order in which they are asked for."""

    def __init__(self, others=()):
        super().__init__(others)
        self.seen = []

    def get(self, instance, status):
        self.seen.append(instance)
        return super().get(instance, status)


def recording(archive):
    archive.others = Recorded(archive.others)
    return archive


class Answering(Archive):
    """An archive that answers the request, and each C-STORE, with the given bytes.

    `request` takes the body of the A-ASSOCIATE-RQ, `store` the context and the values of the
    command.
    """

    def __init__(self, port, request=acceptance, store=None):
        self.request, self.store = request, store
        super().__init__(port)

    def serve(self, stream):
        command = b""
        while True:
            kind, size = struct.unpack(">BxL", stream.read(6))
            body = stream.read(size)
            if kind == ASSOCIATE_RQ:
                stream.write(self.request(body))
            elif kind == DATA and body[5] & 1:
                command = body[6:]
            elif kind == DATA and body[5] & 2:
                stream.write(self.store(body[4], fields_of(command)))
            stream.flush()


class TestArchives:
    """What an archive receives is what its files have, byte by byte."""

    @pytest.fixture
    def corpus(self, work):
        """The folder `in` with the test files of pydicom."""
        pytest.importorskip("pydicom", reason="make packages installs it")
        from pydicom.data import get_testdata_file

        source = pathlib.Path(get_testdata_file("CT_small.dcm")).parent
        shutil.copytree(source, work / "in", ignore=lambda _, found: {"DICOMDIR", "__pycache__"} & {*found})
        return work / "in"

    def accounted(self, done, folder):
        """Returns the files that are filed; each other one that is a DICOM file has a line."""
        status, output, errors = done
        lines = dict(re.findall(r"^dcmbox: (in/[^:]+): (.*)$", errors, re.M))
        sent, _, refused, left_out, removed, _, remaining = map(int, re.findall(r"\d+", output))
        found = [path for path, what in lines.items() if what.startswith("filed")]
        assert len(found) == sent and status == 1 and remaining == 0
        assert len(lines) == sent + refused + left_out == len(errors.splitlines())
        for path in folder.rglob("*"):
            name = str(path.relative_to(folder.parent))
            is_dicom = path.is_file() and path.read_bytes()[128:132] == b"DICM"
            if is_dicom and "DICOMDIR" not in path.name:
                assert name in lines, name
        return [folder.parent / path for path in found]

    def test_the_corpus_to_a_box(self, corpus, serve, archive_port, program, work, run):
        box = serve("--all-storage", "--all-syntaxes", "--any-called")
        done = run("send", "in", f"127.0.0.1:{box.port}", "--aec", "ARCHIVE", "--any-name", "-v")
        sent = self.accounted((done.returncode, done.stdout, done.stderr), corpus)
        assert len(sent) > 40 and digests(filed(box.folder)) == digests(sent)

    def test_the_corpus_to_storescp(self, corpus, send, spawn, archive_port, work):
        need("storescp")
        archive = work / "archive"
        archive.mkdir()
        options = ("-aet", "ARCHIVE", "+B", "+xa", "+uf")
        spawn("storescp", *options, archive_port, cwd=archive)
        until_listening(archive_port)
        sent = self.accounted(send("--any-name", "-v"), corpus)
        assert len(sent) > 40 and digests(archive.iterdir()) == digests(sent)

    def test_moved_to_a_box(self, corpus, serve, run, work):
        """Those that were filed are gone, and no other."""
        box = serve("--all-storage", "--all-syntaxes", "--any-called")
        before = {path: path.read_bytes() for path in corpus.rglob("*") if path.is_file()}
        arguments = ("send", "in", f"127.0.0.1:{box.port}", "--aec", "ARCHIVE", "--any-name", "-v", "--move")
        done = run(*arguments)
        gone = [path for path in before if not path.exists()]
        lines = re.findall(r"^dcmbox: (in/[^:]+): filed", done.stderr, re.M)
        assert sorted(map(str, gone)) == sorted(str(work / name) for name in lines)
        assert f" removed {len(gone)} " in done.stdout
        assert all(path.read_bytes() == data for path, data in before.items() if path not in gone)

    @pytest.mark.parametrize("most", [1024, 16384, 131072])
    def test_data_sets_of_sizes_about_fragments(self, serve, put, run, work, most):
        """Data sets whose last fragment is full, nearly full, or has one pair of bytes more."""
        box = serve("--any-called", "--max-pdu", str(most))
        longest, before = min(most - 6, 65536), len(small_set()) + 12
        lengths = [before, before + 2, 500_000]
        lengths += [n * longest + more for n in (1, 2, 3) for more in (-2, 0, 2)]
        for number, length in enumerate(lengths, 1):
            put({f"in/I{number:07}": part10("1.2.1", small_set() + pixels(length - before))})
        done = run("send", "in", f"127.0.0.1:{box.port}", "--aec", "ARCHIVE", "--move")
        assert (done.returncode, done.stderr) == (0, "")
        assert done.stdout == counts(sent=len(lengths), removed=len(lengths))
        found = sorted(data_set(path) for path in filed(box.folder))
        assert found == sorted(small_set() + pixels(length - before) for length in lengths)


class TestNames:
    """Which files are sent, and in which order."""

    OTHERS = {
        "in/DRAFT": part10("1.3.1"),
        "in/DRAFT2": part10("1.3.2"),
        "in/DIRDRAFT": part10("1.3.3"),
        "in/.DRAFT": part10("1.3.4"),
        "in/.hidden/x.dcm": part10("1.3.5"),
        "in/quarantine/000001.dcm": part10("1.3.6"),
        "in/quarantine/000001.txt": b"refused",
        "in/quarantine/000002.part": part10("1.3.7"),
        "in/DICOMDIR": DIRECTORY,
        "in/README": b"a text",
    }
    NAMED = {
        "in/image.dcm": part10("1.2.6"),
        "in/other/I0000001": part10("1.2.7"),
        "in/000009.dcm": part10("1.2.8"),
    }

    @pytest.fixture
    def received(self, put):
        names = ["I0000010", "I0000002", "S0000002/I0000001", "S0000001/I0000002", "S0000001/I0000001"]
        put({f"in/{name}": part10(f"1.2.{n}") for n, name in enumerate(names, 1)})
        put(self.OTHERS)
        put(self.NAMED)

    def test_received_files_oldest_first(self, received, send, archive_port, work):
        with recording(Archive(archive_port)) as archive:
            assert send("--move") == (0, counts(sent=5, removed=5), "")
        assert archive.others.seen == ["1.2.2", "1.2.1", "1.2.5", "1.2.4", "1.2.3"]
        assert names(work / "in") == sorted(name[3:] for name in {**self.OTHERS, **self.NAMED})
        assert archive.callers == ["DCMBOX"]

    def test_files_of_any_name(self, received, send, archive_port, work):
        with recording(Archive(archive_port)) as archive:
            assert send("--any-name", "--move") == (0, counts(sent=8, removed=8), "")
        assert {*archive.others.seen} == {f"1.2.{n}" for n in range(1, 9)}
        assert names(work / "in") == sorted(name[3:] for name in self.OTHERS)

    def test_links_are_not_followed(self, numbered, send, archive_port, work):
        folder = numbered(2)
        (folder / "I0000003").symlink_to("I0000001")
        with Archive(archive_port):
            assert send()[:2] == (0, counts(sent=2))

    def test_titles(self, numbered, send, archive_port):
        numbered(1)
        with Archive(archive_port) as archive:
            assert send("--aet", "BOX1")[0] == 0
        assert archive.callers == ["BOX1"]

    def test_an_empty_folder(self, send, work):
        """No connection is made."""
        (work / "in").mkdir()
        assert send("--move") == (0, counts(), "")

    def test_no_folder(self, send):
        status, output, errors = send()
        assert (status, output) == (3, "")
        assert errors.startswith("dcmbox: in: the folder can't be opened: ")

    def test_a_name_with_control_characters(self, put, send, archive_port):
        put({"in/a\x1b[2J.dcm": part10("1.2.1", b"odd")})
        with Archive(archive_port):
            _, _, errors = send("--any-name")
        assert errors == "dcmbox: in/a?[2J.dcm: left out: its data set has an odd number of bytes\n"


class TestStatuses:
    """What is done by the status of the response, or without one."""

    STATUSES = {
        1: (0x0000, "filed"),
        2: (0xB000, "filed with a warning, status B000"),
        3: (0xB006, "filed with a warning, status B006"),
        4: (0xB007, "filed with a warning, status B007"),
        5: (0xA700, "refused with status A700"),
        6: (0xA900, "refused with status A900"),
        7: (0xC123, "refused with status C123"),
        8: (0x0122, "refused with status 0122"),
        9: (0xB001, "refused with status B001"),
        10: (0x0001, "refused with status 0001"),
    }

    def others(self):
        return {f"1.2.{n}": status for n, (status, _) in self.STATUSES.items()}

    @pytest.mark.parametrize("is_moved", [True, False])
    def test_each_status(self, numbered, send, archive_port, is_moved):
        folder = numbered(10)
        with Archive(archive_port, others=self.others()):
            status, output, errors = send("-v", *["--move"] * is_moved)
        removed = 4 * is_moved
        assert (status, output) == (1, counts(sent=4, warned=3, refused=6, removed=removed))
        assert errors.splitlines() == [
            f"dcmbox: in/I{n:07}: {what}" for n, (_, what) in self.STATUSES.items()
        ]
        assert names(folder) == [f"I{n:07}" for n in range(removed + 1, 11)]

    def test_without_v_a_filed_file_has_no_line(self, numbered, send, archive_port):
        numbered(10)
        with Archive(archive_port, others=self.others()):
            _, _, errors = send()
        assert len(errors.splitlines()) == 9

    def test_json(self, numbered, send, archive_port):
        numbered(10)
        with Archive(archive_port, others=self.others()):
            status, output, _ = send("--json", "--move")
        assert status == 1 and output.count("\n") == 1
        assert json.loads(output) == {
            "sent": 4, "warned": 3, "refused": 6, "left_out": 0, "removed": 4, "set_aside": 0,
            "remaining": 0,
        }  # fmt: skip

    def test_an_odd_data_set_is_left_out(self, put, send, archive_port, work):
        put({"in/I0000001": part10("1.2.1") + b"\0", "in/I0000002": part10("1.2.2")})
        with recording(Archive(archive_port)) as archive:
            status, output, errors = send("--move")
        assert (status, output) == (1, counts(sent=1, left_out=1, removed=1))
        assert errors == "dcmbox: in/I0000001: left out: its data set has an odd number of bytes\n"
        assert archive.others.seen == ["1.2.2"] and names(work / "in") == ["I0000001"]

    def test_a_file_with_a_bad_header_is_left_out(self, put, send, work):
        """Without other files, no connection is made."""
        put({"in/I0000001": b"no image", "in/I0000002": CT_FILE[:200]})
        status, output, errors = send("--move")
        assert (status, output) == (1, counts(left_out=2))
        assert [line.split(": ", 2)[2] for line in errors.splitlines()] == [
            "left out: fault 50 NotPart10 at 128",
            "left out: fault 51 BadMeta at 132",
        ]

    def test_a_syntax_that_is_not_accepted(self, put, serve, run, work):
        put({"in/I0000001": part10("1.2.1", b"", CT, RLE), "in/I0000002": part10("1.2.2")})
        box = serve("--any-called")
        done = run("send", "in", f"127.0.0.1:{box.port}", "--aec", "ARCHIVE", "--move")
        assert (done.returncode, done.stdout) == (1, counts(sent=1, left_out=1, removed=1))
        what = "left out: the archive does not accept CTImageStorage in RLELossless"
        assert done.stderr == f"dcmbox: in/I0000001: {what}\n"
        assert names(work / "in") == ["I0000001"]

    def test_more_classes_than_an_association_has(self, put, send, archive_port):
        put({f"in/I{n:07}": part10(f"1.2.{n}", b"", f"1.2.3.{n}") for n in range(1, 131)})
        with Archive(archive_port):
            status, output, errors = send()
        assert (status, output) == (1, counts(sent=128, left_out=2))
        assert errors.count("follow after 128 others") == 2


class TestRefused:
    """What is refused for good goes to a folder of its own, with a text beside it."""

    REFUSED = {
        1: (0xA900, "A900, data set does not match SOP class"),
        2: (0xA9FF, "A9FF, data set does not match SOP class"),
        3: (0xC000, "C000, cannot understand"),
        4: (0xCFFF, "CFFF, cannot understand"),
        5: (0x0100, "0100, processing failure"),
        6: (0x0111, "0111, duplicate SOP instance"),
        7: (0x0117, "0117, invalid SOP instance"),
        8: (0x0122, "0122, SOP class not supported"),
        9: (0x01FF, "01FF, processing failure"),
    }
    KEPT = (0xA700, 0xA7FF, 0xA8FF, 0xAA00, 0xB001, 0xBFFF, 0xD000, 0x00FF, 0x0200, 0x0211, 0xFE00)

    @pytest.fixture
    def aside(self, work):
        """The folder of refused files."""
        (work / "aside").mkdir()
        return work / "aside"

    @pytest.fixture
    def moved(self, send):
        """Runs `send`, which moves what is refused for good."""
        return lambda *options, **keywords: send("--move", "--refused", "aside", *options, **keywords)

    @staticmethod
    def one(archive_port, status=0xC000):
        """Returns an archive that refuses the instance 1.2.1 with this status."""
        return Archive(archive_port, others={"1.2.1": status})

    def test_statuses_for_good(self, numbered, moved, archive_port, aside, work):
        before = {path.name: path.read_bytes() for path in numbered(10).iterdir()}
        others = {f"1.2.{n}": status for n, (status, _) in self.REFUSED.items()}
        with Archive(archive_port, others=others):
            status, output, errors = moved()
        assert (status, output) == (1, counts(sent=1, refused=9, removed=1, set_aside=9))
        assert errors.splitlines() == [
            f"dcmbox: in/I{n:07}: refused with status {what}; set aside"
            for n, (_, what) in self.REFUSED.items()
        ]
        assert names(work / "in") == []
        assert names(aside) == sorted(
            f"I{n:07}{end}" for n in self.REFUSED for end in ("", ".txt")
        )
        for n, (_, what) in self.REFUSED.items():
            file = aside / f"I{n:07}"
            assert file.read_bytes() == before[file.name] and file.stat().st_nlink == 1
            time_line, *rest = file.with_suffix(".txt").read_text().splitlines()
            assert re.fullmatch(r"time: 20\d\d-\d\d-\d\dT\d\d:\d\d:\d\d\.\d{3}Z", time_line)
            assert rest == [
                f"archive: ARCHIVE at 127.0.0.1:{archive_port}",
                f"file: in/I{n:07}",
                f"class: {CT}",
                f"instance: 1.2.{n}",
                "syntax: ExplicitVRLittleEndian",
                f"status: {what}",
            ]

    def test_other_statuses(self, numbered, moved, archive_port, aside):
        """They stay, and are sent again."""
        folder = numbered(len(self.KEPT))
        others = {f"1.2.{n}": status for n, status in enumerate(self.KEPT, 1)}
        with Archive(archive_port, others=others):
            done = [moved() for _ in range(2)]
        assert {(status, output) for status, output, _ in done} == {(1, counts(refused=len(self.KEPT)))}
        assert len(names(folder)) == len(self.KEPT) and names(aside) == []

    def test_no_accepted_context(self, put, serve, run, work, aside):
        put({"in/I0000001": part10("1.2.1", b"", CT, RLE), "in/I0000002": part10("1.2.2")})
        box = serve("--any-called")
        address = f"127.0.0.1:{box.port}"
        done = run("send", "in", address, "--aec", "ARCHIVE", "--move", "--refused", "aside")
        assert (done.returncode, done.stdout) == (1, counts(sent=1, left_out=1, removed=1, set_aside=1))
        what = "left out: the archive does not accept CTImageStorage in RLELossless; set aside"
        assert done.stderr == f"dcmbox: in/I0000001: {what}\n"
        assert names(work / "in") == [] and names(aside) == ["I0000001", "I0000001.txt"]
        text = (aside / "I0000001.txt").read_text()
        assert text.endswith("syntax: RLELossless\nstatus: none, no accepted presentation context\n")

    def test_files_that_are_lost_or_left_out(self, put, numbered, moved, archive_port, aside, work):
        """An abort, an end of the connection and a fault of a file set nothing aside."""
        numbered(2)
        with Answering(archive_port, store=lambda *_: pdu(7, bytes([0, 0, 2, 5]))):
            moved()
        put({"in/I0000009": part10("1.2.9") + b"\0"})
        with Archive(archive_port, others={"1.2.1": None, "1.2.2": None}):
            moved()
        assert len(names(work / "in")) == 3 and names(aside) == []

    def test_a_name_that_is_taken(self, put, moved, archive_port, aside, work):
        """Nothing there is overwritten, followed, or given a text of another file."""
        put({"in/S0000001/I0000001": part10("1.2.1"), "in/S0000002/I0000001": part10("1.2.1", sop_class="1.2.3")})
        put({"aside/I0000001": b"another", "aside/I0000001.2.txt": b"a text"})
        (aside / "I0000001.3").symlink_to("../in/S0000001/I0000001")
        with self.one(archive_port):
            status, output, _ = moved()
        assert (status, output) == (1, counts(refused=2, set_aside=2))
        assert names(work / "in") == []
        assert (aside / "I0000001").read_bytes() == b"another"
        assert (aside / "I0000001.2.txt").read_bytes() == b"a text" and (aside / "I0000001.3").is_symlink()
        assert (aside / "I0000001.4").read_bytes() == part10("1.2.1")
        assert "file: in/S0000001/I0000001\n" in (aside / "I0000001.4.txt").read_text()
        assert (aside / "I0000001.5").read_bytes() == part10("1.2.1", sop_class="1.2.3")

    @pytest.mark.parametrize("has_text", [False, True])
    def test_a_run_that_was_killed_before_the_removal(
        self, numbered, moved, archive_port, aside, has_text
    ):
        """Its second name is kept, and no third one is made."""
        folder = numbered(1)
        (aside / "I0000001").hardlink_to(folder / "I0000001")
        if has_text:
            (aside / "I0000001.txt").write_text("of the run before")
        with self.one(archive_port):
            status, output, _ = moved()
        assert (status, output) == (1, counts(refused=1, set_aside=1))
        assert names(folder) == [] and names(aside) == ["I0000001", "I0000001.txt"]
        assert ((aside / "I0000001.txt").read_text() == "of the run before") == has_text

    def test_a_run_that_was_killed_and_an_archive_that_files_it_then(
        self, numbered, moved, archive_port, aside
    ):
        folder = numbered(1)
        (aside / "I0000001").hardlink_to(folder / "I0000001")
        with Archive(archive_port):
            assert moved() == (0, counts(sent=1, removed=1), "")
        assert names(folder) == [] and names(aside) == ["I0000001"]

    def test_a_folder_that_names_the_same_files(self, numbered, send, archive_port, work):
        """The only name of a file is not taken for a second one: the archive puts the link there late."""
        folder = numbered(1)
        (work / "aside").mkdir()

        class Late(Archive):
            def serve(self, stream):
                (work / "aside").rmdir()
                (work / "aside").symlink_to("in")
                super().serve(stream)

        with Late(archive_port, others={"1.2.1": 0xC000}):
            status, output, errors = send("--move", "--refused", "aside")
        assert (status, output) == (1, counts(refused=1))
        assert errors.endswith("; it can't be set aside: its folder is that of refused files\n")
        assert names(folder) == ["I0000001"]

    def test_a_folder_that_is_gone(self, numbered, moved, archive_port, aside):
        folder = numbered(1)

        class Late(Archive):
            def serve(self, stream):
                aside.rmdir()
                super().serve(stream)

        with Late(archive_port, others={"1.2.1": 0xC000}):
            status, output, errors = moved()
        assert (status, output) == (1, counts(refused=1)) and names(folder) == ["I0000001"]
        why = "it can't be set aside: No such file or directory (os error 2)"
        assert errors == f"dcmbox: in/I0000001: refused with status C000, cannot understand; {why}\n"

    def test_another_file_system(self, numbered, send):
        """It is refused before anything is sent."""
        folder = numbered(1)
        other = pathlib.Path("/dev/shm")
        if not other.is_dir() or other.stat().st_dev == folder.stat().st_dev:
            pytest.skip("/dev/shm is no other file system")
        status, output, errors = send("--move", "--refused", str(other))
        assert (status, output) == (3, "") and names(folder) == ["I0000001"]
        why = "the folder can't be used: it is on another file system than the files; --refused takes a folder"
        assert errors.startswith(f"dcmbox: {other}: {why} ")

    def test_files_of_another_file_system(self, send, aside, work):
        """Their folder is a link that leads there."""
        other = pathlib.Path("/dev/shm")
        if not other.is_dir() or other.stat().st_dev == work.stat().st_dev:
            pytest.skip("/dev/shm is no other file system")
        with tempfile.TemporaryDirectory(dir=other) as folder:
            file = pathlib.Path(folder, "I0000001")
            file.write_bytes(part10("1.2.1"))
            (work / "in").symlink_to(folder)
            status, _, errors = send("--move", "--refused", "aside")
            assert file.exists() and status == 3 and "on another file system" in errors

    @pytest.mark.parametrize(
        "aside, options, status",
        cases(
            ("the folder itself", "in", "", 3),
            ("the folder by another path", "in/../in/.", "", 3),
            ("a folder of received files", "in/S0000001", "", 3),
            ("a folder in which any name is sent", "in/aside", "--any-name", 3),
            ("a folder in which no file is sent", "in/aside", "", 1),
            ("a hidden folder", "in/.aside", "--any-name", 1),
            ("the folder above", ".", "", 1),
            ("a missing folder", "missing", "", 3),
            ("a file", "in/I0000001", "", 3),
        ),
    )
    def test_which_folders_it_may_be(self, numbered, send, archive_port, work, aside, options, status):
        folder = numbered(1)
        for name in ("in/S0000001", "in/aside", "in/.aside"):
            (work / name).mkdir()
        with self.one(archive_port):
            done = send("--move", "--refused", aside, *options.split())
        if status == 1:
            assert done[:2] == (1, counts(refused=1, set_aside=1))
            assert (work / aside / "I0000001").exists() and not (folder / "I0000001").exists()
        else:
            assert done[:2] == (3, "") and names(folder) == ["I0000001"]
            assert done[2].startswith(f"dcmbox: {aside}: the folder can't be used: ")

    def test_links_to_a_file_elsewhere(self, numbered, moved, archive_port, aside, work):
        """A file that `arrange` has linked is set aside as well."""
        folder = numbered(1)
        (work / "tree").mkdir()
        (work / "tree/a.dcm").hardlink_to(folder / "I0000001")
        with self.one(archive_port):
            assert moved()[:2] == (1, counts(refused=1, set_aside=1))
        assert names(aside) == ["I0000001", "I0000001.txt"] and names(folder) == []

    def test_json(self, numbered, moved, archive_port, aside):
        numbered(2)
        with self.one(archive_port):
            status, output, _ = moved("--json")
        assert status == 1 and json.loads(output) == {
            "sent": 1, "warned": 0, "refused": 1, "left_out": 0, "removed": 1, "set_aside": 1,
            "remaining": 0,
        }  # fmt: skip

    def test_kills(self, put, spawn, program, archive_port, aside, work):
        """Whenever a run is killed, each refused file has a name, and the next run sets all aside."""
        count = 40
        put({f"in/I{n:07}": part10(f"1.2.{n}") for n in range(1, count + 1)})
        sets = {path.name: path.read_bytes() for path in (work / "in").iterdir()}
        arguments = ("in", f"127.0.0.1:{archive_port}", "--aec", "ARCHIVE", "--move", "--refused", "aside")

        def started(log):
            return spawn(program, "send", *arguments, log=log)

        with Archive(archive_port, 0xC000):
            for round in range(6):
                run = started(f"{round}.txt")
                wait_for(
                    lambda: len(names(aside)) > 12 * round or run.poll() is not None, "files are set aside"
                )
                run.kill()
                run.wait(PATIENCE)
                for name, data in sets.items():
                    found = [path for path in (work / "in" / name, aside / name) if path.exists()]
                    assert found and all(path.read_bytes() == data for path in found)
            is_due = names(work / "in") != []
            assert started("last.txt").wait(PATIENCE) == int(is_due)
        assert names(work / "in") == []
        assert names(aside) == sorted(f"{name}{end}" for name in sets for end in ("", ".txt"))


class TestLostArchives:
    """An archive that can't be reached, rejects, ends in mid-file, or answers what is not allowed."""

    def test_no_listener(self, numbered, send, archive_port):
        folder = numbered(3)
        status, output, errors = send("--move")
        assert (status, output) == (3, counts(remaining=3))
        reached = f"dcmbox: 127.0.0.1:{archive_port}: can't be reached: Connection refused"
        assert errors.startswith(reached) and errors.count("\n") == 1 and len(names(folder)) == 3

    def test_no_such_host(self, numbered, run):
        numbered(1)
        done = run("send", "in", "archive.invalid:104", "--aec", "ARCHIVE", "--json")
        assert done.returncode == 3 and json.loads(done.stdout)["remaining"] == 1
        assert done.stderr.startswith("dcmbox: archive.invalid:104: can't be reached: failed to lookup")

    def test_a_rejection(self, numbered, serve, run, work):
        folder = numbered(3)
        box = serve()
        done = run("send", "in", f"127.0.0.1:{box.port}", "--aec", "OTHER", "--move")
        assert (done.returncode, done.stdout) == (1, counts(remaining=3))
        rejected = "association rejected: the archive has another title than --aec"
        assert done.stderr == f"dcmbox: 127.0.0.1:{box.port}: {rejected}\n"
        assert len(names(folder)) == 3

    def test_a_maximum_length_below_1024(self, numbered, send, archive_port):
        numbered(1)
        user = item(0x51, struct.pack(">L", 16384))
        small = item(0x51, struct.pack(">L", 1023))

        def request(body):
            return acceptance(body).replace(user, small)

        with Answering(archive_port, request):
            status, output, errors = send("--move")
        assert (status, output) == (1, counts(remaining=1)) and "1,024" in errors

    def test_silence_before_the_association(self, numbered, send, archive_port):
        numbered(3)
        with socket.create_server(("127.0.0.1", archive_port)):
            status, output, errors = send("--timeout", "1")
        assert (status, output) == (1, counts(remaining=3))
        silent = "the archive was silent for 1 s"
        assert errors == f"dcmbox: 127.0.0.1:{archive_port}: {silent}\n"

    def test_silence_after_a_file(self, numbered, send, archive_port):
        """Three files in a row end the run."""
        folder = numbered(5)
        with Answering(archive_port, store=lambda *_: b""):
            status, output, errors = send("--timeout", "1", "--move")
        assert (status, output) == (1, counts(refused=3, remaining=2)) and len(names(folder)) == 5
        lines = [f"dcmbox: in/I000000{n}: the archive was silent for 1 s" for n in (1, 2, 3)]
        assert errors.splitlines() == lines

    def test_connections_that_end_in_mid_file(self, numbered, send, archive_port):
        """The rest goes on in a new association; a response between makes three in a row anew."""
        folder = numbered(9)
        lost = {f"1.2.{n}": None for n in (1, 2, 4, 5, 7, 8)}
        with Archive(archive_port, others=lost) as archive:
            status, output, errors = send("--move")
        assert (status, output) == (1, counts(sent=3, refused=6, removed=3))
        assert names(folder) == [f"I000000{n}" for n in (1, 2, 4, 5, 7, 8)]
        assert len(archive.callers) == 7 and errors.count(": connection lost: ") == 6

    def test_an_abort(self, numbered, send, archive_port):
        numbered(4)
        with Answering(archive_port, store=lambda *_: pdu(7, bytes([0, 0, 2, 5]))):
            status, output, errors = send("--move")
        assert (status, output) == (1, counts(refused=3, remaining=1))
        assert errors.count("association aborted by the archive: unexpected PDU parameter") == 3

    @pytest.mark.parametrize(
        "store",
        cases(
            ("a response to another message", lambda c, f: store_reply(c, {**f, 0x0110: b"\7\0"}, 0)),
            ("a response in another context", lambda c, f: store_reply(c + 2, f, 0)),
            ("a fragment of a response", lambda c, f: values(c, 1, store_reply(c, f, 0)[12:])),
            ("a data set", lambda c, f: values(c, 2, store_reply(c, f, 0)[12:])),
            ("no PDU of DIMSE", lambda *_: pdu(5, bytes(4))),
        ),
    )
    def test_what_is_no_response(self, numbered, send, archive_port, store):
        folder = numbered(1)
        with Answering(archive_port, store=store):
            status, output, errors = send("--move")
        assert (status, output) == (1, counts(refused=1)) and len(names(folder)) == 1
        assert "association aborted: the peer sent " in errors

    def test_each_beginning_of_a_response(self, numbered, send, archive_port):
        """A connection that ends after any number of its bytes removes nothing."""
        folder = numbered(1)
        ended = []

        class Ending(Answering):
            def serve(self, stream):
                super().serve(Cut(stream))

        class Cut:
            def __init__(self, stream):
                self.stream, self.read, self.flush = stream, stream.read, stream.flush

            def write(self, data):
                if data[0] == DATA:
                    ended.append(len(data))
                    self.stream.write(data[: self.size])
                    self.stream.flush()
                    raise ValueError("the connection ends")
                self.stream.write(data)

        with Ending(archive_port, store=lambda c, f: store_reply(c, f, 0)):
            size = 0
            while size == 0 or size < ended[0]:
                Cut.size = size
                assert send("--move")[:2] == (1, counts(refused=1))
                size += 7
        assert len(names(folder)) == 1


class TestSeveral:
    """Runs at once, and runs that are killed: no file is lost."""

    COUNT = 60

    @pytest.fixture
    def many(self, put, work):
        """The data sets of many images in the folder `in`, by their paths."""
        for n in range(1, self.COUNT + 1):
            put({f"in/S0000001/I{n:07}": part10(f"1.2.{n}") + pixels(20_000 + 2 * n)})
        return {path: data_set(path) for path in (work / "in").rglob("I*")}

    @pytest.fixture
    def sender(self, program, spawn, archive_port):
        def started(port, log="send.txt"):
            return spawn(
                program, "send", "in", f"127.0.0.1:{port}", "--aec", "ARCHIVE", "--move", log=log
            )

        return started

    def lost(self, many, folder):
        """Returns the images that are gone from their folder and not in that of the archive."""
        found = {data_set(path) for path in filed(folder)}
        return [path for path, data in many.items() if not path.exists() and data not in found]

    def test_two_runs_at_once(self, many, serve, sender, work):
        box = serve("--any-called", "--at-once", "4")
        runs = [sender(box.port, f"{n}.txt") for n in (1, 2)]
        assert all(run.wait(PATIENCE) in (0, 1) for run in runs)
        assert filed(work / "in") == [] and self.lost(many, box.folder) == []

    @pytest.mark.parametrize("count", [1, 7, 20, 41])
    def test_a_run_that_is_killed(self, many, serve, sender, work, count):
        box = serve("--any-called")
        run = sender(box.port)
        wait_for(lambda: len(filed(box.folder)) >= count or run.poll() is not None, "files are sent")
        run.kill()
        run.wait(PATIENCE)
        assert self.lost(many, box.folder) == []
        assert sender(box.port).wait(PATIENCE) == 0
        assert filed(work / "in") == [] and self.lost(many, box.folder) == []

    @pytest.mark.parametrize("count", [1, 7, 20, 41])
    def test_an_archive_that_is_killed(self, many, serve, sender, work, count):
        box = serve("--any-called")
        run = sender(box.port)
        wait_for(lambda: len(filed(box.folder)) >= count or run.poll() is not None, "files are sent")
        box.process.kill()
        assert run.wait(PATIENCE) in (0, 1, 3)
        assert self.lost(many, box.folder) == []
        (line,) = re.findall(r"^sent .*$", (work / "send.txt").read_text(), re.M)
        sent, _, refused, _, removed, _, remaining = map(int, re.findall(r"\d+", line))
        assert sent == removed == self.COUNT - refused - remaining
        assert len(filed(work / "in")) == self.COUNT - removed

    def test_small_files_wait_for_no_acknowledgement(self, put, send, archive_port):
        """A hundred small files are sent in less than 2 s, in one of five attempts."""
        put({f"in/I{n:07}": part10(f"1.2.{n}") for n in range(1, 101)})
        times = []
        with Archive(archive_port):
            while not times or min(times) >= 2 and len(times) < 5:
                started = time.monotonic()
                assert send()[0] == 0
                times.append(time.monotonic() - started)
        assert min(times) < 2


@pytest.mark.parametrize(
    "errors, arguments",
    cases(
        ("no archive", ".*HOST:PORT.*", "in --aec ARCHIVE"),
        ("no title", ".*--aec.*", "in localhost:104"),
        ("no port", "error: HOST:PORT takes a host and a port, .*, not 'localhost'", "in localhost --aec A"),
        ("no host", "error: HOST:PORT takes .*, not ':104'", "in :104 --aec A"),
        ("port 0", "error: HOST:PORT takes .*, not 'localhost:0'", "in localhost:0 --aec A"),
        ("a long title", "error: --aec takes an AE title .*", "in localhost:104 --aec SEVENTEENLETTERSX"),
        ("refused files that stay", "error: --refused goes with --move", "in h:1 --aec A --refused aside"),
        ("no time", "error: --timeout takes a number .*", "in localhost:104 --aec A --timeout 0"),
        ("a day and more", "error: --timeout .*", "in localhost:104 --aec A --timeout 86401"),
    ),
)
def test_arguments_that_are_rejected(expect, errors, arguments):
    expect(2, "", errors, "send", *arguments.split())
