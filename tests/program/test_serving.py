"""The options of `serve` have their documented effects, also for several associations at once."""
import json
import os
import re
import shutil
import struct
import subprocess

import pytest
from box import LITTLE, PATIENCE, listeners, wait_for
from peer import (
    ECHO,
    ECHO_ANSWER,
    ECHO_REQUEST,
    RELEASE,
    STORES,
    STORES_ANSWER,
    SUCCESS,
    Peer,
    element,
    values,
)
from ports import free_port
from samples import CT_FILE, HEADER, cases

REFUSED_ANSWER = STORES_ANSWER.replace(SUCCESS, bytes.fromhex("000000090200000000a7"))


@pytest.fixture
def start(serve, form):
    """Starts a box of either form with 16 MB of memory that serves one association."""

    def started(*options, **keywords):
        keywords.setdefault("memory", LITTLE)
        return serve("--once", "--timeout", "4", *form, *options, **keywords)

    return started


@pytest.mark.parametrize(
    "address, options",
    cases(
        ("only the loopback address by default", "0100007F", []),
        ("every address with 0.0.0.0", "00000000", ["--bind", "0.0.0.0"]),
        ("a given address", "0200007F", ["--bind", "127.0.0.2"]),
    ),
)
def test_listens_on(start, port, address, options):
    start(*options)
    assert listeners(port) == [address]


def test_listens_on_further_addresses(serve, port):
    """A connection to each address is served, and the log has each address."""
    others = [("127.0.0.2", free_port()), ("127.0.0.1", free_port()), ("::1", free_port())]
    arguments = [f"[{host}]:{number}" if ":" in host else f"{host}:{number}" for host, number in others]
    box = serve("--at-once", "4", *(argument for each in arguments for argument in ("--listen", each)))
    for _ in range(2):
        assert box.echoes()
        for host, number in others:
            with Peer(number, None, to=host) as peer:
                assert peer.exchange(ECHO, len(ECHO_ANSWER)) == ECHO_ANSWER
    for argument in [f"127.0.0.1:{port}", *arguments]:
        assert len(re.findall(f"listening on {re.escape(argument)}$", box.log, re.M)) == 1


def test_a_further_address_that_is_used(expect, put, serve, port):
    serve("--at-once", "2")
    put({"other/.keep": b""})
    arguments = ("--port", str(free_port()), "--out", "other", "--listen", f"127.0.0.1:{port}")
    errors = f".*dcmbox: 127.0.0.1:{port}: an address of --listen can't be listened on: .*"
    expect(3, "", errors, "serve", *arguments)


def test_five_further_addresses_are_rejected(expect):
    errors = "error: --listen may be given 4 times at most"
    expect(2, "", errors, "serve", "--port", "11112", "--out", ".", *["--listen", "127.0.0.1:1"] * 5)


@pytest.mark.parametrize(
    "answer, options",
    cases(
        # Rejected for good, by the service user: calling or called AE title not recognized.
        ("a caller that is not named", "03000000000400010103", "--caller SCANNER2"),
        (
            "a caller with a longer title",
            "03000000000400010103",
            "--caller SCANNER2 --caller SCANNER",
        ),
        ("another called title", "03000000000400010107", "--ae ARCHIVE"),
        ("a called title other than two", "03000000000400010107", "--ae ARCHIVE --ae DCMBOX2"),
    ),
)
def test_rejects(start, answer, options):
    """Then the connection ends."""
    box = start(*options.split())
    with box.connect() as peer:
        peer.send(ECHO_REQUEST)
        assert peer.rest() == bytes.fromhex(answer)


@pytest.mark.parametrize(
    "options", ["--ae ARCHIVE --ae DCMBOX", "--ae ARCHIVE " * 15 + "--ae DCMBOX", "--ae ARCHIVE --any-called"]
)
def test_called_by_a_further_title_it_serves(start, options):
    assert start(*options.split()).echoes()


def test_seventeen_called_titles_are_rejected(expect):
    errors = "error: --ae may be given 16 times at most"
    expect(2, "", errors, "serve", "--port", "11112", "--out", ".", *["--ae", "DCMBOX"] * 17)


def test_a_caller_that_is_named_is_served(start):
    assert start("--caller", "SCANNER2", "--caller", "SCANNER1").echoes()


class TestCallers:
    """A file of calling titles that are accepted, one in each line."""

    @pytest.fixture
    def refused(self, expect, put):
        """Expects that a box with this file of titles does not start."""

        def expected(errors, listed, *options):
            put({"callers.txt": listed})
            arguments = ("--port", "11112", "--out", ".", "--callers", "callers.txt")
            expect(2, "", errors, "serve", *arguments, *options)

        return expected

    @pytest.mark.parametrize(
        "listed, options",
        cases(
            ("alone", b"SCANNER1\n", ""),
            ("without an end of its line", b"SCANNER2\nSCANNER1", ""),
            ("in lines that end in CR LF", b"# R\366ntgen\r\n\r\nSCANNER2\r\nSCANNER1\r\n", ""),
            ("the last of 4,096", b"SCANNER2\n" * 4095 + b"SCANNER1\n", ""),
            ("by an option", b"SCANNER2\n", "--caller SCANNER1"),
            ("before an option", b"SCANNER1\n", "--caller SCANNER2"),
            ("the last of 4,096 with those of options", b"A\n" * 4094, "--caller B --caller SCANNER1"),
            ("in the longest file", b"SCANNER1\n#" + b"-" * 65526, ""),
        ),
    )
    def test_that_are_named(self, start, put, listed, options):
        put({"callers.txt": listed})
        assert start("--callers", "callers.txt", *options.split()).echoes()

    @pytest.mark.parametrize(
        "listed",
        cases(
            ("among others", b"SCANNER2\nSCANNER\n"),
            ("but in a comment", b"# or\n#SCANNER1\nSCANNER2\n"),
        ),
    )
    def test_that_are_not_named(self, start, put, listed):
        put({"callers.txt": listed})
        with start("--callers", "callers.txt").connect() as peer:
            peer.send(ECHO_REQUEST)
            assert peer.rest() == bytes.fromhex("03000000000400010103")

    @pytest.mark.parametrize(
        "errors, listed, options",
        cases(
            ("in an empty file", "has no title", b"", ""),
            ("in a comment", "has no title", b"\n# SCANNER1\n", "--caller SCANNER1"),
            (
                "a title that is too long",
                'line 3 is no AE title of 1 to 16 characters: "SEVENTEENLETTERSX"',
                b"SCANNER1\r\n\r\nSEVENTEENLETTERSX\r\n",
                "",
            ),
            (
                "a comment behind a title",
                'line 2 has a comment behind a title; it needs a line of its own: "US 3 # room 5"',
                b"CT #2\nUS 3 # room 5\n",
                "",
            ),
            ("in UTF-16", "line 1 is no AE title .*", b"\377\376S\0", ""),
            ("in a longer file", "has more than 65536 bytes", b"SCANNER1\n#" + b"-" * 65527, ""),
        ),
    )
    def test_that_are_refused(self, refused, errors, listed, options):
        errors = f"error: --callers names 'callers.txt', wh[a-z]+ {errors}"
        refused(errors, listed, *options.split())

    def test_that_are_too_many(self, refused):
        errors = "error: --callers and --caller may name 4096 titles at most"
        refused(errors, b"SCANNER1\n" * 4097)
        refused(errors, b"SCANNER1\n" * 4096, "--caller", "SCANNER1")

    @pytest.mark.parametrize("name", ["missing.txt", "."])
    def test_that_cannot_be_read(self, expect, name):
        errors = f"dcmbox: {re.escape(name)}: the file of titles can't be read: .*; check .*"
        expect(3, "", errors, "serve", "--port", "11112", "--out", ".", "--callers", name)

    def test_of_a_file_without_end(self, expect):
        errors = "error: --callers names '/dev/zero', which has more than 65536 bytes"
        expect(2, "", errors, "serve", "--port", "11112", "--out", ".", "--callers", "/dev/zero")


class TestRenewedCallers:
    """A file of calling titles that has changed is read anew at the next connection."""

    WAS = b"SCANNER2\n"

    @pytest.fixture
    def change(self, work):
        """Puts another file in place of that of the titles, or removes it."""

        def changed(listed):
            path = work / "callers.txt"
            if listed is None:
                path.unlink()
            else:
                (work / "new.txt").write_bytes(listed)
                (work / "new.txt").rename(path)

        return changed

    @pytest.fixture
    def box(self, serve, form, change):
        change(self.WAS)
        box = serve("--callers", "callers.txt", "--verbose", *form)
        assert not self.is_accepted(box)
        return box

    @staticmethod
    def is_accepted(box):
        """Returns whether SCANNER1 may call; if not, it is rejected for its title."""
        rejected = bytes.fromhex("03000000000400010103")
        with box.connect() as peer:
            answer = peer.exchange(ECHO, len(rejected))
            if answer != rejected:
                answer += peer.receive(len(ECHO_ANSWER) - len(rejected))
                assert answer == ECHO_ANSWER
        return answer != rejected

    @staticmethod
    def logged(box):
        """Returns the lines about the file, without their time."""
        return [re.sub(r" 20\S+Z", "", line) for line in box.lines if "calling titles" in line]

    @staticmethod
    def read(count):
        return f"[INFO  dcmbox::serve] the calling titles were read anew: {count} may call"

    def test_a_title_that_was_added_may_call(self, box, change):
        change(b"SCANNER1\nSCANNER2\n")
        assert self.is_accepted(box) and self.is_accepted(box)
        assert self.logged(box) == [self.read(2)]

    def test_a_title_that_was_removed_may_not_call(self, box, change):
        for listed, may_call in ((b"SCANNER1\n", True), (self.WAS, False), (b"SCANNER1\n", True)):
            change(listed)
            assert self.is_accepted(box) == may_call
        assert self.logged(box) == [self.read(1)] * 3

    def test_written_in_place_it_is_read_too(self, box, work):
        with open(work / "callers.txt", "ab") as file:
            file.write(b"SCANNER1")
        assert self.is_accepted(box)

    def test_written_within_the_same_second_it_is_read_too(self, box, work):
        """It has the same size and inode, and the second of its last change is that of the one before."""
        path, times = work / "callers.txt", [0, 0]
        while times[0] // 10**9 != times[1] // 10**9 or times[0] == times[1]:
            times = []
            for listed in (self.WAS, b"SCANNER1\n"):
                assert not times or not self.is_accepted(box)
                path.write_bytes(listed)
                times.append(path.stat().st_ctime_ns)
        assert self.is_accepted(box)

    def test_the_same_titles_are_no_change(self, box, change, work):
        change(self.WAS)
        os.utime(work / "callers.txt")
        assert not self.is_accepted(box)
        assert self.logged(box) == []

    def test_titles_of_options_stay(self, serve, change):
        change(self.WAS)
        box = serve("--callers", "callers.txt", "--caller", "SCANNER1")
        change(b"SCANNER3\nSCANNER4\n")
        assert self.is_accepted(box)
        assert self.logged(box) == [self.read(3)]

    def test_other_settings_stay(self, serve, change):
        """The limits, classes and called titles are those of the options, as at the start."""
        change(self.WAS)
        options = ("--ae", "ARCHIVE", "--ae", "DCMBOX", "--max-pdu", "1024", "--max-data", "1024")
        box = serve("--callers", "callers.txt", *options)
        change(b"SCANNER1\n")
        answer = box.exchange(ECHO, 269)
        at = answer.index(b"\x51\0\0\4") + 4
        assert struct.unpack(">L", answer[at : at + 4])[0] == 1024

    def test_an_open_association_stays(self, serve, change):
        change(b"SCANNER1\n")
        box = serve("--callers", "callers.txt", "--at-once", "4")
        with box.connect() as peer:
            accepted = peer.exchange(ECHO_REQUEST, 6 + struct.unpack(">L", ECHO_ANSWER[2:6])[0])
            change(self.WAS)
            assert not self.is_accepted(box)
            rest = peer.exchange(ECHO[len(ECHO_REQUEST) :], len(ECHO_ANSWER) - len(accepted))
            assert accepted + rest == ECHO_ANSWER
        assert not self.is_accepted(box)

    @pytest.mark.parametrize(
        "reason, listed",
        cases(
            ("an empty file", "--callers names 'callers.txt', which has no title", b""),
            (
                "a title that is too long",
                "--callers names 'callers.txt', whose line 2 is no AE title of 1 to 16 characters:"
                ' "SEVENTEENLETTERSX"',
                b"SCANNER1\nSEVENTEENLETTERSX\n",
            ),
            (
                "a longer file",
                "--callers names 'callers.txt', which has more than 65536 bytes",
                b"SCANNER1\n#" + b"-" * 65527,
            ),
            (
                "no file",
                "the file of titles can't be read: No such file or directory (os error 2);"
                " check its name, and that you may read it",
                None,
            ),
        ),
    )
    def test_a_wrong_file_keeps_the_titles_before(self, box, change, reason, listed):
        """It is logged once, and a file that is mended is read."""
        error = f"[ERROR dcmbox::serve] the calling titles stay as they were: {reason}"
        change(listed)
        assert not self.is_accepted(box) and not self.is_accepted(box)
        assert self.logged(box) == [error]
        change(b"SCANNER1\n")
        assert self.is_accepted(box)
        change(listed)
        assert self.is_accepted(box)
        change(self.WAS)
        assert not self.is_accepted(box)
        assert self.logged(box) == [error, self.read(1), error, self.read(1)]

    def test_a_missing_file_that_is_there_again_is_logged(self, box, change):
        change(None)
        assert not self.is_accepted(box)
        change(self.WAS)
        assert not self.is_accepted(box)
        assert self.logged(box)[1:] == [self.read(1)]

    @pytest.mark.parametrize("letters", ("A", "T", "AT"))
    def test_one_of_4096_may_call(self, box, change, letters):
        """Titles are found wherever they are in the order of the others."""
        others = "".join(f"{letters[count % len(letters)]}{count}\n" for count in range(4095))
        for title, may_call in (("SCANNER1", True), ("SCANNER2", False), (" SCANNER1 ", True)):
            change(f"{title}\n{others}".encode())
            assert self.is_accepted(box) == may_call
        assert self.logged(box) == [self.read(4096)] * 3

    def test_in_json(self, serve, change):
        change(self.WAS)
        box = serve("--callers", "callers.txt", "--log", "json")
        for listed in (b"", b"SCANNER1\n"):
            change(listed)
            self.is_accepted(box)
        lines = [line for line in map(json.loads, box.lines) if line["event"].startswith("callers")]
        assert [{**line, "time": None} for line in lines] == [
            {
                "time": None,
                "level": "ERROR",
                "event": "callers not read",
                "reason": "--callers names 'callers.txt', which has no title",
            },
            {"time": None, "level": "INFO", "event": "callers read", "callers": 1},
        ]

    def test_many_changes_need_little_memory(self, serve, change):
        """Replaced settings are kept, as associations use them: some 5 KB each, and 16 bytes a title."""
        change(self.WAS)
        box = serve("--callers", "callers.txt", memory=LITTLE)
        assert not self.is_accepted(box)
        before = box.most_resident()
        for count in range(200):
            change(b"SCANNER%d\n" % (count + 3))
            assert not self.is_accepted(box)
        assert len(self.logged(box)) == 200
        grown = box.most_resident() - before
        assert grown < 200 * 8, grown


@pytest.mark.parametrize(
    "length, options",
    cases(
        ("16384 by default", 16384, ""),
        ("the least", 1024, "--max-pdu 1024"),
        ("the greatest", 131072, "--max-pdu 131072"),
        ("not the longest data set", 16384, "--max-data 1024"),
    ),
)
def test_the_maximum_length_of_the_acceptance(start, length, options):
    answer = start(*options.split()).exchange(ECHO, 269)
    at = answer.index(b"\x51\0\0\4") + 4
    assert struct.unpack(">L", answer[at : at + 4])[0] == length


class TestLongestPdu:
    """A P-DATA-TF PDU may have the maximum length of the acceptance, and no more."""

    @pytest.fixture
    def peer(self, start):
        with start("--max-pdu", "1024").connect() as peer:
            assert len(peer.exchange(ECHO_REQUEST, 169)) == 169
            yield peer

    def test_of_this_length(self, peer):
        peer.send(struct.pack(">BxLx", 4, 1024))
        assert peer.is_silent(2)

    def test_longer(self, peer):
        """The service provider aborts at its length, for an invalid parameter. Then the timer expires."""
        peer.send(struct.pack(">BxLx", 4, 1025))
        assert peer.rest() == bytes.fromhex("07000000000400000206")


def data_set(size, sent):
    """Returns a data set whose Pixel Data announces `size` bytes and has `sent` bytes.

    60 bytes precede it.
    """
    head = element((0x7FE0, 0x0010), "OW", b"")[:8] + struct.pack("<L", size)
    return STORES[304:352] + head + bytes(sent)


@pytest.mark.parametrize(
    "status, size, sent",
    cases(
        ("of as many bytes as are accepted", 0x0000, 964, 964),
        ("of more bytes than are accepted", 0xA700, 966, 966),
        ("that announces more bytes", 0xA700, 966, 0),
    ),
)
def test_a_data_set(start, status, size, sent):
    """At most 1,024 bytes are accepted."""
    box = start("--max-data", "1024", memory=None)
    store = STORES[:292] + values(1, 2, data_set(size, sent)) + RELEASE
    answer = box.exchange(store, 293)
    at = answer.index(bytes.fromhex("0000000902000000"))
    assert struct.unpack("<H", answer[at + 8 : at + 10])[0] == status
    if status == 0:
        assert box.files() == ["I0000001"]
        assert (box.folder / "I0000001").read_bytes() == HEADER + data_set(size, sent)
    else:
        box.until_logged("not stored: status A700")
        assert box.files() == []


def test_a_folder_with_the_name_of_the_locked_one(serve, run, put, work):
    """The box stores nothing into it, and another program can.

    When the locked folder has its name again, the box stores into it.
    """
    put({"stores.bin": STORES})
    box = serve("--timeout", "30")
    box.until_logged("listening on")
    moved = box.folder.rename(work / "moved")
    box.folder.mkdir()
    assert box.answers(STORES, REFUSED_ANSWER)
    box.until_logged("a file could not be written: the folder was replaced by another one")
    assert box.files() == os.listdir(moved) == []

    assert run("replay", "stores.bin", "--out", "received").returncode == 0
    assert box.answers(STORES, REFUSED_ANSWER)
    assert box.files() == ["I0000001", "I0000002"]
    assert (box.folder / "I0000001").read_bytes() == CT_FILE

    box.folder.rename(work / "other")
    moved.rename(box.folder)
    assert box.answers(STORES, STORES_ANSWER)
    assert box.files() == ["I0000001", "I0000002"]


def test_a_folder_that_is_replaced_during_a_store(serve, form, work):
    """The store fails, and the draft of another program keeps its name alone."""
    box = serve("--timeout", "30", *form)
    with box.connect() as peer:
        # (all but the last byte of the first store)
        peer.send(STORES[:351])
        wait_for((box.folder / "DRAFT").exists, "the draft is there")
        box.folder.rename(work / "moved")
        box.folder.mkdir()
        (box.folder / "DRAFT").write_bytes(b"of another")
        peer.send(STORES[351:])
        assert SUCCESS not in peer.rest()
    assert box.files() == ["DRAFT"]
    assert (box.folder / "DRAFT").read_bytes() == b"of another"


def test_a_disk_that_is_mounted_over_the_locked_folder(serve, small_disk):
    """The box stores nothing into it: its root has the same inode number, and is another folder."""
    small_disk("received", "-t", "tmpfs", "tmpfs")
    box = serve("--timeout", "30")
    locked = os.stat(box.folder)
    other = os.stat(small_disk("received", "-t", "tmpfs", "tmpfs"))
    assert locked.st_ino == other.st_ino and locked.st_dev != other.st_dev
    assert box.answers(STORES, REFUSED_ANSWER)
    box.until_logged("a file could not be written: the folder was replaced by another one")
    assert box.files() == []


def test_closed_standard_descriptors_are_not_reused(serve):
    """The log is lost: connections and files get other numbers."""
    closed = ["sh", "-c", 'exec "$@" <&- >&- 2>&-', "sh"]
    box = serve("-v", "--once", "--timeout", "30", before=closed)
    assert box.answers(STORES, STORES_ANSWER)
    box.ended()
    assert box.files() == ["I0000001", "I0000002"]
    assert (box.folder / "I0000001").read_bytes() == CT_FILE


def test_a_folder_of_files_that_is_moved_away(serve, work):
    """The folder is made again, and one that is moved back keeps its files: no store is lost."""
    box = serve("--timeout", "30", "--per", "3")
    assert box.answers(STORES, STORES_ANSWER)
    moved = (box.folder / "S0000001").rename(work / "taken")
    (box.folder / "S0000002").mkdir()
    (box.folder / "S0000002/I0000001").write_bytes(CT_FILE)
    assert box.answers(STORES, STORES_ANSWER)
    assert sorted(os.listdir(moved)) == ["I0000001", "I0000002"]
    assert os.listdir(box.folder / "S0000001") == ["I0000003"]
    assert sorted(os.listdir(box.folder / "S0000002")) == ["I0000001", "I0000002"]


class TestNumbers:
    """A file of numbers prevents that a number is used again."""

    @pytest.fixture
    def store(self, serve):
        """Stores the two images into a new box."""

        def stored(*options):
            box = serve("--once", "--timeout", "30", "--numbers", "numbers.txt", *options)
            assert box.answers(STORES, STORES_ANSWER)
            assert box.ended() == 0
            return box

        return stored

    def test_that_run_low_are_warned_of_once(self, serve, put, work):
        """The first file with a number from 9000000 has a warning, and no other file."""
        put({"received/I8999998": b""})
        box = serve("--timeout", "30", "--numbers", "numbers.txt")
        for _ in range(2):
            assert box.answers(STORES, STORES_ANSWER)
        assert box.files() == ["I8999998", "I8999999", "I9000000", "I9000001", "I9000002"]
        warning = r"^\[WARN .* few numbers are left, .*: I9000000 of 9999999$"
        assert len(re.findall(warning, box.log, re.M)) == 1
        assert (work / "numbers.txt").read_text() == "I9000098 S0000000\n"

    def test_are_not_used_again(self, store, put):
        put({"numbers.txt": b"I9000098 S0000000\n"})
        assert store().files() == ["I9000099", "I9000100"]

    def test_of_folders_are_not_used_again(self, store):
        box = store("--per", "1")
        for name in box.files():
            shutil.rmtree(box.folder / name)
        assert store("--per", "1").files() == ["S0000003", "S0000004"]

    def test_that_are_damaged(self, expect, put, work, port):
        """A damaged file of numbers stays unchanged."""
        put({"numbers.txt": b"I9000100\n"})
        refused = "the file of numbers can't be read or made: it has no line of two numbers; .*"
        arguments = ("serve", "--port", str(port), "--out", ".", "--numbers", "numbers.txt")
        expect(3, "", f"dcmbox: numbers.txt: {refused}", *arguments)
        assert (work / "numbers.txt").read_text() == "I9000100\n"


def test_a_peer_of_ipv4_is_logged_as_such(serve):
    """The address of the peer is an IPv4 address, also if the box listens on all addresses of both versions of IP."""
    box = serve("--once", "--timeout", "30", "--bind", "::", memory=LITTLE)
    assert box.echoes()
    box.ended()
    assert re.search(r" 127\.0\.0\.1:[0-9]+ Ended", box.log)


def test_a_privileged_port(program, work):
    """The user nobody can't listen on it."""
    least = int(open("/proc/sys/net/ipv4/ip_unprivileged_port_start").read())
    if os.getuid() != 0 or least <= 104:
        pytest.skip("no user without rights can be had here, or no port is kept")
    copied, kept = work / "program", work / "kept"
    shutil.copy(program, copied)
    kept.mkdir()
    for path, mode in ((copied, 0o755), (work, 0o755), (kept, 0o777)):
        path.chmod(mode)
    done = subprocess.run(
        [copied, "serve", "--port", "104", "--out", "kept"],
        cwd=work,
        capture_output=True,
        text=True,
        timeout=PATIENCE,
        user=65534,
        group=65534,
        extra_groups=[],
    )
    refused = (
        r"\[INFO [^\n]* removed drafts 0 callers any classes 11 syntaxes 2\n"
        "dcmbox: 104: can't be listened on: Permission denied "
        "[^;]*; choose a port from 1024 on.*CAP_NET_BIND_SERVICE\n"
    )
    assert (done.returncode, done.stdout) == (3, "")
    assert re.fullmatch(refused, done.stderr), done.stderr
