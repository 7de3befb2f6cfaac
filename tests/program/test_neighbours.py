"""Effects of peers and other programs on the log, the queue, the folders and the files of a box."""
import os
import re
import struct
import time

import pytest
from box import listeners, wait_for
from peer import CT, ECHO, ECHO_ANSWER, ECHO_REQUEST, EXPLICIT, RELEASE, store_command
from samples import IMAGE, cases
from studies import image
from test_arrange import PATH
from test_quarantine import BAD, data_set, names, send

NO_FILE = "it is a pipe, a socket or a device, and no file"
NOT_STORED = r"WARN .* not stored: status C000 .*"


def refused_stores(box, count):
    """Sends `count` stores that are refused in one association, and releases it."""
    with box.connect() as peer:
        assert peer.associate([(CT, EXPLICIT)]) == [(0, EXPLICIT)]
        for number in range(1, count + 1):
            peer.send(store_command(1, CT, "1.2.840.99.1", number))
            body = data_set(more=BAD)
            peer.send(struct.pack(">BxLLBB", 4, len(body) + 6, len(body) + 2, 1, 2) + body)
            assert b"\0\0\0\x09\2\0\0\0\0\xc0" in peer.receive_pdu()[1]
        peer.until_released(RELEASE)


def test_ten_lines_report_stores_that_were_not_filed(serve, form):
    box = serve("--metrics", "box.prom", *form)
    refused_stores(box, 35)
    box.until_logged("released")
    lines = [line for line in box.lines if "not stored" in line]
    assert len(lines) == 11, box.log
    assert re.search(r'not stored: 25 more, the last with status C000 .*"SCANNER1"', lines[-1])


def test_few_stores_that_were_not_filed_have_a_line_each(serve):
    box = serve()
    refused_stores(box, 10)
    box.until_logged("released")
    assert len(re.findall(NOT_STORED, box.log)) == 10 and "more, the last" not in box.log


def test_closed_connections_leave_the_queue(serve):
    """Peers that close while they wait, with or without a request, free their places in the queue."""
    box = serve("--at-once", "2", "--per-peer", "1")
    with box.connect() as first:
        first.send(ECHO_REQUEST)
        assert first.receive(20)
        for sent in (ECHO, b"", ECHO_REQUEST, b"", ECHO) * 4:
            with box.connect() as peer:
                peer.send(sent)
                assert peer.is_silent(0.05)
            time.sleep(0.05)
        with box.connect() as last:
            last.send(ECHO)
            assert last.is_silent(0.2), box.log
            first.close()
            assert last.receive(len(ECHO_ANSWER)) == ECHO_ANSWER
    assert "too many wait" not in box.log


def test_too_many_waiting_connections_are_logged_once(serve):
    box = serve("--at-once", "2", "--per-peer", "1")
    peers = [box.connect() for _ in range(9)]
    box.until_logged("too many wait for a place")
    wait_for(lambda: all(peer.receive(1) == b"" for peer in peers[3:]), "the others are closed")
    assert box.log.count("too many wait for a place") == 1
    for peer in peers:
        peer.close()


@pytest.mark.parametrize(
    "arguments",
    [
        "show no\33[31m",
        "check no\33[31m",
        "list no\33[31m",
        "show ct.dcm --tag a\33[2J",
        "serve --out in --port \33[2J",
    ],
)
def test_arguments_do_not_change_the_terminal(run, arguments):
    done = run(*arguments.split(" "))
    assert done.returncode in (2, 3) and "?[" in done.stderr and "\33" not in done.stderr


class TestLinks:
    """Links with the names of files that the program writes: what they lead to is not written."""

    @pytest.fixture(params=["a file", "nothing"])
    def plant(self, request, put, work):
        """Puts a link to a file or to nothing in place of what has a name."""
        put({"kept/a file": b"kept"})

        def planted(name):
            path = work / name
            path.parent.mkdir(parents=True, exist_ok=True)
            path.unlink(missing_ok=True)
            path.symlink_to(work / "kept" / request.param)

        return planted

    @staticmethod
    def kept(work):
        return {path.name: path.read_bytes() for path in (work / "kept").iterdir()}

    @pytest.mark.parametrize(
        "name, command",
        cases(
            ("draft of a DICOMDIR", "in/DIRDRAFT", "index in --uid 1.2.3"),
            ("DICOMDIR", "in/DICOMDIR", "index in --uid 1.2.3 --replace"),
            ("draft of a copy", "tree/.DRAFT", "arrange in --to tree --copy"),
            ("copy", f"tree/{PATH}", "arrange in --to tree --copy"),
        ),
    )
    def test_of_a_command(self, run, put, plant, work, name, command):
        put({"in/I0000001": image()})
        plant(name)
        assert run(*command.split()).returncode == 0
        assert self.kept(work) == {"a file": b"kept"}

    @pytest.mark.parametrize(
        "name, options",
        cases(
            ("draft", "received/DRAFT", ""),
            ("numbers", "numbers", "--numbers numbers"),
            ("draft of numbers", "numbers.new", "--numbers numbers"),
            ("lock of numbers", ".numbers.lock", "--numbers numbers"),
            ("metrics", "box.prom", "--metrics box.prom"),
            ("draft of metrics", "box.prom.new", "--metrics box.prom"),
            ("lock of metrics", ".box.prom.lock", "--metrics box.prom"),
        ),
    )
    def test_of_a_box(self, serve, plant, work, name, options):
        """Links are there at its start, and again before it receives a file and refuses another one."""
        plant(name)
        box = serve(*options.split(), waits=False)
        wait_for(lambda: listeners(box.port) or box.process.poll(), "the box listens or has ended")
        if box.process.poll() is None:
            plant(name)
            assert [send(box, data) for data in (data_set(), data_set(more=BAD))] == ["0000", "C000"]
        assert self.kept(work) == {"a file": b"kept"}

    @pytest.mark.parametrize(
        "name",
        cases(
            ("file", "received/I0000001"),
            ("draft in the quarantine", "aside/000001.part"),
            ("file in the quarantine", "aside/000001.dcm"),
            ("text in the quarantine", "aside/000001.txt"),
        ),
    )
    def test_with_the_next_number(self, serve, plant, work, name):
        """Links come after the box has listed its folders: it gives their numbers next."""
        box = serve("--quarantine", "aside")
        plant(name)
        assert [send(box, data) for data in (data_set(), data_set(more=BAD))] == ["0000", "C000"]
        assert self.kept(work) == {"a file": b"kept"}


@pytest.mark.parametrize("command", ["show", "check", "show --values"])
def test_a_pipe_is_not_waited_for(run, work, command):
    (work / "in").mkdir()
    os.mkfifo(work / "in/I0000009")
    done = run(*command.split(), "in/I0000009")
    assert done.returncode == 3 and NO_FILE in done.stderr


@pytest.mark.parametrize(
    "command, status",
    [("list in", 0), ("check -r in", 0), ("arrange in --to tree", 0), ("index in --uid 1.2.3", 0)],
)
def test_a_pipe_among_files(run, put, work, command, status):
    """A pipe is reported, and the other files are read."""
    put({"in/I0000001": IMAGE})
    os.mkfifo(work / "in/I0000009")
    done = run(*command.split())
    assert done.returncode == status, (done.stdout, done.stderr)
    assert f"in/I0000009: {NO_FILE}" in done.stderr
    if command.startswith("index"):
        assert "skipped I0000009 fault 54" in done.stdout and "images 1 left out 1" in done.stderr


def test_a_full_quarantine_is_not_counted_for_each_store(serve, trace, calls, work):
    """The files of the quarantine are listed at the start, and after a change of it."""
    (work / "aside").mkdir()
    bad = data_set(more=BAD)
    strace = trace("-f", "-y", "-e", "trace=getdents64")
    box = serve("--quarantine", "aside", "--quarantine-most", "1", before=strace)
    assert send(box, bad) == "C000" and names(work / "aside") == ["000001.dcm", "000001.txt"]
    time.sleep(1.2)
    assert [send(box, bad) for _ in range(8)] == ["C000"] * 8
    (work / "aside/000001.dcm").unlink()
    assert send(box, bad) == "C000" and "000002.dcm" in names(work / "aside")
    box.stop()
    listed = [line for line in calls() if "/aside>" in line and not line.rstrip().endswith("= 0")]
    assert len(listed) in (2, 3, 4), listed


def test_a_folder_named_as_a_draft(serve, work):
    (work / "received/DRAFT").mkdir(parents=True)
    box = serve(waits=False)
    assert box.ended() == 3
    assert "a folder in it has the name of a draft, DRAFT or DRAFT with digits" in box.log
    assert (work / "received/DRAFT").is_dir()
