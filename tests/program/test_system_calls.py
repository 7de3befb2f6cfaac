"""The system calls of the program, and calls that strace shortens or makes fail."""
import os
import re
import shutil
import signal
from contextlib import contextmanager

import pytest
from box import wait_for
from peer import (
    ECHO,
    ECHO_ANSWER,
    FIRST_REPLY,
    RELEASED,
    STORES,
    STORES_ANSWER,
    STORES_REQUEST,
    SUCCESS,
)
from samples import ELEMENTS, SHOWN, LargeStore

LISTING = SHOWN + ELEMENTS
# The bytes of a draft after which its writeback is started.
STEP = 4 << 20


def read(*options):
    """Returns strace's options for the reads of ct.dcm."""
    return "-P", "ct.dcm", "-e", "trace=read", *options


def test_a_file_whose_reads_are_interrupted(run, samples, trace, calls):
    """Each read is interrupted before it returns bytes."""
    interrupted = trace(*read("-e", "inject=read:error=EINTR:when=1+2"))
    done = run("show", "ct.dcm", before=interrupted)
    assert any("EINTR" in call for call in calls())
    assert (done.returncode, done.stdout) == (0, f"{LISTING}end 336\n")


def test_a_file_whose_last_read_fails(run, samples, trace, calls):
    """The listing before the read that would find the end is printed."""
    run("show", "ct.dcm", before=trace(*read()))
    failing = trace(*read("-e", f"inject=read:error=EIO:when={len(calls())}"))
    done = run("show", "ct.dcm", before=failing)
    assert (done.returncode, done.stdout) == (3, LISTING)
    assert "dcmbox: ct.dcm: the file can't be read: Input/output error" in done.stderr


def test_a_replay_syncs_its_files(run, samples, trace, calls, work):
    """Each file is synced, and the folder once the file has its name."""
    (work / "synced").mkdir()
    done = run("replay", "stores.bin", "--out", "synced", before=trace("-e", "trace=fsync,link"))
    assert done.returncode == 0
    assert [call.split("(")[0] for call in calls()] == ["fsync", "link", "fsync"] * 2


@pytest.fixture
def traced(serve, trace, form):
    """Starts a box that serves one association under strace."""

    def started(*options, arguments=()):
        arguments = ("--once", "--timeout", "30", "--idle", "60", *form, *arguments)
        return serve(*arguments, before=trace(*options))

    return started


def test_replies_are_sent_without_delay(traced, calls):
    box = traced("-e", "trace=setsockopt")
    assert box.echoes()
    assert box.ended() == 0
    assert any("TCP_NODELAY, [1]" in call for call in calls())


@pytest.mark.parametrize("call", ["recvfrom", "sendto"])
def test_calls_that_are_interrupted(traced, calls, call):
    box = traced("-e", f"trace={call}", "-e", f"inject={call}:error=EINTR:when=1+2")
    assert box.echoes()
    box.ended()
    assert any("EINTR" in line for line in calls())


def test_a_short_send_is_continued(traced):
    """The first send sends seven bytes, by strace's report, which do not reach the peer."""
    box = traced("-e", "trace=sendto", "-e", "inject=sendto:retval=7:when=1")
    assert box.answers(ECHO, ECHO_ANSWER[7:])
    box.ended()


def test_a_connection_that_fails_is_logged(serve, trace):
    """The second option that is set is the first one of a connection."""
    failing = trace("-e", "trace=setsockopt", "-e", "inject=setsockopt:error=ENOBUFS:when=2")
    box = serve("--once", "--timeout", "30", before=failing)
    box.connect().close()
    message = r"the connection failed: No buffer space available"
    box.until_logged(rf"^\[ERROR dcmbox::serve\] 20[^ ]*Z 127\.0\.0\.1:[0-9]* {message}")
    box.ended()


@pytest.mark.parametrize("slots", [1, 2])
def test_a_connection_that_fails_has_no_slot(serve, trace, slots):
    """After it, as many connections are served at once as there are slots."""
    failing = trace("-e", "trace=setsockopt", "-e", "inject=setsockopt:error=ENOBUFS:when=2")
    box = serve("--at-once", slots, "--per-peer", slots, before=failing)
    box.connect().close()
    box.until_logged("the connection failed: No buffer space available")
    peers = [box.connect() for _ in range(slots)]
    for peer in peers:
        assert peer.exchange(STORES_REQUEST, len(ACCEPTED)) == ACCEPTED
    for peer in peers:
        peer.close()


def shown(call):
    """Returns the name of a call; for a sync with what is synced, a draft without its number."""
    name, synced = re.match(r"(\w+)\((?:\d+<(.*?)>)?", call).groups()
    if "sync" not in name:
        return name
    return f"{name} {re.sub('[0-9]+$', '', synced.rsplit('/')[-1])}"


@pytest.mark.parametrize(
    "options, filed",
    [
        ((), ["fsync DRAFT", "link", "fsync received"]),
        (("--no-sync",), ["link"]),
    ],
    ids=["synced", "where_no_sync_is_asked_for"],
)
def test_each_success_is_sent_after_its_file_is_filed(serve, trace, calls, form, options, filed):
    """The draft is synced, gets its name, and the folder is synced; or nothing is synced."""
    names = "trace=fsync,fdatasync,link,linkat,rename,sendto"
    box = serve("--once", "--timeout", "30", *form, *options, before=trace("-y", "-e", names))
    assert box.answers(STORES, STORES_ANSWER)
    box.ended()
    assert box.files() == ["I0000001", "I0000002"]
    sent = ["sendto", *filed, "sendto", *filed, "sendto", "sendto"]
    assert [shown(call) for call in calls()] == sent


@pytest.fixture(scope="module")
def store():
    """A store of 18 MiB."""
    return LargeStore(18 << 20)


@pytest.fixture
def stores(traced):
    """Stores an object in a box whose calls of fadvise64 and fsync are traced."""

    def stored(store, *options, before=()):
        box = traced("-y", "-e", "trace=fadvise64,fsync", *before, arguments=options)
        answer = box.exchange(store.opening + store.middle + store.last, 293)
        assert (answer, box.ended()) == (FIRST_REPLY + RELEASED, 0)
        assert (box.folder / "I0000001").read_bytes() == store.file

    return stored


def advised(call):
    """Returns the offset and the number of bytes of a draft whose writeback is requested, and the result."""
    advice = r"fadvise64\(\d+<.*/DRAFT\d*>, (\d+), (\d+), POSIX_FADV_DONTNEED\) = (-?\d+)( .*)?"
    return [int(number) for number in re.fullmatch(advice, call).groups()[:3]]


@pytest.mark.parametrize(
    "before, result",
    [((), 0), (("-e", "inject=fadvise64:error=EIO"), -1)],
    ids=["accepted", "refused"],
)
def test_the_writeback_of_a_large_store_starts_early(stores, store, calls, before, result):
    """The box requests the writeback of each 4 MiB once they are received.

    The sync writes the rest, or everything if the request is refused.
    """
    stores(store, before=before)
    *advices, draft, folder = calls()
    assert [shown(draft), shown(folder)] == ["fsync DRAFT", "fsync received"]
    at = 0
    for call in advices:
        start, count, given = advised(call)
        assert (start, given) == (at, result) and count >= STEP
        at += count
    assert len(advices) == len(store.file) // STEP and at <= len(store.file) < at + STEP


def test_the_writeback_of_a_small_store_is_left_to_its_sync(stores, calls):
    stores(LargeStore(STEP - 348 - 2))
    assert [shown(call) for call in calls()] == ["fsync DRAFT", "fsync received"]


def test_no_writeback_is_started_without_syncs(stores, store, calls):
    stores(store, "--no-sync")
    assert calls() == []


# The first store of the recording, and the reply to the request before it.
FIRST_STORE, ACCEPTED = STORES[180:352], STORES_ANSWER[:171]


# The replies to the second store and to the release, and the reply to the first if its file could not be written.
STORED = STORES_ANSWER[len(FIRST_REPLY) :]
REFUSED_REPLY = FIRST_REPLY[len(ACCEPTED) :].replace(SUCCESS, bytes.fromhex("000000090200000000a7"))


@pytest.mark.parametrize(
    "options",
    [(), ("--stop-file", "stop.txt"), ("--longest", "60"), ("--per", "5", "--longest", "60")],
    ids=["alone", "with_an_end", "with_a_bound", "in_subfolders"],
)
def test_one_slot_settles_each_file_by_itself(serve, trace, calls, work, options):
    """A folder that can't be synced fails its store with A700, and not the association."""
    failing = "fsync:error=EIO:when=1"
    folder = work / "received" / ("S0000001" if "--per" in options else "")
    box = serve(*options, before=trace("-P", folder, "-e", "trace=fsync", "-e", f"inject={failing}"))
    with box.connect() as peer:
        assert peer.exchange(STORES_REQUEST, len(ACCEPTED)) == ACCEPTED
        answer = REFUSED_REPLY + STORED
        assert peer.exchange(STORES[len(STORES_REQUEST) :], len(answer)) == answer
    box.until_logged(r"^\[ERROR .*a file could not be written: Input/output error")
    assert len(calls()) == 2 and len(list(box.folder.rglob("I*"))) == 1


@pytest.mark.parametrize("options", [(), ("--at-once", "2")], ids=["alone", "in_a_group"])
def test_an_existing_subfolder_is_synced_into_its_folder(serve, trace, calls, work, options):
    """The folder is synced once, before the reply to the first file in the subfolder."""
    (work / "received/S0000001").mkdir(parents=True)
    names = "trace=fsync,link,sendto"
    box = serve("--per", "5", *options, before=trace("-y", "-e", names))
    assert box.answers(STORES, STORES_ANSWER)
    draft, folder = ["fsync DRAFT", "link"], ["fsync S", "sendto"]
    sent = ["sendto", *draft, "fsync received", *folder, *draft, *folder, "sendto"]
    assert [shown(call) for call in calls()][: len(sent)] == sent


class TestMovedSubfolders:
    """A subfolder is moved, replaced or removed while a file gets its name there."""

    @pytest.fixture
    def named(self, serve, trace, work):
        """Stores two objects, and makes a change once the first has its name, before the call returns.

        Returns the names in the folder.
        """

        def stored(change, *options, links=(), first=b""):
            late = f"inject={'rename' if links else 'link'}:delay_exit=2000000:when=1"
            traced = trace("-y", "-e", "trace=fsync,link,rename,sendto", *links, "-e", late)
            box = serve("--per", "5", *options, before=traced)
            with box.connect() as peer:
                assert peer.exchange(STORES_REQUEST, len(ACCEPTED)) == ACCEPTED
                peer.send(FIRST_STORE)
                folder = box.folder / "S0000001"
                wait_for((folder / "I0000001").exists, "the first file has its name")
                change(folder)
                answer = (first or FIRST_REPLY[len(ACCEPTED) :]) + STORED
                rest = STORES[len(STORES_REQUEST + FIRST_STORE) :]
                assert peer.exchange(rest, len(answer)) == answer
            return sorted(str(path.relative_to(box.folder)) for path in box.folder.rglob("I*"))

        return stored

    @pytest.mark.parametrize("options", [(), ("--at-once", "2")], ids=["alone", "in_a_group"])
    @pytest.mark.parametrize("replaced", [False, True], ids=["moved", "replaced"])
    def test_the_file_is_named_once_more(self, named, calls, work, options, replaced):
        """The file gets the next number, in the folder that exists then or is made again.

        Its bytes are synced before each name, and its folder after the last. Files of another program
        remain.
        """

        def change(folder):
            folder.rename(work / "moved")
            if replaced:
                folder.mkdir()
                (folder / "I0000001").write_bytes(b"of another")

        names = ["I0000001"] * replaced + ["I0000002", "I0000003"]
        assert named(change, *options) == [f"S0000001/{name}" for name in names]
        files = work / "moved/I0000001", work / "received/S0000001/I0000002"
        assert files[0].read_bytes() == files[1].read_bytes()
        if replaced:
            assert files[1].with_name("I0000001").read_bytes() == b"of another"
        # (without a folder the second link fails, and is repeated in a new folder)
        due = ["fsync DRAFT", *["link"] * (3 - replaced), "fsync received", "fsync S", "sendto"]
        assert [shown(call) for call in calls()][1 : len(due) + 1] == due

    def test_the_file_is_named_once_more_where_its_folder_is_removed(self, named):
        assert named(shutil.rmtree) == ["S0000001/I0000002", "S0000001/I0000003"]

    @pytest.mark.parametrize("replaced", [False, True], ids=["moved", "replaced"])
    def test_without_hard_links_that_file_is_lost(self, named, work, replaced):
        """The file has no other name than the moved one. The association continues.

        The file of another program remains.
        """

        def change(folder):
            folder.rename(work / "moved")
            if replaced:
                folder.mkdir()
                (folder / "I0000001").write_bytes(b"of another")

        refused = "-e", "inject=link:error=EPERM"
        names = ["I0000001"] * replaced + ["I0000002"]
        assert named(change, links=refused, first=REFUSED_REPLY) == [f"S0000001/{name}" for name in names]
        if replaced:
            assert (work / "received/S0000001/I0000001").read_bytes() == b"of another"

    def test_a_folder_that_is_always_removed_fails_its_file(self, serve, trace):
        """The folder is made a hundred times, and then the store is refused."""
        names = "--per", "9999"
        box = serve(*names, before=trace("-e", "inject=link:error=ENOENT:when=1..202"))
        with box.connect() as peer:
            assert peer.exchange(STORES_REQUEST, len(ACCEPTED)) == ACCEPTED
            answer = REFUSED_REPLY + STORED
            assert peer.exchange(STORES[len(STORES_REQUEST) :], len(answer)) == answer
        assert [path.name for path in box.folder.rglob("I*")] == ["I0000101"]

    def test_a_draft_that_was_removed_is_refused_at_once(self, serve):
        """The folder is not made again."""
        box = serve("--per", "1")
        with box.connect() as peer:
            assert peer.exchange(STORES_REQUEST, len(ACCEPTED)) == ACCEPTED
            peer.send(FIRST_STORE[:-1])
            wait_for((box.folder / "DRAFT").exists, "the draft is there")
            (box.folder / "DRAFT").unlink()
            answer = REFUSED_REPLY + STORED
            assert peer.exchange(STORES[len(STORES_REQUEST + FIRST_STORE) - 1 :], len(answer)) == answer
        assert [path.name for path in box.folder.rglob("S*")] == ["S0000001"]


class TestGroups:
    """Stores that end at the same time are synced as a group."""

    @pytest.fixture
    def group(self, serve, trace, work):
        """Stores two objects at the same time while a call fails or is delayed; the peers wait for replies.

        The first object is filed first.
        """

        @contextmanager
        def stored(name, kind, *options, slots="2"):
            path = work / "received" / name
            arguments = trace("-P", path, "-e", "trace=fsync", "-e", f"inject=fsync:{kind}")
            box = serve("--at-once", slots, "--per-peer", slots, *options, before=arguments)
            with box.connect() as first, box.connect() as second:
                for peer in (first, second):
                    assert peer.exchange(STORES_REQUEST, len(ACCEPTED)) == ACCEPTED
                # (the box is stopped at its next call, so that both stores have arrived when it continues)
                os.kill(box.pid, signal.SIGSTOP)
                try:
                    for peer in (first, second):
                        peer.send(FIRST_STORE)
                finally:
                    os.kill(box.pid, signal.SIGCONT)
                yield box, first, second

        return stored

    def filed(self, box):
        return sorted(str(path.relative_to(box.folder)) for path in box.folder.rglob("I*"))

    def stores_both(self, box):
        """Returns whether both slots store what the next connections send."""
        with box.connect() as first, box.connect() as second:
            for peer in (first, second):
                assert peer.exchange(STORES_REQUEST, len(ACCEPTED)) == ACCEPTED
            rest = STORES_ANSWER[len(ACCEPTED) :]
            return all(
                peer.exchange(STORES[len(STORES_REQUEST) :], len(rest)) == rest
                for peer in (first, second)
            )

    def test_a_folder_that_cannot_be_synced_fails_its_group(self, group, calls):
        """No reply is sent or counted, no name remains, and the slots serve the next connections."""
        with group("", "error=EIO:when=1") as (box, first, second):
            assert (first.rest(), second.rest()) == (b"", b"")
        box.until_logged("the folder could not be synced: Input/output error")
        box.until_logged("a file was lost .* stored 0 refused 0 failed 0$", count=2)
        assert len(calls()) == 1 and box.files() == []
        assert self.stores_both(box)
        assert self.filed(box) == [f"I000000{n}" for n in (3, 4, 5, 6)]

    def test_nobody_is_served_before_a_slow_sync_has_ended(self, group):
        """An echo waits for the sync of the second draft."""
        with group("DRAFT2", "delay_enter=3000000:when=1", slots="3") as (box, *_):
            wait_for((box.folder / "I0000001").exists, "the first file has its name")
            with box.connect() as other:
                other.send(ECHO)
                assert other.is_silent(1)
                assert other.receive(len(ECHO_ANSWER)) == ECHO_ANSWER

    def test_a_subfolder_that_cannot_be_synced_fails_its_own_files(self, group, calls):
        """The file in the other subfolder is filed, and the slot of the failed one serves again."""
        inject = "S0000001", "error=EIO:when=1", "--per", "1"
        with group(*inject) as (box, first, second):
            reply = STORES_ANSWER[len(ACCEPTED) : len(FIRST_REPLY)]
            assert (first.rest(), second.receive(len(reply))) == (b"", reply)
        box.until_logged("the folder could not be synced: Input/output error")
        assert len(calls()) == 1 and self.filed(box) == ["S0000002/I0000001"]
        assert self.stores_both(box)

    def test_a_subfolder_that_is_moved_away_before_the_sync(self, group, work):
        """Each file is filed: the subfolder is synced at its new location.

        The sync of the second draft waits until the subfolder is moved.
        """
        inject = "DRAFT2", "delay_enter=2000000:when=1", "--per", "1"
        with group(*inject) as (box, first, second):
            moved = box.folder / "S0000001"
            wait_for((moved / "I0000001").exists, "the first file has its name")
            moved.rename(work / "moved")
            reply = STORES_ANSWER[len(ACCEPTED) : len(FIRST_REPLY)]
            assert [peer.receive(len(reply)) for peer in (first, second)] == [reply] * 2
        assert self.filed(box) == ["S0000002/I0000001"] and (work / "moved/I0000001").exists()
        assert "could not be synced" not in box.log
