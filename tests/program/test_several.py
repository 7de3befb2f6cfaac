"""A box that serves several associations at once.

Stalled peers do not block others, each data set arrives as it was sent, one address can't occupy
every slot, and a stop lets stores end.
"""
import contextlib
import itertools
import re
import shutil
import signal
import subprocess
import threading
import time
from concurrent.futures import ThreadPoolExecutor
from contextlib import ExitStack

import pytest
from box import PATIENCE, wait_for
from images import digests, dumped, identity, need
from peer import (
    ABORT,
    CT,
    ECHO,
    ECHO_ANSWER,
    ECHO_COMMAND,
    ECHO_REQUEST,
    EXPLICIT,
    RELEASE,
    RELEASED,
    STORES,
    STORES_REQUEST,
    SUCCESS,
    data_set_pdus,
    store_command,
)
from test_quarantine import data_set

SENDERS, EACH = 8, 10
# What a stalled peer sends: a byte or a half of a request.
BYTE, HALF = ECHO[:1], ECHO[:90]


@pytest.fixture
def stall():
    """Connects peers that send these bytes and nothing more; they are closed after the test."""
    with ExitStack() as peers:

        def stalled(box, sent, address="127.0.0.1"):
            peer = peers.enter_context(box.connect(address))
            peer.send(sent)
            return peer

        yield stalled


@pytest.fixture
def stall_in_a_store(stall):
    """Connects a peer that stalls in the middle of the data set of the first of the two stores."""

    def stalled(box):
        drafts = len(drafts_of(box))
        peer = stall(box, STORES_REQUEST)
        assert len(peer.receive(171)) == 171
        peer.send(STORES[180:320])
        wait_for(lambda: len(drafts_of(box)) == drafts + 1, "a store has started")
        return peer

    return stalled


@pytest.fixture
def stall_without_reading(stall):
    """Connects a peer that sends echoes and reads no reply, until the box reads no more."""

    def stalled(box):
        peer = stall(box, ECHO_REQUEST)
        peer.socket.settimeout(1)
        with pytest.raises(TimeoutError):
            while True:
                peer.send(ECHO_COMMAND * 1000)
        return peer

    return stalled


def drafts_of(box):
    return [name for name in box.files() if name.startswith("DRAFT")]


def echo_answered(peer):
    """Returns whether the peer receives the reply to the recorded echo, which it has sent."""
    return peer.receive(len(ECHO_ANSWER)) == ECHO_ANSWER


@pytest.fixture(scope="module")
def sent(shared):
    """The images of each sender, each with 8 KiB of different pixels."""
    work = shared("sent")
    for n in range(SENDERS * EACH):
        (work / "pixels.raw").write_bytes(n.to_bytes(8, "big") * 1024)
        text = identity(instance=f"2.25.1.{n}") + "(7fe0,0010) OW =pixels.raw\n"
        dumped(work, f"image{n}", text)
    images = [work / f"image{n}.dcm" for n in range(SENDERS * EACH)]
    return [images[n * EACH : (n + 1) * EACH] for n in range(SENDERS)]


@pytest.fixture
def senders(spawn, sent, to_box):
    """Starts a storescu for each sender, `times` times."""
    need("storescu")

    def started(times=1):
        return [spawn("storescu", *to_box, *images) for images in sent * times]

    return started


def has_each(box, sent):
    """Returns whether the folder has each data set as it was sent."""
    found = [box.folder / name for name in box.files() if name.startswith("I")]
    return digests(found) == digests(image for images in sent for image in images)


def test_eight_senders_and_stalled_peers(
    serve, tool, to_box, sent, senders, stall, stall_in_a_store, stall_without_reading
):
    """The box replies to an echo within a second, in one of three attempts, and each data set arrives.

    Each number is used once. A box that is then killed leaves complete files, and the draft of the
    stalled store, which the next box removes.
    """
    box = serve("--at-once", "16", "--per-peer", "16")
    stall(box, BYTE)
    stall(box, HALF)
    stall_in_a_store(box)
    stall_without_reading(box)
    processes = senders()
    times = []
    while not times or min(times) >= 1 and len(times) < 3:
        started = time.monotonic()
        tool("echoscu", *to_box)
        times.append(time.monotonic() - started)
    assert min(times) < 1
    assert [process.wait(PATIENCE) for process in processes] == [0] * SENDERS
    assert has_each(box, sent)
    numbers = [int(name[1:]) for name in box.files() if name.startswith("I")]
    assert numbers == list(range(1, SENDERS * EACH + 1))

    box.stop(signal.SIGKILL)
    assert len(drafts_of(box)) == 1 and has_each(box, sent)
    assert drafts_of(serve("--at-once", "4")) == []


class TestSlots:
    """The slots of a box, and the connections that wait for one."""

    def test_one_address_has_at_most_its_limit(self, serve, stall):
        box = serve("--at-once", "3", "--per-peer", "2", "--timeout", "600")
        first, _ = stall(box, HALF), stall(box, HALF)
        third = stall(box, ECHO)
        box.until_logged("the peer has as many places as it may have, .* connections wait places 2")
        with box.connect("127.0.0.2") as other:
            other.send(ECHO)
            assert echo_answered(other)
        assert third.is_silent(0)
        first.close()
        assert echo_answered(third)

    def test_with_all_occupied_the_next_connection_waits(self, serve, stall):
        """The connection is served after the ARTIM timer, and the wait is logged once."""
        box = serve("--at-once", "2", "--per-peer", "2", "--timeout", "5")
        for _ in range(2):
            stall(box, HALF)
        assert echo_answered(stall(box, ECHO, "127.0.0.2"))
        box.until_logged("all places are taken, and connections wait places 2")
        box.until_logged("ARTIM timer expired")
        assert len(re.findall("all places are taken", box.log)) == 1

    def test_a_connection_too_many_is_closed(self, serve, stall):
        """As many further connections of an address wait as there are slots."""
        box = serve("--at-once", "2", "--per-peer", "1", "--timeout", "600")
        for _ in range(3):
            stall(box, HALF)
        assert stall(box, HALF).rest() == b""
        box.until_logged("the connection was closed, since too many wait for a place")
        assert echo_answered(stall(box, ECHO, "127.0.0.2"))

    def test_those_that_wait_get_one_in_their_order(self, serve, stall):
        """The first connection gets the slot as soon as it is free. The second is served after it."""
        box = serve("--at-once", "2", "--per-peer", "1", "--timeout", "600")
        holder, first, second = stall(box, HALF), stall(box, HALF), stall(box, ECHO)
        box.until_logged("the peer has as many places as it may have, .* connections wait places 1")
        holder.close()
        first.send(ECHO_REQUEST[len(HALF) :])
        assert first.receive(169) == ECHO_ANSWER[:169]
        assert second.is_silent(0)
        first.close()
        assert echo_answered(second)


def test_an_association_that_lasts_too_long(serve):
    """The box aborts it, although the peer sends an echo every 0.2 s."""
    box = serve("--at-once", "2", "--longest", "2")
    with box.connect() as peer:
        answer, end = peer.exchange(ECHO_REQUEST, 169), time.monotonic() + PATIENCE
        while not answer.endswith(ABORT):
            assert time.monotonic() < end, "it lasts"
            if peer.is_silent(0.2):
                peer.send(ECHO_COMMAND)
            else:
                answer += peer.receive(1) or pytest.fail("it is closed without an A-ABORT")
    box.until_logged(r"in ([2-9]|1\d) s .* aborted: it lasted too long")


def test_the_end(serve, stall, stall_in_a_store, put):
    """A box ends when the stop file appears.

    Associations without a store are aborted, unfinished stores continue.
    """
    stop = put({"stop.txt": b""})
    options = ("--at-once", "4", "--per-peer", "4", "--stop-file", "stop.txt", "--grace", "8")
    box = serve(*options)
    wait_for(lambda: not stop.exists(), "the file of an earlier end is removed")
    idle = stall(box, ECHO_REQUEST)
    assert len(idle.receive(169)) == 169
    slow, endless = stall_in_a_store(box), stall_in_a_store(box)

    stop.touch()
    assert idle.rest() == ABORT
    slow.send(STORES[320:352])
    answer = slow.rest()
    assert SUCCESS in answer and answer.endswith(ABORT)
    assert endless.rest() == ABORT
    assert box.ended() == 0
    assert box.files() == ["I0000001"]
    assert len(re.findall("aborted: the box stops", box.log)) >= 3
    assert re.search(r"^.INFO .* stopping$", box.log, re.M)
    assert re.search(r"^.INFO .* stopped$", box.lines[-1])
    with pytest.raises(OSError):
        box.connect()


def test_one_association_and_the_end(serve):
    box = serve("--at-once", "4", "--once")
    answer = box.exchange(ECHO, len(ECHO_ANSWER))
    assert answer[:1] == b"\2" and answer.endswith(RELEASED)
    assert box.ended() == 0


def test_at_most_6_mib_for_sixteen_associations(serve, senders, stall_in_a_store):
    """Sixteen senders, and three peers that stall in a store."""
    box = serve("--at-once", "16", "--per-peer", "16", "--no-sync")
    for _ in range(3):
        stall_in_a_store(box)
    assert [process.wait(PATIENCE) for process in senders(2)] == [0] * 16
    assert box.most_resident() <= 6144


class TestFoldersThatAreMoved:
    """Folders are moved away and removed at any moment, also the current one."""

    SECONDS, PAUSE = 10, 0.005

    def send(self, box, number, until, stored):
        """Stores one image in each association with success, and notes the instances."""
        count = 0
        while time.monotonic() < until:
            count += 1
            uid = f"1.2.840.{number}.{count}"
            with box.connect() as peer:
                assert peer.associate([(CT, EXPLICIT)]) == [(0, EXPLICIT)]
                peer.send(store_command(1, CT, uid) + b"".join(data_set_pdus(1, data_set(instance=uid))))
                _, body = peer.receive_pdu()
                assert SUCCESS in body, (uid, body)
                stored.append(uid)
                peer.until_released(RELEASE)

    def move(self, box, aside, ended):
        for number in itertools.count():
            for at, folder in enumerate(box.folder.glob("S???????")):
                # (`remove` may have removed it)
                with contextlib.suppress(FileNotFoundError):
                    folder.rename(aside / f"{number}-{at}")
            if ended.wait(self.PAUSE):
                return

    def remove(self, box, ended):
        """Removes empty folders, as a script for old files does."""
        while not ended.is_set():
            arguments = "find", box.folder, "-mindepth", "1", "-type", "d", "-empty", "-delete"
            subprocess.run(arguments, stderr=subprocess.DEVNULL, check=False)

    def collect(self, aside, ended, found):
        """Collects the files of the moved folders, and removes these."""
        while not ended.wait(self.PAUSE):
            for folder in aside.iterdir():
                # (files named meanwhile are in it by then)
                time.sleep(self.PAUSE)
                found.extend(path.read_bytes() for path in folder.iterdir())
                shutil.rmtree(folder)

    def test_no_file_is_lost(self, serve, work):
        """Each store succeeds, and its file is in a remaining or a moved folder."""
        box = serve("--at-once", "8", "--per-peer", "8", "--per", "20")
        stored, found, ended = [], [], threading.Event()
        aside, until = work / "aside", time.monotonic() + self.SECONDS
        aside.mkdir()
        with ThreadPoolExecutor(11) as pool:
            senders = [pool.submit(self.send, box, number, until, stored) for number in range(8)]
            others = [
                pool.submit(self.move, box, aside, ended),
                pool.submit(self.collect, aside, ended, found),
                pool.submit(self.remove, box, ended),
            ]
            try:
                for sender in senders:
                    sender.result()
            finally:
                ended.set()
            for other in others:
                other.result()
        for folder in (*aside.iterdir(), *box.folder.glob("S???????")):
            found.extend(path.read_bytes() for path in folder.iterdir())
        uids = {re.search(rb"1\.2\.840\.\d\.\d+(?=\0|\x02)", data)[0].decode() for data in found}
        assert set(stored) <= uids and len(stored) > 100
        assert "closed by dcmbox" not in box.log
