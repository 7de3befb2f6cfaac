"""Associations over TCP: a misbehaving peer ends its own association only.

Each box has 16 MB of memory.
"""
import pathlib
import re
import resource
import signal
import socket
from contextlib import suppress

import pytest
from box import LITTLE
from peer import ABORT, ECHO, ECHO_ANSWER, ECHO_COMMAND, ECHO_REQUEST, FIRST_REPLY, STORES, STORES_ANSWER
from samples import SAMPLES

INFO = r"\[INFO  dcmbox::serve\] 20[0-9-]{8}T[0-9:]{8}\.[0-9]{3}Z "


@pytest.fixture
def box(serve):
    """A box with short timers."""
    return serve("--timeout", "4", "--idle", "4", memory=LITTLE)


def test_the_recorded_echo_is_served(serve, port):
    """The log has a line of the association, and nothing is printed.

    The box is stopped until the peer has sent everything and closed its sending side.
    """
    box = serve("--once", "--timeout", "30", memory=LITTLE)
    box.process.send_signal(signal.SIGSTOP)
    with box.connect() as peer:
        address = re.escape("{}:{}".format(*peer.socket.getsockname()))
        peer.send(ECHO)
        peer.socket.shutdown(socket.SHUT_WR)
        box.process.send_signal(signal.SIGCONT)
        assert peer.rest() == ECHO_ANSWER
        assert box.ended() == 0
    line = (
        f"{INFO}{address} Ended held 0 files 0 dropped 0 received 260 in 0 s "
        'calling "SCANNER1" called "DCMBOX" released contexts 1 of 1 stored 0 refused 0 failed 0'
    )
    started = f"{INFO}dcmbox [0-9.]+ title .DCMBOX. folder received limits .* removed drafts 0 callers any classes 11 syntaxes 2"
    listening = f"{INFO}listening on 127\\.0\\.0\\.1:{port}"
    whole = f"{started}\n{listening}\n{line}\n{INFO}stopped\n"
    assert re.fullmatch(whole, box.log), box.log
    assert box.printed == ""


def test_a_peer_that_sends_slowly(box):
    """The peer sends a request byte by byte and never completes it: the ARTIM timer runs from the start."""
    with box.connect() as peer, suppress(OSError):
        for byte in ECHO[:60]:
            peer.send(bytes([byte]))
            if not peer.is_silent(0.3):
                break
    box.until_logged(r"Ended held 0 files 0 dropped 0 received [1-9]\d? in ([4-9]|1[0-5]) s")


def test_the_timer_restarts_with_the_reply(serve):
    """The box replies to an unknown PDU with an A-ABORT, and the peer does not close the connection."""
    box = serve("--timeout", "6", memory=LITTLE)
    with box.connect() as peer:
        assert peer.is_silent(3)
        peer.send(SAMPLES["text.bin"])
        assert peer.rest() == ABORT
    box.until_logged(r"Ended held 0 files 0 dropped 0 received 18 in ([89]|\d\d) s")


def test_a_peer_that_stops_reading(box):
    """The peer sends echoes without end and reads no reply: a send fails after the idle time."""
    with box.connect() as peer:
        with suppress(OSError):
            peer.send(ECHO_REQUEST + ECHO_COMMAND * (1 << 18))
        box.until_logged(r"Ended held 0 files 0 dropped 0 received \d{6,8} in ([4-9]|\d\d) s")


def test_a_peer_that_falls_silent(box):
    """The box aborts the association after the idle time, and waits for the peer to close."""
    with box.connect() as peer:
        peer.send(ECHO_REQUEST)
        assert peer.rest().endswith(ABORT)
    box.until_logged(r"Ended held 0 files 0 dropped 0 received 170 in ([7-9]|\d\d) s")


def test_the_next_peer_is_served_and_logged(box):
    """Each association has one line."""
    with box.connect() as peer:
        peer.send(ECHO[:12])
    with box.connect() as peer:
        peer.send(SAMPLES["text.bin"])
        assert peer.receive(10) == ABORT
    assert box.echoes()
    box.until_logged(" received 260 in ")
    assert len(re.findall(" Ended held ", box.log)) == 3


class TestStart:
    """Boxes that can't start."""

    def test_a_folder_that_another_box_receives_into(self, box, run, port):
        done = run("serve", "--port", str(port), "--out", "received")
        refused = "dcmbox: received: the folder can.t be opened: .*; end the other program that"
        assert done.returncode == 3
        assert re.search(f"{refused} writes into it", done.stderr)

    def test_a_port_that_is_in_use(self, box, run, port, work):
        (work / "other").mkdir()
        done = run("serve", "--port", str(port), "--out", "other")
        assert done.returncode == 3
        refused = f"dcmbox: {port}: can.t be listened on: .*choose another port"
        assert re.search(refused, done.stderr)

    @pytest.mark.parametrize("address", ["localhost", "192.0.2.1"])
    def test_an_address_that_this_machine_does_not_have(self, run, port, address):
        done = run("serve", "--port", str(port), "--out", ".", "--bind", address)
        assert done.returncode == 3
        refused = f"dcmbox: {address}: can't be listened on: .*--bind takes an IP address of this"
        assert re.search(f"{refused} machine", done.stderr)


def test_each_association_counts_its_own_files(serve, form):
    """An association with two stores, the second truncated in its data set, then one with both complete."""
    box = serve("--timeout", "30", *form, memory=LITTLE)
    assert box.answers(STORES[:500], FIRST_REPLY)
    box.until_logged("Ended held 0 files 1 dropped 1 received 500 in")
    assert box.answers(STORES, STORES_ANSWER)
    box.until_logged("Ended held 0 files 2 dropped 0 received 534 in")


def test_without_a_free_descriptor_no_connection_is_accepted(serve, form):
    """The box accepts no connection until a descriptor is free, and waits before it tries again."""
    box = serve("--timeout", "30", *form, memory=LITTLE)
    assert box.echoes()
    box.until_logged("received 260 in")
    box.until_waiting()
    numbers = {int(path.name) for path in pathlib.Path(f"/proc/{box.pid}/fd").iterdir()}
    free = next(number for number in range(1 << 10) if number not in numbers)
    before = resource.prlimit(box.pid, resource.RLIMIT_NOFILE)
    resource.prlimit(box.pid, resource.RLIMIT_NOFILE, (free, before[1]))
    refused = "a connection could not be accepted: "
    with box.connect() as peer:
        box.until_logged(rf"^\[ERROR dcmbox::serve\] 20[^ ]*Z {refused}")
        assert peer.is_silent(1)
        assert len(re.findall(refused, box.log)) <= 40
    resource.prlimit(box.pid, resource.RLIMIT_NOFILE, before)
    assert box.echoes()
    box.until_logged("received 260 in", count=2)
