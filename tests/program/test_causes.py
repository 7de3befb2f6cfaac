"""The lines of the log for each cause, of a box that serves one association at a time and of one
that serves several.
"""
import re

import pytest
from cause import Receive
from causes import CAUSES
from peer import RELEASE, STORES_REQUEST
from test_log import check_log

SERVERS = {"alone": (), "at_once": ("--at-once", "2")}


def happens(box, cause):
    """Runs the steps of a cause on a connection of its own."""
    with box.connect() as peer:
        for step in cause.steps:
            if isinstance(step, bytes):
                peer.send(step)
            elif isinstance(step, Receive):
                assert len(peer.receive(step.size)) == step.size
            else:
                step(peer, box)


@pytest.mark.parametrize("server", SERVERS)
@pytest.mark.parametrize("cause", CAUSES, ids=[cause.name.replace(" ", "_") for cause in CAUSES])
def test_cause(serve, cause, server):
    box = serve(*cause.options, *SERVERS[server])
    happens(box, cause)
    check_log(box, *cause.lines())


def test_names_of_causes_are_unique():
    assert len({cause.name for cause in CAUSES}) == len(CAUSES) > 100


class TestVerbosity:
    """Lines of stores with -v, and of contexts with -vv alone."""

    @pytest.mark.parametrize("option, level", (("-v", "DEBUG"), ("-vv", "TRACE")))
    def test_of_contexts(self, serve, option, level):
        box = serve(option)
        cause = next(cause for cause in CAUSES if cause.name == "a compressed syntax alone")
        happens(box, cause)
        reported = "TRACE context 1 refused: transfer syntaxes not supported class CTImageStorage"
        first = [f"{reported} syntaxes JPEGLosslessSV1"] if level == "TRACE" else []
        check_log(box, *first, *cause.lines())


class TestSlots:
    """Lines of connections that wait for a slot."""

    FULL = "all places are taken, and connections wait"
    WAITED = r"the connection waited (\d+) s for the one place"

    @pytest.mark.parametrize(
        "slots, options",
        ((1, ("--longest", "60")), (1, ("--stop-file", "stop")), (2, ("--at-once", "2"))),
    )
    def test_as_many_connections_as_slots(self, serve, slots, options):
        """No connection waits, so the log has no line of that."""
        box = serve(*options, "--per-peer", slots)
        peers = [box.connect() for _ in range(slots)]
        for peer in peers:
            assert len(peer.exchange(STORES_REQUEST, 171)) == 171
        for peer in peers:
            assert len(peer.exchange(RELEASE, 10)) == 10
            peer.close()
        box.until_logged("Ended held", count=slots)
        assert self.FULL not in box.log

    def one_after_the_other(self, box):
        """Opens two connections; the first is silent until it is aborted, and closes."""
        first, second = box.connect(), box.connect()
        with second:
            with first:
                assert len(first.exchange(STORES_REQUEST, 171)) == 171
                assert len(first.receive(10)) == 10
            assert len(second.exchange(STORES_REQUEST, 171)) == 171
        box.until_logged("Ended held", count=2)

    @pytest.mark.parametrize("slots", (1, 2))
    def test_one_connection_more_than_slots(self, serve, slots):
        """The connection that waits arrived at the same time as the others."""
        box = serve("--at-once", slots, "--per-peer", slots, "--longest", "60")
        peers = [box.connect() for _ in range(slots + 1)]
        box.until_logged(self.FULL)
        for peer in peers:
            assert len(peer.exchange(STORES_REQUEST, 171)) == 171
            peer.close()
        box.until_logged("Ended held", count=slots + 1)
        assert box.log.count(self.FULL) == 1

    def test_a_connection_that_waits_long(self, serve):
        """Without --at-once, a connection that waited for more than ten seconds is logged."""
        box = serve("--idle", "12")
        self.one_after_the_other(box)
        assert self.FULL not in box.log
        seconds = [int(count) for count in re.findall(self.WAITED, box.log)]
        assert len(seconds) == 1 and 11 <= seconds[0] <= 60

    def test_a_connection_that_waits_briefly(self, serve):
        box = serve("--idle", "1")
        self.one_after_the_other(box)
        assert not re.search(self.WAITED, box.log)
