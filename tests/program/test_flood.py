"""The number of lines that peers can cause in the log is limited for associations that store nothing, and for a folder
that can't be written."""
import re
import time

import pytest
from peer import RELEASE, STORES, STORES_ANSWER, STORES_REQUEST
from samples import changed

MANY = 2000
# A request of another called title, and the first of the two stores with a fault in its data set.
OTHER = changed(STORES_REQUEST, 10, b"OTHER ")
FAULTY = changed(STORES[:352] + RELEASE, 308, b"ui")
NOTHING = "associations that stored nothing"


@pytest.fixture
def flooded(serve, work):
    """Starts a box, has a peer do this `count` times, and ends the box. Returns the box, and the number of seconds that may
    have lines: also the first and the last second, if they are only partial."""

    def done(does, count, *options):
        box = serve("--stop-file", "stop.txt", "--metrics", "box.prom", *options)
        started = time.monotonic()
        for _ in range(count):
            does(box)
        seconds = time.monotonic() - started + 2
        (work / "stop.txt").touch()
        assert box.ended() == 0
        return box, seconds

    return done


def released(box, sent):
    """Sends bytes, and waits until the association is released."""
    with box.connect() as peer:
        peer.until_released(sent)


def count(box, pattern):
    return len(re.findall(pattern, box.log, re.M))


def left_out(box, of):
    """Returns the number of omitted lines of a kind, by the log."""
    return sum(map(int, re.findall(rf"^.WARN .*Z lines left out: (\d+) of {of}$", box.log, re.M)))


def test_of_a_peer_that_is_rejected(flooded, work):
    """Ten associations a second have both of their lines; the others are counted, and the metrics include all."""

    def is_rejected(box):
        assert box.exchange(OTHER, 10)[:1] == b"\3"

    box, seconds = flooded(is_rejected, MANY)
    logged = count(box, " Ended held ")
    assert 10 <= logged <= 10 * seconds and logged == count(box, "^.WARN .*Z 127.* rejected: called AE")
    assert logged + left_out(box, NOTHING) == MANY
    assert count(box, " lines left out: ") <= seconds
    assert f'dcmbox_associations_total{{end="rejected"}} {MANY}\n' in (work / "box.prom").read_text()


@pytest.mark.parametrize("kind", (b"\x16\3\1\0\xf8\1", STORES_REQUEST + STORES[180:292]), ids=("tls", "a_cut_store"))
def test_of_a_peer_that_breaks_off(flooded, kind):
    """The lines of an aborted association, or of one whose store has no reply, are limited."""

    def breaks_off(box):
        with box.connect() as peer:
            peer.send(kind)
            assert peer.receive(10)

    box, seconds = flooded(breaks_off, 300)
    logged = count(box, " Ended held ")
    warned = count(box, "^.WARN .*Z 127.* (aborted by dcmbox|not stored: no reply), ")
    assert 10 <= logged == warned <= 10 * seconds
    assert logged + left_out(box, NOTHING) == 300


def test_of_a_peer_whose_stores_are_refused(flooded, work):
    """With one store in each association, ten stores a second have a line of their own."""

    def is_refused(box):
        released(box, FAULTY)

    box, seconds = flooded(is_refused, 300)
    assert 10 <= count(box, " not stored: status C000 ") <= 10 * seconds
    assert count(box, " Ended held .* failed 1$") + left_out(box, NOTHING) == 300
    assert 'dcmbox_stores_total{status="C000"} 300\n' in (work / "box.prom").read_text()


def test_an_association_that_stored_something_has_its_line(flooded):
    """An association that stored something has its line, whatever the number of others."""

    def does(box):
        assert box.exchange(OTHER, 10)[:1] == b"\3"
        released(box, STORES)

    box, _ = flooded(does, 60, "--no-sync")
    assert count(box, " Ended held .* stored 2 refused 0 failed 0$") == 60
    assert left_out(box, NOTHING) > 0


def test_of_a_full_disk(flooded, small_disk, form):
    """A full disk has one line a minute, with the first failed store, and then the number of other failed stores."""
    folder = small_disk("received", "-t", "tmpfs", "-o", "size=16k", "tmpfs")
    (folder / "full").write_bytes(bytes(16 << 10))
    box, _ = flooded(lambda box: box.exchange(STORES, len(STORES_ANSWER)), 20, *form)
    logged = re.findall(r"^.ERROR .*Z 127\S+ a file could not be written: (.*)$", box.log, re.M)
    store = r"class CTImageStorage instance 1\.2\.3 calling \"SCANNER1\""
    assert len(logged) == 1 and re.fullmatch(rf"No space left on device \(os error 28\) {store}", logged[0])
    assert left_out(box, "files that could not be written") == 39
    assert count(box, " not stored: ") == 0
