"""A cause of lines of the log: what a peer sends, and the lines expected in the log."""
import dataclasses
import struct

from peer import STORES, STORES_REQUEST

TITLES = 'calling "SCANNER1" called "DCMBOX"'
CALLING = ' calling "SCANNER1"'
NONE = "stored 0 refused 0 failed 0"
STORE = "class CTImageStorage instance 1.2.3"
ACCEPTED = "1 of 1"
# The command of the first store, and its data set.
COMMAND, DATA_SET = STORES[180:292], STORES[292:352]
MR = "1.2.840.10008.5.1.4.1.1.4"


@dataclasses.dataclass
class Receive:
    """The peer reads this number of bytes of the box's reply."""

    size: int


@dataclasses.dataclass
class Cause:
    """What happens on a connection, and the lines of the log.

    The steps are bytes to send, replies to read, and calls; then the connection is closed.
    """

    name: str
    steps: tuple
    titles: str
    end: str
    contexts: str
    warned: tuple = ()
    counts: str = NONE
    files: int = 0
    dropped: int = 0
    options: tuple = ()

    def lines(self):
        head = f"INFO Ended held 0 files {self.files} dropped {self.dropped} .. {self.titles}"
        return [*self.warned, f"{head} {self.end} contexts {self.contexts} {self.counts}"]


def reset(peer, box):
    """The peer resets the connection."""
    linger = struct.pack("ii", 1, 0)
    peer.socket.setsockopt(1, 13, linger)
    peer.socket.close()


def stop(peer, box):
    """The box is stopped, so that it later receives all that is sent meanwhile at once."""
    box.process.send_signal(19)


def resume(peer, box):
    box.process.send_signal(18)


def lose_folder(peer, box):
    box.folder.rmdir()


def silence(peer, box):
    """The peer is silent until the box ends the association."""
    assert len(peer.receive(10)) == 10


def until_closed(peer, box):
    assert peer.rest() == b""


def established(name, steps, end, warned=(), request=STORES_REQUEST, answer=171, **more):
    """Returns a cause that follows an accepted request."""
    steps = (request, Receive(answer), *steps)
    return Cause(name, steps, TITLES, end, more.pop("contexts", ACCEPTED), warned, **more)


def aborted(name, sent, reason, about="", **more):
    """Returns a cause by which the box aborts an established association; `about` is a further part of its warning."""
    end = f"aborted by dcmbox, {reason}"
    return established(name, (sent, Receive(10)), end, (f"WARN {end}{about}{CALLING}",), **more)


def in_store(name, sent, reason):
    """Returns a cause by which the box aborts an established association during a store."""
    end = f"aborted by dcmbox, {reason}"
    not_stored = f"WARN not stored: no reply, {end} {STORE} stores 1{CALLING}"
    warned = (f"WARN {end}{CALLING}", not_stored)
    return established(name, (COMMAND + sent, Receive(10)), end, warned, dropped=1)
