"""`dcmbox echo`: what an archive is asked, and what is said of its answer."""
import re
import socket
import struct

import pytest
from box import listeners, wait_for
from images import need
from peer import (
    ASSOCIATE_RQ,
    DATA,
    RELEASE_RP,
    RELEASE_RQ,
    Archive,
    acceptance,
    fields_of,
    item,
    items,
    pdu,
    store_reply,
)
from ports import free_port
from samples import cases

LINE = re.compile(r"status ([0-9A-F]{4}) milliseconds \d+ longest PDU (\d+)\n")


class Echoing(Archive):
    """An archive that answers the request, and each C-ECHO, with the given bytes.

    `request` takes the body of the A-ASSOCIATE-RQ, `echo` the context and the values of the command.
    `asked` has these values.
    """

    def __init__(self, port, request=acceptance, echo=None):
        self.request, self.echo, self.asked, self.released = request, echo, [], 0
        super().__init__(port)

    def serve(self, stream):
        while True:
            kind, size = struct.unpack(">BxL", stream.read(6))
            body = stream.read(size)
            if kind == ASSOCIATE_RQ:
                stream.write(self.request(body))
            elif kind == RELEASE_RQ:
                self.released += 1
                stream.write(pdu(RELEASE_RP, bytes(4)))
            elif kind == DATA:
                self.asked.append(fields_of(body[6:]))
                stream.write(self.echo(body[4], self.asked[-1]))
            stream.flush()


def response(status, field=0x8030):
    """Returns the function that answers a C-ECHO with this status and Command Field."""

    def answered(context, fields):
        reply = store_reply(context, {**fields, 0x1000: b"1.2"}, status)
        of_store = struct.pack("<HHLH", 0, 0x0100, 2, 0x8001)
        assert reply.count(of_store) == 1
        return reply.replace(of_store, of_store[:-2] + struct.pack("<H", field))

    return answered


@pytest.fixture
def port():
    return free_port()


@pytest.fixture
def echo(run, port):
    """Runs `echo`, and returns its status, its output and its errors without the address."""

    def echoed(*options, title="ARCHIVE"):
        done = run("echo", f"127.0.0.1:{port}", "--aec", title, *options)
        before = f"dcmbox: 127.0.0.1:{port}: "
        assert done.stderr == "" or done.stderr.startswith(before) and done.stderr.count("\n") == 1
        return done.returncode, done.stdout, done.stderr.removeprefix(before).rstrip("\n")

    return echoed


def test_a_box_answers(serve, run):
    box = serve("--max-pdu", "32768")
    done = run("echo", f"127.0.0.1:{box.port}", "--aec", "DCMBOX", "--aet", "SCANNER1")
    assert (done.returncode, done.stderr) == (0, "")
    assert LINE.fullmatch(done.stdout).groups() == ("0000", "32768")


def test_storescp_answers(echo, port, spawn, work):
    need("storescp")
    spawn("storescp", "-aet", "ARCHIVE", port, cwd=work)
    wait_for(lambda: listeners(port), "storescp listens")
    status, output, errors = echo()
    assert (status, errors) == (0, "") and LINE.fullmatch(output)[1] == "0000"


def test_what_is_sent(echo, port):
    """One C-ECHO-RQ in Implicit VR Little Endian, and a release."""
    bodies = []

    def request(body):
        bodies.append(body)
        return acceptance(body)

    with Echoing(port, request, response(0)) as archive:
        status, output, errors = echo("--aet", "SCANNER1")
    assert (status, errors) == (0, "") and LINE.fullmatch(output)
    [body], [asked] = bodies, archive.asked
    assert body[4:36].decode() == "ARCHIVE".ljust(16) + "SCANNER1".ljust(16)
    [proposed] = [content for kind, content in items(body[68:]) if kind == 0x20]
    syntaxes = item(0x30, b"1.2.840.10008.1.1") + item(0x40, b"1.2.840.10008.1.2")
    assert proposed == b"\1\0\0\0" + syntaxes
    assert asked[0x0002] == b"1.2.840.10008.1.1\0" and asked[0x0100] == b"\x30\0"
    assert asked[0x0800] == b"\1\1" and set(asked) == {0, 0x0002, 0x0100, 0x0110, 0x0800}
    assert archive.released == 1


@pytest.mark.parametrize("status", [0x0122, 0x0210, 0xFFFF])
def test_another_status(echo, port, status):
    with Echoing(port, echo=response(status)) as archive:
        done, output, errors = echo()
    assert (done, errors) == (1, "") and LINE.fullmatch(output)[1] == f"{status:04X}"
    assert archive.released == 1


@pytest.mark.parametrize(
    "text, answer",
    cases(
        (
            "another called title",
            "association rejected: the archive has another title than --aec",
            pdu(3, bytes([0, 1, 1, 7])),
        ),
        (
            "another calling title",
            "association rejected: the archive does not know the title of --aet",
            pdu(3, bytes([0, 1, 1, 3])),
        ),
        (
            "another application context",
            "association rejected: application context name not supported",
            pdu(3, bytes([0, 1, 1, 2])),
        ),
        (
            "another protocol version",
            "association rejected: protocol version not supported",
            pdu(3, bytes([0, 1, 2, 2])),
        ),
        (
            "a congestion",
            "association rejected for now: temporary congestion",
            pdu(3, bytes([0, 2, 3, 1])),
        ),
        (
            "a limit",
            "association rejected for now: local limit exceeded",
            pdu(3, bytes([0, 2, 3, 2])),
        ),
        ("an abort by the user", "association aborted by the archive", pdu(7, bytes(4))),
        (
            "an abort by the provider",
            "association aborted by the archive: unexpected PDU",
            pdu(7, bytes([0, 0, 2, 2])),
        ),
        (
            "another PDU",
            "association aborted: the peer sent no answer to the request",
            pdu(6, bytes(4)),
        ),
    ),
)
def test_an_association_that_is_not_accepted(echo, port, text, answer):
    with Echoing(port, lambda _: answer):
        assert echo() == (1, "", text)


def test_verification_is_not_accepted(echo, port):
    """The association is released; nothing is sent in it."""

    def request(body):
        answer = acceptance(body)
        accepted = item(0x21, b"\1\0\0\0" + item(0x40, b"1.2.840.10008.1.2"))
        assert answer.count(accepted) == 1
        return answer.replace(accepted, accepted[:6] + b"\3" + accepted[7:])

    with Echoing(port, request) as archive:
        assert echo() == (1, "", "the archive does not accept Verification")
    assert (archive.asked, archive.released) == ([], 1)


@pytest.mark.parametrize(
    "answer",
    cases(
        ("a response to another message", lambda c, f: response(0)(c, {**f, 0x0110: b"\7\0"})),
        ("a response in another context", lambda c, f: response(0)(c + 2, f)),
        ("a response to a C-STORE", response(0, 0x8001)),
        ("a PDU that is none of DIMSE", lambda *_: pdu(5, bytes(4))),
    ),
)
def test_what_is_no_response(echo, port, answer):
    with Echoing(port, echo=answer):
        status, output, errors = echo()
    assert (status, output) == (1, "") and errors.startswith("association aborted: the peer sent ")


def test_an_abort_in_place_of_the_response(echo, port):
    with Echoing(port, echo=lambda *_: pdu(7, bytes([0, 0, 2, 1]))):
        assert echo() == (1, "", "association aborted by the archive: unrecognized PDU")


def test_no_listener(echo):
    status, output, errors = echo()
    assert (status, output) == (3, "") and errors.startswith("can't be reached: Connection refused")


def test_silence(echo, port):
    with socket.create_server(("127.0.0.1", port)):
        assert echo("--timeout", "1") == (1, "", "the archive was silent for 1 s")


def test_no_archive_is_named(run):
    done = run("echo", "127.0.0.1:104")
    assert done.returncode == 2 and "--aec" in done.stderr
