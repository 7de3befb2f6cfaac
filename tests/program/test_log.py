"""The lines of the log about clients, folders and files, and their forms."""
import json
import re

import pytest
from images import call, data_set, dumped, identity, pixels
from peer import ABORT, EXPLICIT, RELEASE, STORES, STORES_REQUEST
from peer import CT as CT_CLASS
from samples import cases, changed

TITLES = 'calling "SCANNER1" called "DCMBOX"'
CALLING = ' calling "SCANNER1"'
NOBODY = 'calling "" called ""'
NONE = "stored 0 refused 0 failed 0"
CT = "class CTImageStorage instance 2.25.1.1"
RECORDED = "class CTImageStorage instance 1.2.3"
# Makes storescu propose CT images with one transfer syntax only.
PROFILE = """[[TransferSyntaxes]]
[One]
TransferSyntax1 = {}
[[PresentationContexts]]
[One]
PresentationContext1 = CTImageStorage\\One
[[Profiles]]
[One]
PresentationContexts = One
"""


@pytest.fixture
def to_box(port):
    return ["-aet", "SCANNER1", "-aec", "DCMBOX", "127.0.0.1", str(port)]


@pytest.fixture
def image(work):
    """Makes an image of a class, with rows and columns of zeros."""

    def made(sop_class="CTImageStorage", rows=16, columns=16):
        (work / "pixels.raw").write_bytes(bytes(rows * columns))
        text = identity(sop_class, modality="OT") + pixels("pixels.raw", rows, columns)
        return dumped(work, "image", text)

    return made


def lines_of(box):
    """Returns the log after its first two lines, without times, ports, numbers of bytes and of seconds."""
    stamp = r"^\[([A-Z]+) +dcmbox::serve\] 20\d\d-\d\d-\d\dT\d\d:\d\d:\d\d\.\d{3}Z 127\.0\.0\.1:\d+ "
    lines = [re.sub(stamp, r"\1 ", line) for line in box.lines[2:]]
    return [re.sub(r" received \d+ in \d+ s ", " .. ", line) for line in lines]


def check_log(box, *expected):
    """Waits until an association has ended, and asserts that the log has these lines."""
    box.until_logged("^.INFO .* Ended held 0 files ")
    assert lines_of(box) == list(expected)


def ended(titles, end, contexts, counts=NONE, files=0, dropped=0):
    """Returns the line of an association."""
    head = f"INFO Ended held 0 files {files} dropped {dropped} .. {titles}"
    return f"{head} {end} contexts {contexts} {counts}"


class TestClients:
    """Associations of echoscu and storescu."""

    def test_an_echo(self, serve, tool, to_box):
        box = serve()
        tool("echoscu", *to_box)
        check_log(box, ended(TITLES, "released", "1 of 1"))

    def test_a_store(self, serve, tool, to_box, image):
        box = serve("--verbose")
        tool("storescu", "-R", *to_box, image())
        size = len(data_set(box.folder / "I0000001"))
        check_log(
            box,
            f"DEBUG store {CT} syntax ExplicitVRLittleEndian bytes {size} status 0000 file I0000001",
            ended(TITLES, "released", "2 of 2", "stored 1 refused 0 failed 0", files=1),
        )

    def test_another_called_title(self, serve, tool, port):
        box = serve()
        arguments = ("-aet", "SCANNER1", "-aec", "OTHER", "127.0.0.1", port)
        assert tool("echoscu", *arguments, check=False).returncode != 0
        why = "rejected: called AE title not recognized"
        titles = 'calling "SCANNER1" called "OTHER"'
        check_log(box, f"WARN {why} {titles}", ended(titles, why, "0 of 1"))

    def test_another_calling_title(self, serve, tool, to_box):
        box = serve("--caller", "SCANNER2")
        assert tool("echoscu", *to_box, check=False).returncode != 0
        why = "rejected: calling AE title not recognized"
        check_log(box, f"WARN {why} {TITLES}", ended(TITLES, why, "0 of 1"))


class TestContexts:
    """Presentation contexts that are refused."""

    @pytest.mark.parametrize(
        "syntax, name, option",
        cases(
            ("no acceptable context", "1.2.840.10008.1.2.2", "ExplicitVRBigEndian", ""),
            (
                "a compressed syntax alone",
                "1.2.840.10008.1.2.4.70",
                "JPEGLosslessSV1",
                ": --all-syntaxes",
            ),
        ),
    )
    def test_for_their_transfer_syntax(
        self, serve, tool, to_box, image, work, syntax, name, option
    ):
        image()
        tool("dcmcjpeg", "image.dcm", "jpeg.dcm")
        (work / "profile.txt").write_text(PROFILE.format(syntax))
        sent = "jpeg.dcm" if name.startswith("JPEG") else "image.dcm"
        box = serve("-vv")
        tool("storescu", "-xf", "profile.txt", "One", *to_box, sent, check=False)
        refused = "context 1 refused: transfer syntaxes not supported"
        check_log(
            box,
            f"TRACE {refused} class CTImageStorage syntaxes {name}",
            f"WARN classes refused: CTImageStorage (syntaxes {name}{option}){CALLING}",
            ended(TITLES, "closed by the peer", "0 of 1"),
        )

    def test_of_an_unknown_class(self, serve, tool, to_box, image):
        report = image("BasicTextSRStorage")
        box = serve("--verbose", "--verbose")
        tool("storescu", "-R", *to_box, report, check=False)
        refused = "refused: abstract syntax not supported class BasicTextSRStorage syntaxes"
        check_log(
            box,
            f"TRACE context 1 {refused} ExplicitVRLittleEndian",
            f"TRACE context 3 {refused} ExplicitVRBigEndian ImplicitVRLittleEndian",
            f"WARN classes refused: BasicTextSRStorage (class: --all-storage){CALLING}",
            ended(TITLES, "closed by the peer", "0 of 2"),
        )


class TestNoAssociation:
    """Connections that do not become associations, and one that falls silent."""

    def test_a_port_scan(self, serve):
        box = serve()
        box.connect().close()
        check_log(box, ended(NOBODY, "closed by the peer", "0 of 0"))

    @pytest.mark.parametrize(
        "kind, command",
        cases(
            ("a TLS hello", "16, is it TLS?", "openssl s_client -connect 127.0.0.1:{}"),
            ("HTTP", 47, "curl -s --max-time 60 http://127.0.0.1:{}/"),
        ),
    )
    def test_another_protocol(self, serve, port, tool, kind, command):
        box = serve()
        tool(*command.format(port).split(), check=False)
        why = f"aborted by dcmbox, its application (PDU type {kind})"
        check_log(box, f"WARN {why}", ended(NOBODY, why, "0 of 0"))

    def test_a_request_that_is_never_finished(self, serve):
        box = serve("--timeout", "1")
        with box.connect() as peer:
            peer.send(STORES_REQUEST[:100])
            check_log(box, ended(NOBODY, "ARTIM timer expired", "0 of 0"))

    def test_a_peer_that_falls_silent(self, serve):
        box = serve("--idle", "1", "--timeout", "1")
        with box.connect() as peer:
            peer.send(STORES_REQUEST)
            why = "aborted: the peer was idle"
            check_log(box, f"WARN {why}{CALLING}", ended(TITLES, why, "1 of 1"))


class TestUnfinished:
    """A store without a reply.

    The command of the store ends at byte 292, and its data set at 352.
    """

    @pytest.mark.parametrize(
        "end, offset, sent, size",
        cases(
            ("an abort", "aborted by the peer, its application (source 0 reason 0)", 292, ABORT, 0),
            ("a close", "closed by the peer", 320, b"", 0),
            ("a release", "released", 292, RELEASE, 10),
        ),
    )
    def test_in_a_store(self, serve, end, offset, sent, size):
        """After the reply to the request the peer sends a store up to an offset and these bytes, and closes."""
        box = serve()
        with box.connect() as peer:
            assert len(peer.exchange(STORES_REQUEST, 171)) == 171
            assert len(peer.exchange(STORES[180:offset] + sent, size)) == size
        check_log(
            box,
            f"WARN not stored: no reply, {end} {RECORDED} stores 1{CALLING}",
            ended(TITLES, end, "1 of 1", dropped=1),
        )


@pytest.mark.parametrize(
    "why, offset, new",
    cases(
        ("a bad data set", "status C000 fault 10 BadVr tag 0008,0016", 308, b"ui"),
        (
            "a class that is not that of the command",
            "status A900 fault 45 ClassMismatch tag 0008,0016",
            336,
            b"4",
        ),
    ),
)
def test_a_data_set_with_a_fault(serve, why, offset, new):
    """The peer sends the first of the two stores with other bytes at an offset."""
    box = serve()
    with box.connect() as peer:
        peer.until_released(changed(STORES[:352] + RELEASE, offset, new))
    check_log(
        box,
        f"WARN not stored: {why} {RECORDED} syntax ExplicitVRLittleEndian{CALLING}",
        ended(TITLES, "released", "1 of 1", "stored 0 refused 0 failed 1", dropped=1),
    )


class TestFolder:
    """A folder that can't be written; the system's error is logged once."""

    @pytest.fixture
    def fails(self, tool, to_box, image):
        """Has a box refuse an image for this error of the system."""

        def done(box, error, **size):
            tool("storescu", "-R", *to_box, image(**size), check=False)
            counts = "stored 0 refused 1 failed 0"
            check_log(
                box,
                f"ERROR a file could not be written: {error} {CT}{CALLING}",
                ended(TITLES, "released", "2 of 2", counts, dropped=1),
            )

        return done

    def test_of_a_full_disk(self, serve, small_disk, fails):
        small_disk("received", "-t", "tmpfs", "-o", "size=128k", "tmpfs")
        fails(serve(), "No space left on device (os error 28)", rows=1024, columns=512)

    def test_that_became_read_only(self, serve, small_disk, fails, work):
        folder = small_disk("received", "-t", "tmpfs", "tmpfs")
        box = serve()
        call(work, "mount", "-o", "remount,ro", folder)
        fails(box, "Read-only file system (os error 30)")

    def test_that_was_removed(self, serve, fails):
        box = serve()
        box.folder.rmdir()
        fails(box, "No such file or directory (os error 2)")


class TestLines:
    """The JSON form of the log, its levels, and the limits of lines."""

    def test_each_is_a_json_object(self, serve, tool, to_box, image):
        box = serve("--log", "json", "--verbose")
        tool("storescu", "-R", *to_box, image())
        box.until_logged('"event":"association"')
        started, listening, store, association = lines = [json.loads(line) for line in box.lines]
        events = ["started", "listening", "store", "association"]
        assert [line["event"] for line in lines] == events
        settings = {"title": "DCMBOX", "folder": "received", "max-pdu": 16384, "drafts": 0}
        settings |= {"callers": "any", "classes": 11, "syntaxes": 2}
        assert settings.items() <= started.items()
        assert listening["address"].startswith("127.0.0.1:")
        reported = {"class": "CTImageStorage", "instance": "2.25.1.1", "status": "0000"}
        reported["syntax"] = "ExplicitVRLittleEndian"
        assert {**reported, "file": "I0000001"}.items() <= store.items()
        titles = {"called": "DCMBOX", "calling": "SCANNER1", "end": "released"}
        assert {**titles, "stored": 1, "accepted": 2, "proposed": 2}.items() <= association.items()
        for line in lines:
            assert len(line["time"]) == 24 and line["time"].endswith("Z")
            assert line["level"] in ("INFO", "DEBUG")

    def test_refused_classes_are_an_array_of_json(self, serve):
        box = serve("--log", "json")
        with box.connect() as peer:
            contexts = [("1.2.840.10008.5.1.4.1.1.88.11", EXPLICIT), (CT_CLASS, "1.2.840.10008.1.2.4.70")]
            assert {answer for answer, _ in peer.associate(contexts)} == {3, 4}
        box.until_logged('"event":"association"')
        [reported] = [line for line in map(json.loads, box.lines) if line["event"] == "classes refused"]
        refused = ["BasicTextSRStorage (class: --all-storage)"]
        assert reported["classes"] == [*refused, "CTImageStorage (syntaxes JPEGLosslessSV1: --all-syntaxes)"]

    def test_a_quiet_log_has_warnings_alone(self, serve, tool, to_box, port):
        box = serve("--quiet")
        tool("echoscu", *to_box)
        tool("echoscu", "-aec", "OTHER", "127.0.0.1", port, check=False)
        box.until_logged("rejected")
        assert len(box.lines) == 1

    def test_no_title_forges_one(self, serve):
        box = serve("--verbose")
        for title in (b"\n\n[ERROR dcmbox::serve] x", b"\33[2J\7", b'"},{"a":"b'):
            forged = changed(STORES_REQUEST, 10, title.ljust(32)[:32])
            with box.connect() as peer:
                peer.send(forged + RELEASE)
                peer.receive_pdu()
        box.until_logged("Ended held", count=3)
        assert len(box.lines) == 8
        assert re.fullmatch(r"[ -~\n]*", box.log)
        assert max(map(len, box.lines)) <= 1000

    @pytest.mark.parametrize(
        "options, accepted",
        cases(
            ("by default", "", "callers any classes 11 syntaxes 2"),
            (
                "with all that can be accepted",
                "--caller A --caller B --all-storage --storage-class 2.25.1 --all-syntaxes",
                r"callers 2 classes all and 1 named syntaxes \d\d",
            ),
            ("of further titles", "--ae A --ae B", "titles 3 callers any classes 11 syntaxes 2"),
            ("of any title", "--ae A --any-called", "titles any callers any classes 11 syntaxes 2"),
            (
                "with a quarantine",
                "--transfer-syntax 1.2.840.10008.1.2.5 --quarantine refused",
                "callers any classes 11 syntaxes 3 quarantine refused",
            ),
        ),
    )
    def test_the_first_one(self, serve, work, options, accepted):
        """The first line has the settings of the box, and the number of drafts of a killed box that it removed."""
        (work / "received").mkdir()
        for name in ("DRAFT", "DRAFT2", "DRAFTS", "I0000007"):
            (work / "received" / name).write_bytes(b"")
        options = options.split()
        (work / "refused").mkdir()
        box = serve("--ae", "BOX 1", "--max-pdu", "2000", "--at-once", "3", *options)
        box.until_logged("listening")
        limits = "limits max-pdu 2000 max-data 1099511627776 at-once 3"
        reported = rf'dcmbox \d+\.\d+\.\d+ title "BOX 1" folder received {limits} removed drafts 2 {accepted}'
        assert re.search(rf"^\[INFO  dcmbox::serve\] \S+Z {reported}$", box.lines[0])
        assert box.files() == ["DRAFTS", "I0000007"]

    @pytest.mark.parametrize(
        "form, begins", (("text", r"\[[A-Z]+ +dcmbox::serve\] "), ("json", r"\{"))
    )
    def test_in_systemds_journal_each_has_its_priority(self, serve, tool, to_box, work, form, begins):
        log = work / "log.txt"
        log.touch()
        stream = f"{log.stat().st_dev}:{log.stat().st_ino}"
        box = serve("--log", form, "-v", env={"JOURNAL_STREAM": stream})
        tool("echoscu", *to_box)
        tool("echoscu", "-aec", "OTHER", *to_box[-2:], check=False)
        box.until_logged("OTHER.*rejected|rejected.*OTHER", count=2)
        numbers = {"INFO": "6", "WARN": "4"}
        for line in box.lines:
            level = next(level for level in numbers if level in line)
            assert re.match(rf"<{numbers[level]}>{begins}", line)

    @pytest.mark.parametrize("stream", ("8:1", "{device}:1", "1:{inode}", "{inode}", ""))
    def test_elsewhere_none_has(self, serve, work, stream):
        """Lines have no priority if standard error is redirected, as by a script that systemd runs."""
        log = work / "log.txt"
        log.touch()
        names = {"device": log.stat().st_dev, "inode": log.stat().st_ino}
        box = serve(env={"JOURNAL_STREAM": stream.format(**names)})
        box.until_logged("listening on")
        assert all(line.startswith("[INFO  dcmbox::serve] ") for line in box.lines)

    def test_the_port_and_the_end(self, serve, tool, to_box, port):
        box = serve("--once")
        box.until_logged(rf"listening on 127\.0\.0\.1:{port}$")
        tool("echoscu", *to_box)
        assert box.ended() == 0
        assert box.lines[-1].endswith(" stopped")
