"""The quarantine of `serve`: data sets that are refused for their contents, as received."""
import re
import signal
import struct
import threading

import pytest
from box import PATIENCE, wait_for
from cause import MR
from peer import CT, EXPLICIT, data_set_pdus, element, pdu, status_of, store_command
from store_causes import nested

INSTANCE = "1.2.840.99.1"
# An element with a VR that is not in the standard.
BAD = b"\x10\0\x10\0??\4\0Name"
# A peer's PDU of an unknown type.
UNKNOWN = pdu(0x42, b"")


def data_set(sop_class=CT, instance=INSTANCE, more=b""):
    """Returns a data set in Explicit VR Little Endian of this class and instance."""
    return (
        element((0x0008, 0x0016), "UI", even(sop_class.encode()))
        + element((0x0008, 0x0018), "UI", even(instance.encode()))
        + more
    )


def even(value):
    return value + b"\0" * (len(value) % 2)


def pixels(size):
    return element((0x7FE0, 0x0010), "OW", bytes(n % 251 for n in range(size)))


PIXELS = pixels(100_000)
LONG = data_set(more=pixels(200_000))
# What is sent, the status, and the lines of the text about the fault.
REFUSED = {
    "a fault": (
        data_set(more=BAD + PIXELS),
        "C000",
        {"fault": "fault 10 BadVr", "tag": "0010,0010"},
    ),
    "a cut": (
        data_set(more=PIXELS)[:-7],
        "C000",
        {"fault": "fault 20 Truncated", "tag": "7fe0,0010"},
    ),
    "another class": (
        data_set(MR, more=PIXELS),
        "A900",
        {"fault": "fault 45 ClassMismatch", "tag": "0008,0016"},
    ),
    "another instance": (
        data_set(instance="1.2.9", more=PIXELS),
        "A900",
        {"fault": "fault 46 InstanceMismatch", "tag": "0008,0018"},
    ),
    "too long": (LONG, "A700", {"reason": "longer than --max-data"}),
    "too deep": (nested(130), "A700", {"reason": "deeper than 64 levels"}),
}
LIMIT = ("--max-data", "150000")


@pytest.fixture
def aside(work):
    """The folder of the quarantine."""
    folder = work / "aside"
    folder.mkdir()
    return folder


@pytest.fixture
def keeping(serve, aside):
    """Starts a box with a quarantine."""
    return lambda *options, **keywords: serve("--quarantine", "aside", *options, **keywords)


def names(folder):
    return sorted(path.name for path in folder.iterdir())


def data_in(path):
    """Returns the data set of a DICOM file (PS3.10 section 7.1)."""
    data = path.read_bytes()
    assert data[:132] == bytes(128) + b"DICM" and data[132:140] == b"\2\0\0\0UL\4\0"
    return data[144 + struct.unpack("<L", data[140:144])[0] :]


def fields_of(path):
    """Returns the fields of a text."""
    return dict(line.split(": ", 1) for line in path.read_text().splitlines())


def send(box, data, instance=INSTANCE):
    """Stores a data set as a CT image; returns the status."""
    with box.connect() as peer:
        return peer.store(EXPLICIT, CT, instance, data)


@pytest.mark.parametrize("name", REFUSED)
def test_a_refused_data_set_is_kept_as_received(keeping, aside, form, name):
    data, status, fault = REFUSED[name]
    box = keeping(*(LIMIT if name == "too long" else ()), *form)
    assert send(box, data) == status
    assert box.files() == [] and names(aside) == ["000001.dcm", "000001.txt"]
    assert data_in(aside / "000001.dcm") == data
    text = fields_of(aside / "000001.txt")
    assert re.fullmatch(r"20\d\d-\d\d-\d\dT\d\d:\d\d:\d\d\.\d{3}Z", text.pop("time"))
    assert re.fullmatch(r"127\.0\.0\.1:\d+", text.pop("peer"))
    assert text == fault | {
        "calling": "SCANNER1",
        "called": "DCMBOX",
        "status": status,
        "class": "CTImageStorage",
        "instance": INSTANCE,
        "received": str(len(data)),
        "kept": str(len(data)),
        "whole": "yes",
    }
    box.until_logged(f"kept in the quarantine: 000001.dcm bytes {len(data)}$")


def test_replies_are_the_same_without_a_quarantine(serve, aside, form):
    box = serve(*LIMIT, *form)
    assert [send(box, data) for data, _, _ in REFUSED.values()] == [
        status for _, status, _ in REFUSED.values()
    ]
    assert box.files() == [] and names(aside) == []


def test_a_good_store_leaves_nothing(keeping, aside, form):
    box = keeping(*form)
    assert send(box, data_set(more=PIXELS)) == "0000"
    assert box.files() == ["I0000001"] and names(aside) == []


def test_another_class_than_the_contexts_leaves_nothing(keeping, aside):
    box = keeping()
    with box.connect() as peer:
        peer.associate([(CT, EXPLICIT)])
        peer.send(store_command(1, MR, INSTANCE))
        for part in data_set_pdus(1, data_set(MR)):
            peer.send(part)
        assert status_of(peer.receive_pdu()[1]) == 0x0122
        peer.release()
    assert names(aside) == []


def test_stores_of_one_association(keeping, aside):
    """A store between two refused ones is filed, and the numbers continue."""
    box = keeping()
    bad = data_set(more=BAD)
    with box.connect() as peer:
        peer.associate([(CT, EXPLICIT)])
        statuses = []
        for data in (bad, data_set(), bad + BAD):
            peer.send_store(1, CT, INSTANCE, data)
            statuses.append(status_of(peer.receive_pdu()[1]))
        assert statuses == [0xC000, 0, 0xC000]
        assert names(aside) == ["000001.dcm", "000001.txt", "000002.dcm", "000002.txt"]
        peer.release()
    assert data_in(aside / "000001.dcm") == bad and data_in(aside / "000002.dcm") == bad + BAD
    assert box.files() == ["I0000001"]


def start_bad_store(box):
    """Returns a peer with an unfinished store that has a fault."""
    peer = box.connect()
    peer.associate([(CT, EXPLICIT)])
    peer.send_store(1, CT, INSTANCE, data_set(more=BAD + PIXELS), is_whole=False)
    wait_for(lambda: box.files() == ["DRAFT"], "the store has started")
    return peer


def test_a_cut_connection_leaves_nothing(keeping, aside, form):
    box = keeping(*form)
    start_bad_store(box).close()
    box.until_logged("Ended held 0 files 0 dropped 1 ")
    assert box.files() == [] and names(aside) == []


def test_an_abort_leaves_nothing(keeping, aside, form):
    box = keeping(*form)
    with start_bad_store(box) as peer:
        peer.send(pdu(7, bytes(4)))
        peer.rest()
    box.until_logged("Ended held 0 files 0 dropped 1 ")
    assert box.files() == [] and names(aside) == []


def test_a_full_disk_leaves_nothing(serve, small_disk):
    disk = small_disk("disk", "-t", "tmpfs", "-o", "size=128k", "tmpfs")
    (disk / "aside").mkdir()
    box = serve("--quarantine", "disk/aside", folder="disk/received")
    assert send(box, LONG) == "A700"
    assert box.files() == [] and names(disk / "aside") == []
    assert "No space left on device" in box.log


def test_a_full_quarantine(keeping, aside):
    """No data set is moved to a full quarantine, which is logged once, until some are moved away."""
    box = keeping("--quarantine-most", "2")
    bad = data_set(more=BAD)
    assert [send(box, bad) for _ in range(4)] == ["C000"] * 4
    assert names(aside) == ["000001.dcm", "000001.txt", "000002.dcm", "000002.txt"]
    full = "WARN .* the quarantine is full, and no further data set is kept there"
    assert len(re.findall(full, box.log)) == 1 and box.files() == []
    (aside / "000001.dcm").unlink()
    assert send(box, bad) == "C000"
    assert names(aside) == ["000001.txt", "000002.dcm", "000002.txt", "000003.dcm", "000003.txt"]
    assert len(re.findall(full, box.log)) == 2


def test_numbers_continue_after_a_start(keeping, aside):
    (aside / "000041.txt").write_text("kept\n")
    box = keeping("--quarantine-most", "1")
    assert send(box, data_set(more=BAD)) == "C000"
    assert names(aside) == ["000041.txt", "000042.dcm", "000042.txt"]
    box.stop()
    box = keeping("--quarantine-most", "1")
    box.until_logged("WARN .* the quarantine is full")


def test_drafts_of_a_killed_box_are_removed(keeping, aside):
    """A store that the box aborted stays there until its peer closes the connection."""
    box = keeping("--timeout", "600")
    peer = start_bad_store(box)
    peer.send(UNKNOWN)
    wait_for(lambda: names(aside) == ["000001.part"], "the draft is moved")
    box.stop(signal.SIGKILL)
    peer.close()
    assert names(aside) == ["000001.part"]
    box = keeping()
    assert names(aside) == []
    box.until_logged("INFO .* removed from the quarantine: 1 drafts that were left$")


def test_several_at_once(keeping, aside):
    """The data set of each of many senders is kept, with a number of its own."""
    box = keeping("--at-once", "4", "--per-peer", "4")
    uids = [f"1.2.840.99.{n}" for n in range(1, 25)]
    sent = {uid: data_set(instance=uid, more=BAD * n) for n, uid in enumerate(uids, 1)}
    statuses = []

    def store(instances):
        for instance in instances:
            statuses.append(send(box, sent[instance], instance))

    threads = [threading.Thread(target=store, args=(uids[at::4],)) for at in range(4)]
    for thread in threads:
        thread.start()
    for thread in threads:
        thread.join(PATIENCE)
    assert statuses == ["C000"] * len(sent)
    kept = [name for name in names(aside) if name.endswith(".dcm")]
    assert kept == [f"{n:06}.dcm" for n in range(1, len(sent) + 1)]
    paths = [aside / name for name in kept]
    found = {fields_of(path.with_suffix(".txt"))["instance"]: data_in(path) for path in paths}
    assert found == sent and box.files() == []


@pytest.mark.parametrize("is_replaced", [False, True], ids=["removed", "replaced"])
def test_a_quarantine_that_fails(keeping, aside, is_replaced):
    """The reply is the same as without a quarantine; the failure is logged, and the draft is removed."""
    box = keeping()
    aside.rmdir()
    if is_replaced:
        aside.mkdir()
    assert send(box, data_set(more=BAD)) == "C000" and box.files() == []
    box.until_logged("WARN .* a data set could not be kept in the quarantine: ")
    assert not is_replaced or names(aside) == []
    assert send(box, data_set()) == "0000" and box.files() == ["I0000001"]


def test_another_file_system(run, small_disk, port):
    """The folders have the same inode number, and are not the same."""
    folder, aside = (small_disk(name, "-t", "tmpfs", "tmpfs") for name in ("received", "aside"))
    assert folder.stat().st_ino == aside.stat().st_ino
    done = run("serve", "--port", str(port), "--out", "received", "--quarantine", "aside")
    assert done.returncode == 3 and names(folder) == []
    assert "the quarantine can't be used: it is on another file system than" in done.stderr


@pytest.mark.parametrize(
    ("folder", "why"),
    [
        ("received", "it is the folder that files go to"),
        ("received/../received/.", "it is the folder that files go to"),
        ("missing/aside", "No such file or directory.* it is made within a folder that is there"),
        ("file", "Not a directory"),
        ("received/link", "No such file or directory"),
    ],
)
def test_an_invalid_quarantine(run, work, port, folder, why):
    (work / "received").mkdir()
    (work / "file").write_bytes(b"")
    (work / "received/link").symlink_to("nowhere")
    done = run("serve", "--port", str(port), "--out", "received", "--quarantine", folder)
    assert done.returncode == 3
    assert re.search(f"the quarantine can't be used: {why}", done.stderr, re.S), done.stderr
    assert names(work) == ["file", "received"] and names(work / "received") == ["link"]


@pytest.mark.parametrize(("mask", "mode"), [(0o007, 0o770), (0o027, 0o750), (0, 0o770)])
def test_a_missing_quarantine_is_made(serve, work, mask, mode):
    """It is made at the start, for the box's user and group, with the umask."""
    box = serve("--quarantine", "aside", before=["sh", "-c", f'umask {mask:03o}; exec "$@"', "sh"])
    assert (work / "aside").stat().st_mode & 0o7777 == mode and names(work / "aside") == []
    assert send(box, data_set(more=BAD)) == "C000"
    assert names(work / "aside") == ["000001.dcm", "000001.txt"]


def test_a_quarantine_within_the_folder(serve, run, work):
    """`index` does not read its files."""
    (work / "received/aside").mkdir(parents=True)
    box = serve("--quarantine", "received/aside")
    assert send(box, data_set(more=BAD)) == "C000" and box.files() == ["aside"]
    assert names(box.folder / "aside") == ["000001.dcm", "000001.txt"]
    box.stop()
    done = run("index", "received", "--new-uid")
    assert "aside" not in done.stdout + done.stderr


def test_only_one_box_has_it(keeping, run, work, port):
    keeping()
    (work / "other").mkdir()
    done = run("serve", "--port", str(port), "--out", "other", "--quarantine", "aside")
    assert done.returncode == 3
    assert "the quarantine can't be used: the folder is in use by another" in done.stderr


@pytest.mark.parametrize(
    "options",
    [("--quarantine-most", "5"), ("--quarantine", "aside", "--quarantine-most", "0")],
    ids=["no folder", "none"],
)
def test_rejected_arguments(run, work, port, aside, options):
    (work / "received").mkdir()
    done = run("serve", "--port", str(port), "--out", "received", *options)
    assert done.returncode == 2 and done.stderr.startswith("error: --quarantine-most ")
