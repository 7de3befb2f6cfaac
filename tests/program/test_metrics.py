"""The counters of a box, in the text form of Prometheus (--metrics)."""
import os
import re
import time

import pytest
from box import wait_for
from cause import Receive, lose_folder
from causes import CAUSES
from peer import CT, ECHO, RELEASE, RELEASED, ROOT, STORES, STORES_REQUEST, store_command
from ports import free_port
from samples import changed

FILE = "box.prom"
# Causes without options that lose no folder, so that one box can have them all.
PLAIN = [cause for cause in CAUSES if not cause.options and lose_folder not in cause.steps]
# The number of associations without an omitted line.
TENS = [PLAIN[at : at + 10] for at in range(0, len(PLAIN), 10)]
# The text of the log for each counted end.
ENDS = {
    "released": "released",
    "rejected": "rejected: ",
    "aborted_by_peer": "aborted by the peer, ",
    "aborted_by_box": "aborted by dcmbox, ",
    "closed_by_peer": "closed by the peer",
    "artim_expired": "ARTIM timer expired",
    "idle": "aborted: the peer was idle",
    "too_long": "aborted: it lasted too long",
    "stopping": "aborted: the box stops",
    "connection_failed": "the connection failed",
    "file_lost": "closed by dcmbox: a file was lost",
    "unknown": " contexts ",
}
NOT_WRITTEN = "the metrics could not be written: "


@pytest.fixture
def read(work):
    """Returns the samples of the file, by name and value of the label."""
    reason = "make packages installs it"
    parser = pytest.importorskip("prometheus_client.parser", reason=reason)

    def samples(text=None):
        text = (work / FILE).read_text() if text is None else text
        families = list(parser.text_string_to_metric_families(text))
        for family in families:
            assert family.documentation and family.type in ("gauge", "counter")
        found = [sample for family in families for sample in family.samples]
        named = {(sample.name, *sample.labels.values()): sample.value for sample in found}
        assert len(named) == len(found) == len(text.splitlines()) - 2 * len(families)
        return named

    return samples


@pytest.fixture
def becomes(read, work):
    """Waits until a sample has a value, and returns all samples."""

    def waited(value, *name):
        def has_it():
            samples = (work / FILE).exists() and read()
            return samples and samples[name] == value and samples

        return wait_for(has_it, f"{name} is {value}")

    return waited


@pytest.fixture
def box(serve):
    return serve("--metrics", FILE, "--stop-file", "stop.txt", "--grace", "0")


@pytest.fixture
def at_the_end(read, work):
    """Ends a box, and returns its last samples."""

    def samples(box):
        (work / "stop.txt").touch()
        assert box.ended() == 0
        return read()

    return samples


def happens(box, cause):
    """Runs the steps of a cause on a connection of its own."""
    with box.connect() as peer:
        for step in cause.steps:
            if isinstance(step, bytes):
                peer.send(step)
            elif isinstance(step, Receive):
                assert len(peer.receive(step.size)) == step.size
            else:
                step(peer, box)


def logged(box):
    """Returns the counts in the log's lines of associations, by the names of the samples."""
    line = r'^.INFO .* held .* dropped (\d+) received (\d+) .* called "[^"]*" (.*)'
    counts = r" stored (\d+) refused (\d+) failed (\d+)$"
    counted = {("dcmbox_associations_total", end): 0 for end in ENDS}
    sums = dict.fromkeys(("dropped", "received", "stored", "refused", "failed"), 0)
    for found in re.findall(line + counts, box.log, re.M):
        dropped, received, end, stored, refused, failed = found
        [name] = [name for name, text in ENDS.items() if end.startswith(text)]
        counted["dcmbox_associations_total", name] += 1
        for key, value in zip(sums, (dropped, received, stored, refused, failed)):
            sums[key] += int(value)
    return counted, sums


def agree(box, samples):
    """Asserts that the samples equal the counts in the log."""
    counted, sums = logged(box)
    ends = {key: value for key, value in samples.items() if key[0] == "dcmbox_associations_total"}
    assert ends == counted
    stores = {key[1]: value for key, value in samples.items() if key[0] == "dcmbox_stores_total"}
    assert stores["0000"] == sums["stored"]
    assert stores["0122"] + stores["A700"] == sums["refused"]
    assert stores["A900"] + stores["C000"] + stores["other"] == sums["failed"]
    assert sum(stores.values()) - stores["0000"] == sums["dropped"]
    assert samples["dcmbox_received_bytes_total",] == sums["received"]
    return stores


def test_of_a_box_that_starts(serve, run, becomes, work):
    before = int(time.time())
    serve("--metrics", FILE)
    samples = becomes(0, "dcmbox_open_connections")
    version = run("--version").stdout.split()[1]
    assert samples.pop(("dcmbox_info", version)) == 1
    assert before <= samples.pop(("dcmbox_start_time_seconds",)) <= time.time()
    assert len(samples) == 22 and set(samples.values()) == {0}


def test_after_an_echo(serve, becomes):
    """The file is updated within seconds while the box runs."""
    box = serve("--metrics", FILE)
    assert box.echoes()
    samples = becomes(1, "dcmbox_associations_total", "released")
    assert samples["dcmbox_received_bytes_total",] == len(ECHO)
    assert samples["dcmbox_open_connections",] == 0


def test_of_open_connections(serve, becomes):
    box = serve("--metrics", FILE, "--at-once", "4")
    with box.connect() as one, box.connect() as other:
        for peer in (one, other):
            assert len(peer.exchange(STORES_REQUEST, 171)) == 171
        becomes(2, "dcmbox_open_connections")
        assert other.exchange(RELEASE, 10) == RELEASED
        becomes(1, "dcmbox_open_connections")


def test_of_each_status(serve, at_the_end):
    options = ("--metrics", FILE, "--stop-file", "stop.txt", "--max-data", "1024")
    box = serve(*options)
    names = {
        "a long data set": "A700",
        "another class than the context's": "0122",
        "another instance in the data set": "A900",
        "a bad VR": "C000",
    }
    for cause in CAUSES:
        if cause.name in names:
            happens(box, cause)
    assert box.exchange(STORES, 1 << 16).endswith(RELEASED)
    with box.connect() as peer:
        assert len(peer.exchange(STORES_REQUEST, 171)) == 171
        peer.send(store_command(1, CT, "1.2.3"))
    box.until_logged(" Ended held ", count=len(names) + 2)
    stores = agree(box, at_the_end(box))
    assert stores == {"0000": 2, "0122": 1, "A700": 1, "A900": 1, "C000": 1, "other": 0, "none": 1}


def test_of_a_rejected_request_and_of_aborts(box, at_the_end):
    refused = changed(STORES_REQUEST, 10, b"OTHER ")
    assert box.exchange(refused, 10)[:1] == b"\3"
    assert box.exchange(b"GET / HTTP/1.0\r\n\r\n", 10)[:1] == b"\7"
    with box.connect() as peer:
        assert len(peer.exchange(STORES_REQUEST, 171)) == 171
        peer.send(bytes.fromhex("07000000000400000000"))
        assert peer.rest() == b""
    box.until_logged(" Ended held ", count=3)
    samples = at_the_end(box)
    agree(box, samples)
    for end in ("rejected", "aborted_by_box", "aborted_by_peer"):
        assert samples["dcmbox_associations_total", end] == 1


def test_of_refused_contexts(box, at_the_end):
    names = {"a class that is accepted without its compressed syntaxes": 2, "six classes": 7}
    for cause in CAUSES:
        if cause.name in names:
            happens(box, cause)
    box.until_logged(" Ended held ", count=2)
    assert at_the_end(box)["dcmbox_refused_contexts_total",] == sum(names.values())


def test_of_an_association_that_the_end_of_the_box_aborts(box, at_the_end):
    with box.connect() as peer:
        assert len(peer.exchange(STORES_REQUEST, 171)) == 171
        samples = at_the_end(box)
    agree(box, samples)
    assert samples["dcmbox_associations_total", "stopping"] == 1
    assert samples["dcmbox_open_connections",] == 0


def test_the_causes_of_lines_are_of_many_ends():
    ends = {next(end for end, text in ENDS.items() if cause.end.startswith(text)) for cause in PLAIN}
    assert len(PLAIN) > 80 and len(ends) >= 5


@pytest.mark.parametrize("causes", TENS, ids=[causes[0].name.replace(" ", "_") for causes in TENS])
def test_they_equal_the_log(box, at_the_end, causes):
    """The metrics equal the log for each cause of a line, ten causes in one box."""
    for count, cause in enumerate(causes, 1):
        happens(box, cause)
        box.until_logged("^.INFO .* Ended held ", count=count)
    samples = at_the_end(box)
    agree(box, samples)
    ends = [value for key, value in samples.items() if key[0] == "dcmbox_associations_total"]
    assert sum(ends) == len(causes)


def test_the_file_is_replaced_as_a_whole(serve, becomes, read, work):
    """An open file keeps its old contents; replacements are at least five seconds apart."""
    box = serve("--metrics", FILE)
    becomes(0, "dcmbox_open_connections")
    with open(work / FILE) as first:
        before = os.fstat(first.fileno())
        assert box.echoes()
        becomes(1, "dcmbox_associations_total", "released")
        after = os.stat(work / FILE)
        assert after.st_ino != before.st_ino
        assert after.st_mtime - before.st_mtime > 4.9
        assert read(first.read())["dcmbox_associations_total", "released"] == 0
    assert [path.name for path in work.glob(f"{FILE}*")] == [FILE]


def test_no_reader_sees_a_part_of_it(trace, serve, becomes, calls):
    """The file is written under another name, and then renamed."""
    options = trace("-f", "-e", "trace=openat,write,rename,renameat,renameat2")
    box = serve("--metrics", FILE, before=options)
    becomes(0, "dcmbox_open_connections")
    box.stop()
    about = [call for call in calls() if FILE in call or "# HELP dcmbox_info" in call]
    about = [call for call in about if f".{FILE}.lock" not in call]
    assert not [call for call in about if re.search(rf'openat\(.*"{FILE}"', call)]
    opened, written, renamed = about[:3]
    assert f'"{FILE}.new"' in opened and "O_EXCL" in opened
    assert "write(" in written
    assert re.search(rf'rename.*"{FILE}\.new", .*"{FILE}"', renamed)


@pytest.mark.parametrize("kind", ("metrics", "numbers"))
def test_a_file_that_another_box_writes(serve, expect, kind, work):
    """The second box does not get the file of metrics or of numbers, until the first has ended."""
    (work / "other").mkdir()
    box = serve(f"--{kind}", FILE)
    text = ("--port", str(free_port()), "--out", "other", f"--{kind}", FILE)
    errors = f"dcmbox: {FILE}: the file of {kind} can't be used: it is in use by another program; .*"
    expect(3, "", errors, "serve", *text)
    box.stop()
    assert serve(f"--{kind}", FILE).echoes()


@pytest.mark.parametrize("kind", ("link", "link to nothing", "folder", "pipe"))
def test_a_lock_that_is_no_file(kind, expect, work):
    """The box does not start, and what is there stays: a link may name a file that was received."""
    (work / "other").mkdir()
    image, lock = work / "other" / "I0000001", work / f".{FILE}.lock"
    if kind == "link":
        image.write_bytes(b"image")
    if kind in ("link", "link to nothing"):
        lock.symlink_to("other/I0000001")
    else:
        {"folder": os.mkdir, "pipe": os.mkfifo}[kind](lock)
    text = ("--port", str(free_port()), "--out", "other", "--metrics", FILE)
    errors = f"dcmbox: {FILE}: the file of metrics can't be used: its lock is no regular file; .*"
    expect(3, "", errors, "serve", *text)
    assert [path.read_bytes() for path in (work / "other").iterdir()] == [b"image"] * (kind == "link")


def test_a_folder_that_takes_no_file(serve, becomes, work):
    """The failure is logged once, and again for another reason.

    The box keeps serving, and writes the file as soon as it can.
    """
    box = serve("--metrics", f"none/{FILE}")
    box.until_logged(f"^.WARN .* {NOT_WRITTEN}No such file or directory")
    assert box.echoes()
    (work / "none").write_bytes(b"")
    box.until_logged(f"^.WARN .* {NOT_WRITTEN}Not a directory")
    assert box.echoes()
    (work / "none").unlink()
    (work / "none").mkdir()
    box.until_logged("^.INFO .* the metrics are written again$")
    (work / "none" / FILE).rename(work / FILE)
    becomes(2, "dcmbox_associations_total", "released")
    about = [line for line in box.lines if "metrics" in line]
    assert len(about) == 3


ALERTS = "DataSetsRefused ClassesRefused FileLost NothingReceived".split()


def test_the_alerts_are_about_metrics_that_are_there(serve, becomes):
    """Each metric of an alert, and each value of its label, is one of a box."""
    yaml = pytest.importorskip("yaml", reason="make packages installs it")
    groups = yaml.safe_load((ROOT / "packaging/dcmbox.rules.yml").read_text())["groups"]
    rules = {rule["alert"]: rule for group in groups for rule in group["rules"]}
    assert {*rules} >= {f"Dcmbox{name}" for name in ALERTS}
    assert all({*rule["annotations"]} == {"summary", "description"} for rule in rules.values())
    serve("--metrics", FILE)
    there = {sample[:length] for sample in becomes(0, "dcmbox_open_connections") for length in (1, 2)}
    for rule in rules.values():
        used = re.findall(r'(dcmbox_\w+)(?:\{\w+=~?"(.*?)"\})?', rule["expr"])
        named = {(name, *filter(None, [value])) for name, values in used for value in values.split("|")}
        assert named and named <= there, rule


def test_of_one_association(serve, read):
    box = serve("--metrics", FILE, "--once")
    assert box.echoes()
    assert box.ended() == 0
    assert read()["dcmbox_associations_total", "released"] == 1
