"""The program while its allocations fail: arguments, replays, and stores over TCP."""
import re
import signal

import pytest
from box import LITTLE, wait_for
from peer import (
    ASSOCIATE_AC,
    ASSOCIATE_RQ,
    CT,
    ECHO,
    EXPLICIT,
    FIRST_REPLY,
    RELEASE,
    RELEASED,
    ROOT,
    STORES,
    STORES_ANSWER,
    SUCCESS,
    item,
    pdu,
    request,
)
from samples import CT_FILE, LargeStore, cases

NO_MEMORY = (
    r"dcmbox: (\w+\.bin: )?(out of memory"
    "(; give the program more| for what is sent; replay a shorter recording)?"
    "|the command line can't be read: out of memory; .*)"
)
# Status (0000,0900), with its length of two bytes, in any reply, and with A700, out of resources.
STATUS = bytes.fromhex("0000000902000000")
REFUSED_REPLY = STATUS + bytes.fromhex("00a7")


def has_no_memory(done):
    """Returns whether the program reported that memory ran out, and printed nothing."""
    message = re.fullmatch(NO_MEMORY, done.stderr.rstrip("\n"), re.DOTALL)
    return done.returncode == 3 and not done.stdout and bool(message)


@pytest.fixture
def is_refused(work):
    """Returns whether an allocation failed."""
    return lambda: (work / "refused.txt").stat().st_size > 0


@pytest.mark.parametrize(
    "arguments",
    cases(
        ("help is asked for", "serve --help"),
        ("an option is missing", "replay empty.bin"),
        (
            "a number is refused",
            "serve --port 11112 --out . --caller SCANNER1 --caller SCANNER2 --per 0",
        ),
    ),
)
def test_arguments(run, samples, refuse, is_refused, arguments):
    """Each allocation in turn fails, until a run has no failure."""
    number = 1
    while has_no_memory(run(*arguments.split(), before=refuse(number))) and is_refused():
        number += 1
    assert number > 50 and not is_refused()


@pytest.fixture
def refused(run, work, refuse, is_refused):
    """Replays a recording into a new folder while each allocation in turn fails, until a run has no failure.

    Yields the run, the files of the folder by their names in it, and whether an allocation failed.
    """

    def replays(*arguments):
        number, fails = 0, True
        while fails:
            number += 1
            folder = work / f"replayed{number}"
            folder.mkdir()
            done = run("replay", *arguments, "--out", folder.name, before=refuse(number))
            fails = is_refused()
            paths = [path for path in folder.rglob("*") if path.is_file()]
            yield done, {str(path.relative_to(folder)): path.read_bytes() for path in paths}, fails

    return replays


def printed(done):
    """Returns the bytes that a replay sent, and its last line."""
    assert (done.returncode, done.stderr) == (0, "")
    *lines, last = done.stdout.splitlines()
    return bytes.fromhex("".join(lines)), last


@pytest.mark.parametrize("options", [(), ("--per", "1")], ids=["flat", "into_folders"])
def test_a_replay_of_two_stores(run, samples, work, refused, options):
    """A store is filed if and only if its reply is success, and no draft and no partial file remains."""
    (work / "whole").mkdir()
    assert run("replay", "stores.bin", "--out", "whole").returncode == 0
    whole = {(work / "whole" / name).read_bytes() for name in ("I0000001", "I0000002")}
    failures, refusals, filed = 0, 0, 0
    for done, files, _ in refused("stores.bin", *options):
        assert len(set(files.values())) == len(files) and set(files.values()) <= whole
        assert not any("DRAFT" in name for name in files)
        if has_no_memory(done):
            failures += 1
        else:
            filed = len(files)
            sent, last = printed(done)
            assert last == f"Ended held 0 files {filed}"
            assert sent.replace(REFUSED_REPLY, SUCCESS) == STORES_ANSWER
            assert sent.count(SUCCESS) == filed
            refusals += 1
    assert filed == 2 and failures >= 50 and refusals > 2


def test_each_allocation_is_refused(samples, refused):
    """A replay prints nothing then, even if the reply to an echo can't be kept after the A-ASSOCIATE-AC was."""
    whole = (0, (ROOT / "crates/cli/stdout").read_text(), "")
    failures = 0
    for done, files, fails in refused("echo.bin", "--cut", "7"):
        assert files == {}
        if fails:
            assert has_no_memory(done), (done.stdout, done.stderr)
            failures += 1
        else:
            assert (done.returncode, done.stdout, done.stderr) == whole
    assert failures > 5


def test_each_allocation_over_a_folder_is_refused(put, refused):
    """A replay of one store fails and prints nothing, or the reply has status A700.

    The folder has the whole file, which may have no reply then, or nothing.
    """
    put({"store.bin": STORES[:352] + RELEASE})
    stored, unfiled = FIRST_REPLY + RELEASED, FIRST_REPLY.replace(SUCCESS, REFUSED_REPLY) + RELEASED
    unstored, lost, unanswered = 0, 0, 0
    for done, files, fails in refused("store.bin", "--cut", "100"):
        assert files in ({}, {"I0000001": CT_FILE})
        if not fails:
            assert files and printed(done) == (stored, "Ended held 0 files 1")
        elif done.returncode == 0:
            assert not files and printed(done) == (unfiled, "Ended held 0 files 0")
            unstored += 1
        else:
            assert has_no_memory(done), (done.stdout, done.stderr)
            assert not files or "out of memory for what is sent" in done.stderr
            unanswered += bool(files)
            lost += not files
    assert unstored > 0 and lost > 3 and unanswered > 0


@pytest.fixture
def boxed(serve, refuse):
    """Starts a box that serves one association, and whose allocations fail from SIGUSR1 to SIGUSR2."""

    def started(*options):
        arguments = ("--once", "--timeout", "30", *options)
        box = serve(*arguments, folder="refused", before=refuse("signals"))
        box.until_logged("listening on")
        box.until_waiting()
        return box

    return started


@pytest.fixture(scope="module")
def store():
    """A store of 16 MiB."""
    return LargeStore(16 << 20)


def grown(box, size):
    """Waits until the draft has this size."""

    def has_size():
        drafts = [path for path in box.folder.iterdir() if path.name.startswith("DRAFT")]
        return [path for path in drafts if path.stat().st_size == size]

    wait_for(has_size, f"the draft has {size} bytes")


def test_a_store_while_each_allocation_is_refused(boxed, is_refused, store, form):
    """The box receives 16 MiB without allocating, and files them once it can allocate."""
    box = boxed(*form)
    with box.connect() as peer:
        peer.send(store.opening)
        grown(box, store.opened)
        box.process.send_signal(signal.SIGUSR1)
        peer.send(store.middle)
        grown(box, store.filled)
        assert not is_refused()
        box.process.send_signal(signal.SIGUSR2)
        answer = peer.exchange(store.last, 293)
    assert box.ended() == 0
    assert answer == FIRST_REPLY + RELEASED
    assert box.files() == ["I0000001"]
    assert (box.folder / "I0000001").read_bytes() == store.file


def test_a_file_that_gets_no_memory_for_its_name(boxed, is_refused, store, form):
    """The store fails with A700, out of resources; with several at once the association ends without a reply."""
    box = boxed(*form)
    with box.connect() as peer:
        peer.send(store.opening)
        grown(box, store.opened)
        box.process.send_signal(signal.SIGUSR1)
        answer = peer.exchange(store.middle + store.last, 293)
        box.process.send_signal(signal.SIGUSR2)
    box.ended()
    assert is_refused() and box.files() == []
    if "--at-once" in form:
        assert STATUS not in answer
        box.until_logged("a file could not be written: .* class ")
        box.until_logged("closed by dcmbox: a file was lost")
    else:
        assert REFUSED_REPLY in answer


def test_an_echo_while_each_allocation_is_refused(boxed, is_refused):
    """Neither the echo nor the log allocates, also if the request arrives in pieces."""
    box = boxed()
    box.process.send_signal(signal.SIGUSR1)
    with box.connect() as peer:
        for at, until in ((0, 5), (5, 40), (40, 170)):
            peer.send(ECHO[at:until])
            box.until_waiting()
        answer = peer.exchange(ECHO[170:], 269)
    box.ended()
    assert not is_refused()
    assert answer[:1] == b"\2" and answer.endswith(RELEASED), box.log
    box.until_logged(r'calling "\w+" called "DCMBOX" released contexts 1 of 1')


def test_sixteen_peers_whose_requests_stop(serve):
    """Sixteen peers send the longest requests without the last byte; after that byte the log has all of them."""
    body = request([(CT, EXPLICIT)] * 128)[6:]
    sent = pdu(ASSOCIATE_RQ, body + item(0x99, bytes(65_524 - 4 - len(body))))
    box = serve("--at-once", "16", "--per-peer", "16")
    peers = [box.connect() for _ in range(16)]
    for at in range(0, len(sent) - 1, 16_000):
        for peer in peers:
            peer.send(sent[at : min(at + 16_000, len(sent) - 1)])
        box.until_waiting()
    assert box.most_resident() * 1024 <= 6_000_000
    for peer in peers:
        peer.send(sent[-1:])
        assert peer.receive_pdu()[0] == ASSOCIATE_AC
        assert peer.exchange(RELEASE, 10) == RELEASED
        peer.close()
    box.until_logged(" released contexts 128 of 128 ", count=10)


def test_a_store_of_160_mb_in_4_mb(serve):
    """4 MB suffice for any object: for the program, the C library, and the memory of one association."""
    store = LargeStore(160_000_000)
    box = serve("--no-sync")
    with box.connect() as peer:
        peer.send(store.opening)
        peer.send(store.middle)
        answer = peer.exchange(store.last, 293)
    assert answer == FIRST_REPLY + RELEASED
    box.until_logged(" released contexts ")
    assert box.most_resident() * 1024 <= 3_600_000


def test_a_store_of_64_mib(serve):
    """The store succeeds, and is filed with 16 MB of memory."""
    store = LargeStore(67059712)
    box = serve("--once", memory=LITTLE)
    answer = box.exchange(store.opening + store.middle + store.last, 293)
    assert answer == FIRST_REPLY + RELEASED
    assert box.ended() == 0
    assert box.files() == ["I0000001"]
    assert (box.folder / "I0000001").read_bytes() == store.file
