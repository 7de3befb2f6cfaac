"""Recorded stores of a report, and of a retired class, with each setting of the storage classes."""
import re

import pytest
from peer import (
    EXPLICIT,
    RELEASE_RQ,
    ROOT,
    data_set_pdus,
    element,
    pdu,
    request,
    store_command,
)
from samples import cases

REPORT = "1.2.840.10008.5.1.4.1.1.88.33"
# Ultrasound Image Storage in its first form, which is retired.
ULTRASOUND = "1.2.840.10008.5.1.4.1.1.6"
STORED = "[0-9a-f]*00000009020000000000[0-9a-f]*06000000000400000000Ended held 0 files 1"
ABORTED = "[0-9a-f]*07000000000400000206Ended held 0 files 0"


def classes_marked(mark):
    """Returns the storage classes of the standard's table with this mark, in its order."""
    statement = (ROOT / "docs/CONFORMANCE.md").read_text()
    table = statement.split("made by tools/storage-classes")[1]
    return re.findall(rf"^    ([0-9.]+) +\w+{mark}$", table, re.M)


def data_set(sop_class):
    return (
        element((0x0008, 0x0016), "UI", sop_class.encode() + b"\0")
        + element((0x0008, 0x0018), "UI", b"1.2.3\0")
        + element((0x0008, 0x0060), "CS", b"SR")
        + element((0x0040, 0xA040), "CS", b"CONTAINER ")
    )


def recording(classes):
    """Returns a recording that stores an instance in the last of these contexts."""
    last = 2 * len(classes) - 1
    return b"".join(
        [
            request([(sop_class, EXPLICIT) for sop_class in classes]),
            store_command(last, classes[-1], "1.2.3", number=7),
            *data_set_pdus(last, data_set(classes[-1])),
            pdu(RELEASE_RQ, bytes(4)),
        ]
    )


def accepted(context):
    """Returns the item of a reply that accepts the context in Explicit VR Little Endian."""
    return f"2100001b{context:02x}00000040000013" + EXPLICIT.encode().hex()


def rejected(context):
    """Returns the item of a reply that rejects the abstract syntax of the context."""
    return f"21000019{context:02x}00030040000011" + b"1.2.840.10008.1.2".hex()


def two_and_two(second, last):
    """Returns the first two and the last two items of a reply to 128 contexts.

    Contexts alternate; the first of two has a class that is always accepted.
    """
    return f"{accepted(3)}{second(5)}[0-9a-f]*{last(253)}{last(255)}"


@pytest.fixture
def replay(run, put):
    """Runs a replay, and returns its output as one line."""
    others = classes_marked(r"(?: \*)?")
    retired = classes_marked(r" \(retired\)")
    retired.remove(ULTRASOUND)
    put(
        {
            "one.bin": recording([REPORT]),
            "all.bin": recording([*others[:127], REPORT]),
            "retired.bin": recording([*retired, ULTRASOUND]),
        }
    )

    def done(*arguments):
        return run("replay", *arguments).stdout.replace("\n", "")

    return done


@pytest.mark.parametrize(
    "answer, arguments, files",
    cases(
        (
            "if every class is accepted",
            f"[0-9a-f]*{accepted(1)}{STORED}",
            "one.bin --all-storage",
            ["I0000001"],
        ),
        (
            "if its class is named",
            f"[0-9a-f]*{accepted(1)}{STORED}",
            f"one.bin --storage-class 2.25.1 --storage-class {REPORT}",
            ["I0000001"],
        ),
        (
            "if another class is named",
            f"[0-9a-f]*{rejected(1)}{ABORTED}",
            "one.bin --storage-class 2.25.1",
            [],
        ),
        (
            "if eleven classes are accepted",
            f"[0-9a-f]*{rejected(1)}{ABORTED}",
            "one.bin",
            [],
        ),
        (
            "in the last of 128 contexts",
            f"[0-9a-f]*{two_and_two(accepted, accepted)}{STORED}",
            "all.bin --all-storage --cut 7",
            ["I0000001"],
        ),
        (
            "in the last of 128 contexts, if eleven classes are accepted",
            f"[0-9a-f]*{two_and_two(rejected, rejected)}{ABORTED}",
            "all.bin",
            [],
        ),
        (
            "of a retired class, if every class is accepted",
            f"[0-9a-f]*{''.join(accepted(2 * n + 1) for n in range(20))}{STORED}",
            "retired.bin --all-storage",
            ["I0000001"],
        ),
        (
            "of a retired class that is named",
            "[0-9a-f]*" + "".join(rejected(2 * n + 1) for n in range(19)) + accepted(39) + STORED,
            f"retired.bin --storage-class {ULTRASOUND}",
            ["I0000001"],
        ),
        (
            "of a retired class, if eleven classes are accepted",
            f"[0-9a-f]*{''.join(rejected(2 * n + 1) for n in range(20))}{ABORTED}",
            "retired.bin",
            [],
        ),
    ),
)
def test_a_store(replay, work, answer, arguments, files):
    (work / "reports").mkdir()
    assert re.fullmatch(f"02[0-9a-f]*{answer}", replay(*arguments.split(), "--out", "reports"))
    assert sorted(path.name for path in (work / "reports").iterdir()) == files


def test_a_filed_report(replay, expect, work):
    """A filed report passes `check`, `show` lists it, and it and the next one are filed bit for bit."""
    replay("one.bin", "--all-storage", "--out", ".")
    replay("one.bin", "--all-storage", "--out", ".")
    assert (work / "I0000001").read_bytes() == (work / "I0000002").read_bytes()
    expect(0, "good [0-9]*", "", "check", "I0000001")
    expect(0, f"class {REPORT}\n.*end [0-9]*", "", "show", "I0000001")
    assert (work / "I0000001").read_bytes().endswith(data_set(REPORT))


MOST = [argument for n in range(1, 65) for argument in ("--storage-class", f"2.25.{n}")]
SERVE, REPLAY = "serve --out . --port 11112", "replay one.bin --out ."


def test_sixty_four_classes(expect):
    errors = "dcmbox: missing: the folder .*"
    expect(3, "", errors, "serve", "--out", "missing", "--port", "11112", *MOST)


def test_the_sixty_fourth_class_is_accepted(replay, work):
    classes = [*MOST[:-1], REPORT]
    answer = replay("one.bin", *classes, "--out", ".")
    assert re.fullmatch(f"02[0-9a-f]*{accepted(1)}{STORED}", answer)
    assert (work / "I0000001").exists()


def test_the_last_class_of_the_standard_after_sixty_four_others(replay):
    answer = replay("retired.bin", "--all-storage", *MOST, "--out", ".")
    every = "".join(accepted(2 * n + 1) for n in range(20))
    assert re.fullmatch(f"02[0-9a-f]*{every}{STORED}", answer)


@pytest.mark.parametrize("command", [SERVE, REPLAY], ids=["serve", "replay"])
def test_sixty_five_classes(expect, replay, command):
    errors = "error: --storage-class may be given 64 times at most"
    expect(2, "", errors, *command.split(), *MOST, "--storage-class", "2.25.65")


@pytest.mark.parametrize(
    "errors, arguments",
    cases(
        (
            "a class that is named twice",
            r"error: --storage-class names '2\.25\.1' twice",
            f"{REPLAY} --storage-class 2.25.1 --storage-class 2.25.2 --storage-class 2.25.1",
        ),
        (
            "a class that is no UID",
            "error: --storage-class takes a UID .* not 'CTImageStorage'",
            f"{SERVE} --storage-class CTImageStorage",
        ),
    ),
)
def test_rejected_options(expect, replay, errors, arguments):
    expect(2, "", errors, *arguments.split())
