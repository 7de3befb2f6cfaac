"""Causes by which stores are not confirmed, and by which classes are refused."""
import struct

from cause import (
    CALLING,
    COMMAND,
    DATA_SET,
    MR,
    STORE,
    TITLES,
    Cause,
    Receive,
    established,
    lose_folder,
    reset,
    resume,
    stop,
    until_closed,
)
from peer import CT, EXPLICIT, RELEASE, pdu, request, store_command, values
from samples import changed

BASIC_TEXT = "1.2.840.10008.5.1.4.1.1.88.11"
ENHANCED = "1.2.840.10008.5.1.4.1.1.88.22"
FIND = "1.2.840.10008.5.1.4.1.2.2.1"
BIG_ENDIAN = "1.2.840.10008.1.2.2"
JPEG = "1.2.840.10008.1.2.4.70"


def refused(name, contexts, accepted, warning, answer):
    """Returns a cause in which some contexts are not accepted, and the association is released."""
    steps = (request(contexts), Receive(answer), RELEASE, Receive(10))
    warned = (f"{warning}{CALLING}",)
    return Cause(name, steps, TITLES, "released", f"{accepted} of {len(contexts)}", warned)


def answer_size(contexts):
    """Returns the size of the A-ASSOCIATE-AC that accepts none of these contexts."""
    return 74 + 25 + 41 + len(contexts) * (12 + len("1.2.840.10008.1.2"))


def none_of(name, contexts, warning, level="WARN"):
    return refused(name, contexts, 0, f"{level} classes refused: {warning}", answer_size(contexts))


def stored(name, command_pdu, data, status, counts, instance="1.2.3", sop="CTImageStorage", **more):
    """Returns a cause in which the reply to a store is not success, and the association is released."""
    store = f"class {sop} instance {instance} syntax ExplicitVRLittleEndian"
    warned = f"WARN not stored: status {status} {store}{CALLING}"
    steps = (command_pdu, *data, RELEASE, Receive(10))
    return established(name, steps, "released", (warned,), counts=counts, dropped=1, **more)


def nested(levels):
    """Returns a data set with this number of levels, of sequences and their items."""
    inner = b""
    for _ in range(levels // 2):
        inner = b"\xfe\xff\0\xe0\xff\xff\xff\xff" + inner + bytes.fromhex("feff0de000000000")
        inner = b"\x40\0\x75\2SQ\0\0\xff\xff\xff\xff" + inner + bytes.fromhex("feffdde000000000")
    return DATA_SET[12:60] + inner


FAILED = "stored 0 refused 0 failed 1"
REFUSED = "stored 0 refused 1 failed 0"
NO_FOLDER = "No such file or directory (os error 2)"
# The header of Pixel Data of 2,000 bytes.
PIXELS = b"\xe0\x7f\x10\0OW\0\0" + struct.pack("<L", 2000)
STORES_LOST = [
    stored(
        "a bad VR",
        COMMAND,
        (changed(DATA_SET, 16, b"ui"),),
        "C000 fault 10 BadVr tag 0008,0016",
        FAILED,
    ),
    stored(
        "a truncated data set",
        COMMAND,
        (values(1, 2, DATA_SET[12:50]),),
        "C000 fault 20 Truncated tag 0008,0018",
        FAILED,
    ),
    stored(
        "another class in the data set",
        COMMAND,
        (changed(DATA_SET, 44, b"4"),),
        "A900 fault 45 ClassMismatch tag 0008,0016",
        FAILED,
    ),
    stored(
        "another instance in the data set",
        store_command(1, CT, "1.2.9"),
        (DATA_SET,),
        "A900 fault 46 InstanceMismatch tag 0008,0018",
        FAILED,
        "1.2.9",
    ),
    stored(
        "another class than the context's",
        store_command(1, MR, "1.2.3"),
        (DATA_SET,),
        "0122",
        REFUSED,
        sop="MRImageStorage",
    ),
    stored(
        "a long data set",
        COMMAND,
        (values(1, 2, DATA_SET[12:] + PIXELS + bytes(2000)),),
        "A700 longer than --max-data",
        REFUSED,
        options=("--max-data", "1024"),
    ),
    stored(
        "an element that announces too much",
        COMMAND,
        (values(1, 2, DATA_SET[12:] + PIXELS),),
        "A700 longer than --max-data",
        REFUSED,
        options=("--max-data", "1024"),
    ),
    stored(
        "a deep data set",
        COMMAND,
        (values(1, 2, nested(130)),),
        "A700 deeper than 64 levels",
        REFUSED,
    ),
    established(
        "a folder that was removed",
        (lose_folder, COMMAND, DATA_SET, RELEASE, Receive(10)),
        "released",
        (f"ERROR a file could not be written: {NO_FOLDER} {STORE}{CALLING}",),
        counts=REFUSED,
        dropped=1,
    ),
    established(
        "an abort in a store",
        (COMMAND + pdu(7, bytes(4)), until_closed),
        "aborted by the peer, its application (source 0 reason 0)",
        (
            "WARN not stored: no reply, aborted by the peer, its application (source 0 reason 0) "
            f"{STORE} stores 1{CALLING}",
        ),
        dropped=1,
    ),
    established(
        "a close in a store",
        (COMMAND + DATA_SET[:28],),
        "closed by the peer",
        (f"WARN not stored: no reply, closed by the peer {STORE} stores 1{CALLING}",),
        dropped=1,
    ),
    established(
        "a release in a store",
        (COMMAND + RELEASE, Receive(10)),
        "released",
        (f"WARN not stored: no reply, released {STORE} stores 1{CALLING}",),
        dropped=1,
    ),
    established(
        "a reset before the reply",
        (stop, COMMAND + DATA_SET, reset, resume),
        "the connection failed",
        (f"WARN filed, but not confirmed: the connection failed file I0000001 {STORE}{CALLING}",),
        counts="stored 1 refused 0 failed 0",
        files=1,
    ),
]

PRIVATE = "1.2.3.4.5"
SIX = (BASIC_TEXT, ENHANCED, BASIC_TEXT, FIND, "1.2.3", "1.2.4", "1.2.5")
CLASSES = [
    none_of(
        "a class of the standard",
        [(BASIC_TEXT, EXPLICIT)],
        "BasicTextSRStorage (class: --all-storage)",
    ),
    none_of("a private class", [(PRIVATE, EXPLICIT)], "1.2.3.4.5 (class: --storage-class)"),
    none_of(
        "a class that no option accepts",
        [(FIND, EXPLICIT)],
        "StudyRootQueryRetrieveInformationModelFind (class)",
        "INFO",
    ),
    none_of(
        "a compressed syntax alone",
        [(CT, JPEG)],
        "CTImageStorage (syntaxes JPEGLosslessSV1: --all-syntaxes)",
    ),
    none_of(
        "a syntax that no option accepts",
        [(CT, BIG_ENDIAN)],
        "CTImageStorage (syntaxes ExplicitVRBigEndian)",
    ),
    none_of(
        "five syntaxes, and one twice",
        [(CT, f"1.2.840.10008.1.2.4.{number}") for number in (50, 51, 70, 70, 80, 90)],
        "CTImageStorage (syntaxes JPEGBaseline8Bit JPEGExtended12Bit JPEGLosslessSV1 and 2 more: "
        "--all-syntaxes)",
    ),
    none_of(
        "a class and a syntax",
        [(BASIC_TEXT, JPEG)],
        "BasicTextSRStorage (class: --all-storage --all-syntaxes)",
    ),
    none_of(
        "six classes",
        [(name, EXPLICIT) for name in SIX],
        "BasicTextSRStorage (class: --all-storage), EnhancedSRStorage (class: --all-storage), "
        "StudyRootQueryRetrieveInformationModelFind (class), 1.2.3 (class: --storage-class) and 2 more",
    ),
    refused(
        "a class that is accepted without its compressed syntaxes",
        [(CT, JPEG), (CT, EXPLICIT), (MR, EXPLICIT), (CT, "1.2.840.10008.1.2.4.80")],
        2,
        "WARN syntaxes refused: CTImageStorage (syntaxes JPEGLosslessSV1 JPEGLSLossless: "
        "--all-syntaxes)",
        260,
    ),
    refused(
        "a class with another context",
        [(CT, BIG_ENDIAN), (CT, EXPLICIT)],
        1,
        "WARN syntaxes refused: CTImageStorage (syntaxes ExplicitVRBigEndian)",
        200,
    ),
    established(
        "a store in a class without its compressed syntaxes",
        (COMMAND + DATA_SET, Receive(112), RELEASE, Receive(10)),
        "released",
        request=request([(CT, EXPLICIT), (CT, JPEG)]),
        answer=200,
        contexts="1 of 2",
        counts="stored 1 refused 0 failed 0",
        files=1,
    ),
]
