"""Causes in what a peer sends over an established association."""
import dataclasses
import struct

from cause import COMMAND, DATA_SET, MR, Receive, aborted, in_store
from peer import CT, DATA, EXPLICIT, STORES_REQUEST, field, pdu, request, values
from samples import changed

PARAMETER = "its provider: invalid PDU parameter value"
UNEXPECTED = "its provider: unexpected PDU"
UNKNOWN = "its provider: unrecognized PDU"


def command(*fields):
    """Returns a command set in one P-DATA-TF PDU of context 1."""
    body = b"".join(fields)
    return values(1, 3, field(0, struct.pack("<L", len(body))) + body)


def numbers(kind, data=0x0101):
    """Returns the command field, the message ID and the data set type."""
    return (
        field(0x0100, struct.pack("<H", kind))
        + field(0x0110, struct.pack("<H", 1))
        + field(0x0800, struct.pack("<H", data))
    )


PDUS = [
    aborted("a second request", STORES_REQUEST, f"{UNEXPECTED} (PDU type 01)"),
    aborted("an acceptance", pdu(2, bytes(80)), f"{UNEXPECTED} (PDU type 02)"),
    aborted("a rejection", pdu(3, bytes(4)), f"{UNEXPECTED} (PDU type 03)"),
    aborted("a reply to a release", pdu(6, bytes(4)), f"{UNEXPECTED} (PDU type 06)"),
    aborted("an unknown PDU of type 00", pdu(0, bytes(4)), f"{UNKNOWN} (PDU type 00)"),
    aborted("an unknown PDU of type 08", pdu(8, bytes(4)), f"{UNKNOWN} (PDU type 08)"),
    aborted("an unknown PDU of type 47", pdu(0x47, bytes(4)), f"{UNKNOWN} (PDU type 47)"),
    aborted("an unknown PDU of type FF", pdu(255, bytes(4)), f"{UNKNOWN} (PDU type FF)"),
    *(
        aborted(
            f"type 0{kind} of {size} bytes",
            pdu(kind, bytes(size)),
            f"{PARAMETER} (PDU type 0{kind} of {size} bytes, not 4)",
        )
        for kind, size in ((3, 0), (5, 5), (6, 3), (7, 64))
    ),
    *(
        aborted(
            f"data of {size} bytes",
            struct.pack(">BxL", DATA, size) + bytes(64),
            f"{PARAMETER} (P-DATA-TF PDU of {size} bytes, at most 16384)",
        )
        for size in (16385, 200000, 4294967295)
    ),
    *(
        aborted(
            f"data of {size} bytes alone",
            pdu(DATA, bytes(size)),
            f"{PARAMETER} (P-DATA-TF PDU of {size} bytes, at least 6)",
        )
        for size in (0, 5)
    ),
    aborted(
        "a presentation data value of one byte",
        pdu(DATA, struct.pack(">LBB", 1, 1, 3)),
        f"{PARAMETER} (bad presentation data value)",
    ),
    aborted(
        "a presentation data value past the end",
        pdu(DATA, struct.pack(">LBB", 9, 1, 3) + bytes(6)),
        f"{PARAMETER} (bad presentation data value)",
    ),
    *(
        aborted(
            f"{count} bytes after a presentation data value",
            pdu(DATA, struct.pack(">LBB", 4, 1, 1) + bytes(2 + count)),
            f"{PARAMETER} (bytes after the last presentation data value)",
        )
        for count in (1, 5)
    ),
    *(
        aborted(
            f"context {number}",
            values(number, 3, bytes(8)),
            f"{PARAMETER} (presentation context {number} is not accepted)",
        )
        for number in (0, 3, 255)
    ),
]

LONG = "its application (command: 40 CommandTooLong, {} bytes of at most 1024)"
KIND = "its application (command: 43 WrongKind, {})"
FRAGMENTS = [
    aborted("a command of 1026 bytes", values(1, 3, bytes(1026)), LONG.format(1026)),
    aborted("a command of 1025 bytes", values(1, 3, bytes(1025)), LONG.format(1025)),
    aborted("a command of 16000 bytes", values(1, 1, bytes(16000)), LONG.format(16000)),
    aborted("a command in fragments of 200 bytes", values(1, 1, bytes(200)) * 6, LONG.format(1200)),
    aborted(
        "a command with a long end",
        values(1, 1, bytes(1024)) + values(1, 3, bytes(2)),
        LONG.format(1026),
    ),
    aborted("data without a command", DATA_SET, KIND.format("data without a command")),
    aborted(
        "data in a command",
        values(1, 1, bytes(8)) + DATA_SET,
        KIND.format("data before its end"),
    ),
    in_store("two commands", COMMAND, KIND.format("two commands without data")),
    in_store(
        "a command in the data",
        values(1, 0, DATA_SET[12:40]) + COMMAND,
        KIND.format("two commands without data"),
    ),
]

TWO = request([(CT, EXPLICIT), (MR, EXPLICIT)])
OTHER_CONTEXT = "its application (command: 44 OtherContext, context 3 inside a message of context 1)"
CONTEXTS = [
    aborted(
        "another context in a command",
        values(1, 1, COMMAND[12:40]) + values(3, 3, COMMAND[40:]),
        OTHER_CONTEXT,
        request=TWO,
        answer=202,
        contexts="2 of 2",
    ),
    dataclasses.replace(
        in_store("another context in the data", values(3, 2, DATA_SET[12:]), OTHER_CONTEXT),
        steps=(TWO, Receive(202), COMMAND + values(3, 2, DATA_SET[12:]), Receive(10)),
        contexts="2 of 2",
    ),
]

CLASS = field(0x0002, CT.encode())
ASKED_CLASS = field(0x0003, CT.encode())
BAD_STORE = "its application (command: 41 BadCommand, C-STORE-RQ 0001H)"
COMMANDS = [
    aborted("a command of zeros", values(1, 3, bytes(80)), "its application (command: 41 BadCommand)"),
    aborted("a command of no bytes", values(1, 3, b""), "its application (command: 41 BadCommand)"),
    aborted(
        "a command with a wrong length",
        changed(COMMAND, 20, b"\x59"),
        "its application (command: 41 BadCommand)",
    ),
    aborted(
        "a store without an instance",
        command(CLASS, numbers(1, 0)),
        BAD_STORE,
        ' element 0000,1000 ""',
    ),
    aborted(
        "a store with an invalid instance",
        command(CLASS, numbers(1, 0), field(0x1000, b"1.2.scanner 3")),
        BAD_STORE,
        ' element 0000,1000 "1.2.scanner 3"',
    ),
    aborted(
        "a store with an invalid class",
        command(field(0x0002, b"CT"), numbers(1, 0), field(0x1000, b"1.02")),
        BAD_STORE,
        ' element 0000,0002 "CT"',
    ),
    aborted(
        "a cancel",
        command(field(0x0100, b"\xff\x0f"), field(0x0120, b"\1\0"), field(0x0800, b"\1\1")),
        "its application (command: 41 BadCommand, C-CANCEL-RQ 0FFFH)",
    ),
    *(
        aborted(
            f"a command {name}",
            command(ASKED_CLASS, numbers(kind)),
            f"its application (command: 41 BadCommand, {name} {kind:04X}H)",
        )
        for name, kind in (
            ("N-GET-RQ", 0x0110),
            ("N-SET-RQ", 0x0120),
            ("N-ACTION-RQ", 0x0130),
            ("N-DELETE-RQ", 0x0150),
        )
    ),
    *(
        aborted(
            f"a command {name}",
            command(CLASS, numbers(kind)),
            f"its application (command: 42 UnknownField, {name} {kind:04X}H)",
        )
        for name, kind in (
            ("C-FIND-RQ", 0x0020),
            ("C-MOVE-RQ", 0x0021),
            ("C-GET-RQ", 0x0010),
            ("N-EVENT-REPORT-RQ", 0x0100),
            ("N-CREATE-RQ", 0x0140),
            ("C-STORE-RSP", 0x8001),
            ("C-ECHO-RSP", 0x8030),
            ("field", 0x0023),
        )
    ),
    aborted(
        "a store without data",
        command(CLASS, numbers(1), field(0x1000, b"1.2.3")),
        "its application (command: 43 WrongKind, C-STORE-RQ 0001H)",
    ),
    aborted(
        "an echo with data",
        command(CLASS, numbers(0x30, 0)),
        "its application (command: 43 WrongKind, C-ECHO-RQ 0030H)",
    ),
]
