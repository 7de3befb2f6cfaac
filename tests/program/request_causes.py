"""Causes before an association is established, and its ends."""
import struct

from cause import (
    ACCEPTED,
    CALLING,
    DATA_SET,
    TITLES,
    Cause,
    Receive,
    established,
    reset,
    silence,
    until_closed,
)
from peer import (
    ABSTRACT_SYNTAX,
    APPLICATION_CONTEXT,
    ASSOCIATE_RQ,
    CONTEXT_RQ,
    CT,
    EXPLICIT,
    RELEASE,
    STORES_REQUEST,
    TRANSFER_SYNTAX,
    USER,
    item,
    pdu,
)

NOBODY = 'calling "" called ""'
LONG_REQUEST = "(request of 70000 bytes, at most 65524)"


def early(name, sent, reason, titles=NOBODY, contexts="0 of 0"):
    """Returns a cause by which the box aborts before an association is established."""
    end = f"aborted by dcmbox, {reason}"
    calling = CALLING if titles == TITLES else ""
    return Cause(name, (sent, Receive(10)), titles, end, contexts, (f"WARN {end}{calling}",))


def rejected(name, sent, reason, titles=TITLES, contexts=ACCEPTED.replace("1", "0", 1), options=()):
    end = f"rejected: {reason}"
    warned = (f"WARN {end} {titles}",)
    return Cause(name, (sent, Receive(10)), titles, end, contexts, warned, options=options)


def body(*items, version=1, called=b"DCMBOX", calling=b"SCANNER1"):
    """An A-ASSOCIATE-RQ of these items."""
    head = struct.pack(">HH", version, 0) + called.ljust(16) + calling.ljust(16) + bytes(32)
    return pdu(ASSOCIATE_RQ, head + b"".join(items))


def context(number, *parts):
    return item(CONTEXT_RQ, bytes([number, 0, 0, 0]) + b"".join(parts))


APPLICATION = item(0x10, APPLICATION_CONTEXT)
ABSTRACT = item(ABSTRACT_SYNTAX, CT.encode())
TRANSFER = item(TRANSFER_SYNTAX, EXPLICIT.encode())
CT_CONTEXT = context(1, ABSTRACT, TRANSFER)
EVEN_CONTEXT = context(2, ABSTRACT, TRANSFER)


def maximum(size):
    return item(USER, item(0x51, struct.pack(">L", size)))


def fault(name, number, *items):
    return early(name, body(*items), f"its application (request: {number})", TITLES)


def by_peer(source, reason, meaning):
    end = f"aborted by the peer, {meaning} (source {source} reason {reason})"
    abort = pdu(7, bytes([0, 0, source, reason]))
    return established(f"abort of source {source} and reason {reason}", (abort, until_closed), end)



REQUESTS = [
    Cause("port scan", (), NOBODY, "closed by the peer", "0 of 0"),
    Cause("half a request", (STORES_REQUEST[:100],), NOBODY, "closed by the peer", "0 of 0"),
    Cause(
        "a request that is never finished",
        (STORES_REQUEST[:100], until_closed),
        NOBODY,
        "ARTIM timer expired",
        "0 of 0",
        options=("--timeout", "1"),
    ),
    Cause(
        "an abort in place of a request",
        (pdu(7, bytes(4)), until_closed),
        NOBODY,
        "aborted by the peer, its application (source 0 reason 0)",
        "0 of 0",
    ),
    early("TLS", b"\x16\3\1\2\0\1", "its application (PDU type 16, is it TLS?)"),
    early("a type of TLS alone", b"\x16\3\x09\2\0\1", "its application (PDU type 16)"),
    early("TLS of another message", b"\x16\3\1\2\0\2", "its application (PDU type 16)"),
    early("HTTP", b"GET / HTTP/1.0\r\n\r\n", "its application (PDU type 47)"),
    early("SSH", b"SSH-2.0-OpenSSH_9.2\r\n", "its application (PDU type 53)"),
    early("zeros", bytes(12), "its application (PDU type 00)"),
    early("type 08", pdu(8, bytes(4)), "its application (PDU type 08)"),
    early("type FF", pdu(255, bytes(4)), "its application (PDU type FF)"),
    early("an acceptance first", pdu(2, bytes(80)), "its application (PDU type 02)"),
    early("a rejection first", pdu(3, bytes(4)), "its application (PDU type 03)"),
    early("data first", DATA_SET, "its application (PDU type 04)"),
    early("a release first", RELEASE, "its application (PDU type 05)"),
    early("a reply to a release first", pdu(6, bytes(4)), "its application (PDU type 06)"),
    early("a long rejection first", pdu(3, bytes(5)), "its application (PDU type 03 of 5 bytes, not 4)"),
    early("a long release first", pdu(5, bytes(6)), "its application (PDU type 05 of 6 bytes, not 4)"),
    early("a short abort first", pdu(7, bytes(3)), "its application (PDU type 07 of 3 bytes, not 4)"),
    early("a short request", pdu(1, bytes(67)), "its application (request: 31 BadLength)"),
    fault("an item past the end", "31 BadLength", APPLICATION, CT_CONTEXT, b"\x50\0\0\x50"),
    fault("remaining bytes", "31 BadLength", APPLICATION, CT_CONTEXT, maximum(0), b"\0\0"),
    fault("two applications", "32 BadItem", APPLICATION, APPLICATION, CT_CONTEXT, maximum(0)),
    fault("no transfer syntax", "32 BadItem", APPLICATION, context(1, ABSTRACT), maximum(0)),
    fault("an even context", "33 BadContextId", APPLICATION, EVEN_CONTEXT, maximum(0)),
    fault("a context twice", "34 DoubleContext", APPLICATION, CT_CONTEXT, CT_CONTEXT, maximum(0)),
    fault("no user information", "35 Missing", APPLICATION, CT_CONTEXT),
    fault("no context", "35 Missing", APPLICATION, maximum(0)),
    fault("no application context", "35 Missing", CT_CONTEXT, maximum(0)),
    rejected(
        "an over-long request",
        struct.pack(">BxL", 1, 70000) + STORES_REQUEST[6:],
        f"local limit exceeded {LONG_REQUEST}",
        contexts="0 of 0",
    ),
    rejected(
        "another protocol version",
        body(APPLICATION, CT_CONTEXT, maximum(0), version=2),
        "protocol version not supported",
    ),
    rejected(
        "another application context",
        body(item(0x10, b"1.2.3"), CT_CONTEXT, maximum(0)),
        "application context name not supported",
    ),
    rejected(
        "another called title",
        body(APPLICATION, CT_CONTEXT, maximum(0), called=b"OTHER"),
        "called AE title not recognized",
        'calling "SCANNER1" called "OTHER"',
    ),
    rejected(
        "another calling title",
        STORES_REQUEST,
        "calling AE title not recognized",
        options=("--caller", "SCANNER2"),
    ),
    *(
        rejected(
            f"a maximum length of {size}",
            body(APPLICATION, CT_CONTEXT, maximum(size)),
            f"no reason given (maximum length {size}, at least 8)",
        )
        for size in range(1, 8)
    ),
]

ENDS = [
    established("a release", (RELEASE, Receive(10)), "released"),
    established("a close", (), "closed by the peer"),
    established("a reset", (reset,), "the connection failed"),
    by_peer(0, 0, "its application"),
    by_peer(2, 0, "its provider: reason not specified"),
    by_peer(2, 1, "its provider: unrecognized PDU"),
    by_peer(2, 2, "its provider: unexpected PDU"),
    by_peer(2, 3, "its provider: reserved reason"),
    by_peer(2, 4, "its provider: unrecognized PDU parameter"),
    by_peer(2, 5, "its provider: unexpected PDU parameter"),
    by_peer(2, 6, "its provider: invalid PDU parameter value"),
    by_peer(1, 7, "a reserved source"),
    established(
        "silence",
        (silence,),
        "aborted: the peer was idle",
        (f"WARN aborted: the peer was idle{CALLING}",),
        options=("--idle", "1"),
    ),
    established(
        "an association that lasts too long",
        (silence,),
        "aborted: it lasted too long",
        (f"WARN aborted: it lasted too long{CALLING}",),
        options=("--longest", "1"),
    ),
]
