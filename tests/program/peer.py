"""A peer of the program that speaks PDUs (PS3.8 9.3), and the recordings that it sends."""
import pathlib
import select
import socket
import struct
import threading

ROOT = pathlib.Path(__file__).resolve().parents[2]
EXPLICIT = "1.2.840.10008.1.2.1"
CT = "1.2.840.10008.5.1.4.1.1.2"
APPLICATION_CONTEXT = b"1.2.840.10008.3.1.1.1"
ASSOCIATE_RQ, ASSOCIATE_AC, DATA, RELEASE_RQ, RELEASE_RP = 1, 2, 4, 5, 6
CONTEXT_RQ, CONTEXT_AC, ABSTRACT_SYNTAX, TRANSFER_SYNTAX, USER = 0x20, 0x21, 0x30, 0x40, 0x50
ABORT = bytes.fromhex("07000000000400000000")
RELEASED = bytes.fromhex("06000000000400000000")


def from_hex(path):
    """Returns the bytes of a file of the tree in hexadecimal."""
    return bytes.fromhex((ROOT / path).read_text())


def answer_of(path):
    """Returns the bytes that a replay sends, from a file of the tree with its output."""
    return bytes.fromhex("".join((ROOT / path).read_text().splitlines()[:-1]))


# An association with one echo: a request of 170 bytes, a C-ECHO-RQ of 80, and an A-RELEASE-RQ of
# 10.
ECHO = (ROOT / "crates/cli/data/recordings/echo.bin").read_bytes()
ECHO_REQUEST, ECHO_COMMAND = ECHO[:170], ECHO[170:250]
ECHO_ANSWER = answer_of("crates/cli/stdout")
# An association with two stores of CT images: a request of 180 bytes, the command and the data set
# of each store (those of the first end at bytes 292 and 352), and an A-RELEASE-RQ.
STORES = from_hex("tests/data/two_stores.hex")
STORES_REQUEST, RELEASE = STORES[:180], STORES[-10:]
STORES_ANSWER = answer_of("tests/expected/two_stores.txt")
# The reply to the request and to the first store alone, and the status element of success.
FIRST_REPLY = STORES_ANSWER[:283]
SUCCESS = bytes.fromhex("00000009020000000000")


def item(kind, content):
    return struct.pack(">BxH", kind, len(content)) + content


def pdu(kind, body):
    return struct.pack(">BxL", kind, len(body)) + body


def field(number, value):
    """Returns an element of group 0000."""
    value += b"\0" * (len(value) % 2)
    return struct.pack("<HHL", 0, number, len(value)) + value


def element(tag, vr, value):
    """Returns an element in Explicit VR Little Endian."""
    group, number = tag
    if vr in ("OB", "OW", "SQ", "UN", "UR"):
        return struct.pack("<HH2sHL", group, number, vr.encode(), 0, len(value)) + value
    return struct.pack("<HH2sH", group, number, vr.encode(), len(value)) + value


def values(context, control, content):
    """Returns a P-DATA-TF PDU with one presentation data value."""
    return pdu(DATA, struct.pack(">LBB", len(content) + 2, context, control) + content)


def request(contexts):
    """Returns an A-ASSOCIATE-RQ of SCANNER1 to DCMBOX with these abstract and transfer syntaxes."""
    titles = b"DCMBOX".ljust(16) + b"SCANNER1".ljust(16) + bytes(32)
    items = [
        item(
            CONTEXT_RQ,
            bytes([2 * n + 1, 0, 0, 0])
            + item(ABSTRACT_SYNTAX, sop_class.encode())
            + item(TRANSFER_SYNTAX, syntax.encode()),
        )
        for n, (sop_class, syntax) in enumerate(contexts)
    ]
    user = item(USER, item(0x51, struct.pack(">L", 16384)) + item(0x52, b"1.2.3"))
    head = struct.pack(">HH", 1, 0) + titles + item(0x10, APPLICATION_CONTEXT)
    return pdu(ASSOCIATE_RQ, head + b"".join(items) + user)


def store_command(context, sop_class, instance, number=1):
    """Returns a C-STORE-RQ in one P-DATA-TF PDU."""
    fields = (
        field(0x0002, sop_class.encode())
        + field(0x0100, struct.pack("<H", 1))
        + field(0x0110, struct.pack("<H", number))
        + field(0x0700, struct.pack("<H", 0))
        + field(0x0800, struct.pack("<H", 1))
        + field(0x1000, instance.encode())
    )
    return values(context, 3, field(0, struct.pack("<L", len(fields))) + fields)


def data_set_pdus(context, data, is_whole=True):
    """Yields the data set in P-DATA-TF PDUs of at most 16,384 bytes.

    Unless the data set is whole, none of the PDUs is marked as the last.
    """
    for at in range(0, len(data), 16372):
        last = is_whole and at + 16372 >= len(data)
        yield values(context, 2 * last, data[at : at + 16372])


def results(answer):
    """Returns the result and the transfer syntax of each context of the body of an A-ASSOCIATE-AC."""
    found, at = [], 68
    while at < len(answer):
        length = struct.unpack(">H", answer[at + 2 : at + 4])[0]
        if answer[at] == CONTEXT_AC:
            found.append((answer[at + 6], answer[at + 12 : at + 4 + length].decode()))
        at += 4 + length
    return found


def status_of(reply):
    """Returns the status of a C-STORE-RSP."""
    at = reply.index(b"\0\0\0\x09\2\0\0\0")
    return struct.unpack("<H", reply[at + 8 : at + 10])[0]


class Peer:
    """A connection to a box."""

    def __init__(self, port, address="127.0.0.1", seconds=60, to="127.0.0.1"):
        """Connects from this address, or from any if it is `None`."""
        source = address and (address, 0)
        self.socket = socket.create_connection((to, port), seconds, source)

    def __enter__(self):
        return self

    def __exit__(self, *_):
        self.close()

    def close(self):
        self.socket.close()

    def send(self, data):
        self.socket.sendall(data)

    def receive(self, size):
        """Returns `size` bytes, or fewer if the box closes the connection before."""
        received = b""
        while len(received) < size:
            try:
                more = self.socket.recv(size - len(received))
            except ConnectionError:
                break
            if not more:
                break
            received += more
        return received

    def rest(self):
        """Returns all bytes until the box closes the connection."""
        return self.receive(1 << 30)

    def receive_pdu(self):
        """Returns the type and the body of the next PDU; type 0 if there is none."""
        head = self.receive(6)
        if len(head) < 6:
            return 0, b""
        return head[0], self.receive(struct.unpack(">L", head[2:])[0])

    def is_silent(self, seconds):
        """Returns whether the box sends nothing and keeps the connection open for this time."""
        return not select.select([self.socket], [], [], seconds)[0]

    def exchange(self, sent, size):
        """Sends bytes, and returns `size` bytes of the reply."""
        self.send(sent)
        return self.receive(size)

    def until_released(self, sent):
        """Sends bytes, and receives PDUs until an A-RELEASE-RP."""
        self.send(sent)
        kind = None
        while kind not in (0, RELEASE_RP):
            kind, _ = self.receive_pdu()
        assert kind == RELEASE_RP, "the association is not released"

    def associate(self, contexts):
        """Requests an association; returns the result and the transfer syntax of each context."""
        self.send(request(contexts))
        kind, body = self.receive_pdu()
        return results(body) if kind == ASSOCIATE_AC else []

    def store(self, syntax, sop_class, instance, data, contexts=1):
        """Stores a data set in the last of `contexts` contexts, and releases.

        Returns the status of the reply, or `result N` if the context is not accepted.
        """
        result, _ = self.associate([(sop_class, syntax)] * contexts)[-1]
        if result != 0:
            status = f"result {result}"
        else:
            self.send_store(2 * contexts - 1, sop_class, instance, data)
            status = f"{status_of(self.receive_pdu()[1]):04X}"
        self.release()
        return status

    def release(self):
        """Requests the release of the association, and waits for the reply."""
        self.until_released(pdu(RELEASE_RQ, bytes(4)))

    def send_store(self, context, sop_class, instance, data, is_whole=True):
        self.send(store_command(context, sop_class, instance))
        for part in data_set_pdus(context, data, is_whole):
            self.send(part)


class Archive:
    """A peer that accepts every presentation context and replies to each C-STORE with a status.

    `others` has other statuses of some instances; `None` ends the association. `callers` has the
    calling title of each association.
    """

    def __init__(self, port, status=0, others=()):
        self.status, self.others, self.callers = status, dict(others), []
        self.listener = socket.create_server(("127.0.0.1", port))
        self.thread = threading.Thread(target=self.run, daemon=True)
        self.thread.start()

    def __enter__(self):
        return self

    def __exit__(self, *_):
        self.listener.shutdown(socket.SHUT_RDWR)
        self.listener.close()
        self.thread.join(60)

    def run(self):
        while True:
            try:
                connection, _ = self.listener.accept()
            except OSError:
                return
            with connection:
                connection.settimeout(60)
                try:
                    self.serve(connection.makefile("rwb"))
                except (ValueError, OSError, struct.error):
                    pass

    def serve(self, stream):
        command = b""
        while True:
            kind, size = struct.unpack(">BxL", stream.read(6))
            body = stream.read(size)
            if kind == ASSOCIATE_RQ:
                self.callers.append(body[20:36].decode().strip())
                stream.write(acceptance(body))
            elif kind == RELEASE_RQ:
                stream.write(pdu(RELEASE_RP, bytes(4)))
            elif kind != DATA:
                return
            while kind == DATA and body:
                size = int.from_bytes(body[:4], "big")
                context, control, part = body[4], body[5], body[6 : 4 + size]
                body = body[4 + size :]
                if control & 1:
                    command += part
                elif control & 2:
                    command_fields = fields_of(command)
                    instance = command_fields[0x1000].decode().strip("\0")
                    status = self.others.get(instance, self.status)
                    if status is None:
                        return
                    stream.write(store_reply(context, command_fields, status))
                    command = b""
            stream.flush()


def items(body):
    """Yields the items of an A-ASSOCIATE-RQ, or of one of its items: type and content."""
    while body:
        size = int.from_bytes(body[2:4], "big")
        yield body[0], body[4 : 4 + size]
        body = body[4 + size :]


def acceptance(command_fields):
    """Returns the A-ASSOCIATE-AC that accepts each context with its first transfer syntax."""
    answer = command_fields[:68] + item(0x10, APPLICATION_CONTEXT)
    for kind, content in items(command_fields[68:]):
        if kind == CONTEXT_RQ:
            parts = items(content[4:])
            syntax = next(text for part, text in parts if part == TRANSFER_SYNTAX)
            accepted = content[:1] + bytes(3) + item(TRANSFER_SYNTAX, syntax)
            answer += item(CONTEXT_AC, accepted)
    user = item(0x51, struct.pack(">L", 16384)) + item(0x52, b"2.25.1")
    return pdu(ASSOCIATE_AC, answer + item(USER, user))


def fields_of(command):
    """Returns the values of a command set by their element numbers."""
    command_fields, at = {}, 0
    while at < len(command):
        _, number, size = struct.unpack("<HHL", command[at : at + 8])
        command_fields[number] = command[at + 8 : at + 8 + size]
        at += 8 + size
    return command_fields


def store_reply(context, command_fields, status):
    """Returns the P-DATA-TF PDU with the C-STORE-RSP to a command of these values."""
    fields = (
        field(0x0002, command_fields[0x0002])
        + field(0x0100, b"\x01\x80")
        + field(0x0120, command_fields[0x0110])
        + field(0x0800, b"\x01\x01")
        + field(0x0900, struct.pack("<H", status))
        + field(0x1000, command_fields[0x1000])
    )
    return values(context, 3, field(0, struct.pack("<L", len(fields))) + fields)
