#!/usr/bin/env python3
"""Tests storage receivers from outside, and prints the table of docs/COMPARISON.md.

probe.py PROGRAM [--orthanc ORTHANC]

PROGRAM is dcmbox. It is compared with DCMTK's storescp, with its defaults and as an archive would run
it, and with Orthanc if its program is given. Each is started with an empty folder on a port of its
own, and tested over TCP.
"""
import argparse
import contextlib
import json
import os
import pathlib
import re
import shutil
import signal
import socket
import struct
import subprocess
import sys
import tempfile
import time

sys.dont_write_bytecode = True
sys.path.insert(0, str(pathlib.Path(__file__).resolve().parent.parent / "tests"))
from ports import free_port

PORT, HTTP_PORT = free_port(), free_port()
CT = "1.2.840.10008.5.1.4.1.1.2"
EXPLICIT, IMPLICIT = "1.2.840.10008.1.2.1", "1.2.840.10008.1.2"
# Storage classes of present scanners: PS3.4 annex B.5, without retired ones.
STORAGE = "1.2.840.10008.5.1.4.1.1."
CLASSES = [
    STORAGE + end
    for end in (
        "1 1.1 1.1.1 1.2 1.2.1 1.3 1.3.1 2 2.1 2.2 3.1 4 4.1 4.2 4.3 4.4 6.1 6.2 7 7.1 7.2 7.3 7.4 9.1.1 9.1.2 9.1.3 9.2.1 "
        "9.3.1 9.4.1 "
        "11.1 11.2 12.1 12.1.1 12.2 12.2.1 13.1.1 13.1.2 13.1.3 20 30 66 66.1 66.2 66.3 66.4 66.5 66.6 67 68.1 "
        "68.2 77.1.1 77.1.1.1 "
        "77.1.2 77.1.3 77.1.4 77.1.5.1 77.1.6 88.11 88.22 88.33 88.50 88.59 88.67 104.1 "
        "104.2 128 130 481.1 481.2 481.3 481.5 481.8"
    ).split()
]
SYNTAXES = [IMPLICIT, EXPLICIT] + [
    "1.2.840.10008.1.2." + end for end in "2 1.99 4.50 4.51 4.57 4.70 4.80 4.81 4.90 4.91 5".split()
]


# ---- PDUs and messages


def item(kind, content):
    return struct.pack(">BBH", kind, 0, len(content)) + content


def padded(text):
    return text.encode() + b"\0" * (len(text) % 2)


def request(contexts):
    """Returns an A-ASSOCIATE-RQ that proposes each class with one transfer syntax."""
    items = item(0x10, b"1.2.840.10008.3.1.1.1")
    for number, (name, syntax) in enumerate(contexts):
        items += item(
            0x20,
            bytes([2 * number + 1, 0, 0, 0])
            + item(0x30, name.encode())
            + item(0x40, syntax.encode()),
        )
    items += item(0x50, item(0x51, struct.pack(">L", 16384)) + item(0x52, b"2.25.99"))
    body = struct.pack(">HH", 1, 0) + b"DCMBOX".ljust(16) + b"PROBE".ljust(16) + bytes(32) + items
    return struct.pack(">BBL", 1, 0, len(body)) + body


def element(group, number, value):
    return struct.pack("<HHL", group, number, len(value)) + value


def command(instance):
    elements = (
        element(0, 2, padded(CT))
        + element(0, 0x100, struct.pack("<H", 1))
        + element(0, 0x110, struct.pack("<H", 1))
    )
    elements += (
        element(0, 0x700, struct.pack("<H", 0))
        + element(0, 0x800, struct.pack("<H", 1))
        + element(0, 0x1000, padded(instance))
    )
    return element(0, 0, struct.pack("<L", len(elements))) + elements


def data_pdu(control, fragment):
    value = struct.pack(">LBB", len(fragment) + 2, 1, control) + fragment
    return struct.pack(">BBL", 4, 0, len(value)) + value


def image(instance, name=b"DOE^JANE"):
    """Returns a data set in Implicit VR Little Endian."""
    elements = (
        element(8, 0x16, padded(CT)) + element(8, 0x18, padded(instance)) + element(8, 0x60, b"CT")
    )
    elements += element(0x10, 0x10, name + b" " * (len(name) % 2)) + element(0x10, 0x20, b"P1")
    elements += element(0x20, 0x0D, padded("2.25.1")) + element(0x20, 0x0E, padded("2.25.2"))
    return elements + element(0x20, 0x13, b"1 ")


class Peer:
    """An association with a receiver."""

    def __init__(self, contexts=((CT, IMPLICIT),), seconds=10.0):
        self.socket = socket.create_connection(("127.0.0.1", PORT), timeout=seconds)
        self.socket.sendall(request(contexts))
        self.kind, self.reply = self.pdu()

    def exactly(self, n):
        bytes_read = b""
        while len(bytes_read) < n:
            more = self.socket.recv(n - len(bytes_read))
            if not more:
                raise ConnectionError("closed")
            bytes_read += more
        return bytes_read

    def pdu(self):
        kind, _, length = struct.unpack(">BBL", self.exactly(6))
        return kind, self.exactly(length)

    def accepted(self):
        """Returns how many of the proposed contexts were accepted."""
        if self.kind != 2:
            return 0
        count, rest = 0, self.reply[68:]
        while rest:
            kind, _, length = struct.unpack(">BBH", rest[:4])
            count += kind == 0x21 and rest[6] == 0
            rest = rest[4 + length :]
        return count

    def store(self, instance, data_set):
        """Returns the status of a store; `None` if the receiver aborts or does not reply."""
        try:
            self.socket.sendall(data_pdu(3, command(instance)))
            for start in range(0, len(data_set), 16000):
                last = start + 16000 >= len(data_set)
                self.socket.sendall(data_pdu(2 if last else 0, data_set[start : start + 16000]))
            kind, body = self.pdu()
        except OSError:
            return None
        at = body.find(struct.pack("<HHL", 0, 0x900, 2)) if kind == 4 else -1
        return struct.unpack("<H", body[at + 8 : at + 10])[0] if at >= 0 else None

    def close(self):
        with contextlib.suppress(OSError):
            self.socket.sendall(struct.pack(">BBLL", 5, 0, 4, 0))
            self.pdu()
        self.socket.close()


# ---- receivers


class Receiver:
    def __init__(self, command, folder, traced=None):
        self.folder, self.traced = pathlib.Path(folder), traced
        trace = (
            [
                "strace",
                "-f",
                "-y",
                "-o",
                traced,
                "-e",
                "trace=fsync,fdatasync,sync_file_range,sendto,sendmsg,write,send",
            ]
            if traced
            else []
        )
        self.process = subprocess.Popen(
            trace + command,
            stdout=subprocess.DEVNULL,
            stderr=subprocess.DEVNULL,
            start_new_session=True,
        )
        for _ in range(400):
            with contextlib.suppress(OSError):
                socket.create_connection(("127.0.0.1", PORT), timeout=1).close()
                time.sleep(0.2)
                return
            time.sleep(0.05)
        raise SystemExit(f"{command[0]} doesn't listen")

    def files(self):
        return [
            path
            for path in self.folder.rglob("*")
            if path.is_file()
            and (path.read_bytes()[128:132] == b"DICM" or path.suffix == "")
            and path.name not in ("DRAFT", "orthanc.json")
            and "index" not in path.name
        ]

    def peak(self):
        """Returns the peak memory in MiB, of the process or of one that it forked."""
        peaks = []
        for process in pathlib.Path("/proc").glob("[0-9]*/status"):
            with contextlib.suppress(OSError):
                status = dict(line.split(":", 1) for line in process.read_text().splitlines())
                if (
                    self.process.pid in (int(status["Pid"]), int(status["PPid"]))
                    and "VmHWM" in status
                ):
                    peaks.append(int(status["VmHWM"].split()[0]) / 1024)
        return max(peaks)

    def end(self):
        os.killpg(self.process.pid, signal.SIGTERM)
        try:
            self.process.wait(10)
        except subprocess.TimeoutExpired:
            os.killpg(self.process.pid, signal.SIGKILL)
            self.process.wait()


def orthanc_command(orthanc, folder):
    settings = {
        "Name": "probe",
        "StorageDirectory": folder,
        "IndexDirectory": folder,
        "DicomPort": PORT,
        "HttpPort": HTTP_PORT,
        "DicomAet": "DCMBOX",
        "DicomAlwaysAllowStore": True,
        "Plugins": [],
        "OrthancPeers": {},
    }
    path = os.path.join(folder, "orthanc.json")
    pathlib.Path(path).write_text(json.dumps(settings))
    return [orthanc, path]


def receivers(program, orthanc):
    storescp = ["storescp", "-aet", "DCMBOX"]
    found = {
        "dcmbox": lambda folder: [program, "serve", "--port", str(PORT), "--out", folder],
        "storescp": lambda folder: [*storescp, "-od", folder, str(PORT)],
        "storescp +B +xa --fork": lambda folder: [
            *storescp,
            "+B",
            "+xa",
            "--fork",
            "-od",
            folder,
            str(PORT),
        ],
    }
    if orthanc:
        found["Orthanc"] = lambda folder: orthanc_command(orthanc, folder)
    return found


# ---- questions


def status_text(status):
    return "no status" if status is None else f"{status:04X}"


def ask_classes(receiver, _):
    peer = Peer([(name, EXPLICIT) for name in CLASSES])
    count = peer.accepted()
    peer.close()
    return f"{count} of {len(CLASSES)}"


def ask_syntaxes(receiver, _):
    count = 0
    for syntax in SYNTAXES:
        peer = Peer([(CT, syntax)])
        count += peer.accepted()
        peer.close()
    return f"{count} of {len(SYNTAXES)}"


def ask_twice(receiver, _):
    """Sends the same instance twice, with different names."""
    peer = Peer()
    statuses = [
        peer.store("2.25.7", image("2.25.7", name)) for name in (b"DOE^FIRST", b"DOE^OTHER")
    ]
    peer.close()
    time.sleep(0.5)
    texts = [path.read_bytes() for path in receiver.files()]
    names = [any(name in text for text in texts) for name in (b"DOE^FIRST", b"DOE^OTHER")]
    kept = {
        (True, True): "both kept",
        (True, False): "the first kept",
        (False, True): "the first written over",
        (False, False): "none found",
    }
    return f"{' and '.join(map(status_text, statuses))}: {kept[tuple(names)]}"


def ask_damaged(receiver, _):
    """Sends a truncated value, an odd length, and another instance than the command's."""
    good, answers = image("2.25.8"), []
    damages = (
        good + struct.pack("<HHL", 0x28, 0x10, 1000) + b"1234",
        good + struct.pack("<HHL", 0x28, 0x10, 3) + b"123",
        image("2.25.9"),
    )
    for data_set in damages:
        before = len(receiver.files())
        peer = Peer(seconds=5.0)
        status = peer.store("2.25.8", data_set)
        peer.close()
        time.sleep(0.3)
        answers.append(f"{status_text(status)}, {'kept' if len(receiver.files()) > before else 'no file'}")
    return "; ".join(answers)


def ask_together(receiver, _):
    """Opens a second association while the first is open."""
    first = Peer()
    try:
        second = Peer(seconds=3.0)
        reply = (
            "yes" if second.kind == 2 and second.store("2.25.10", image("2.25.10")) == 0 else "no"
        )
        second.close()
    except OSError:
        reply = "no, it waits"
    first.close()
    return reply


def ask_memory(receiver, _):
    """Returns the peak memory after one object of 160 MB."""
    peer = Peer(seconds=120.0)
    pixels = 160_000_000
    peer.socket.sendall(data_pdu(3, command("2.25.11")))
    data_set = image("2.25.11") + struct.pack("<HHL", 0x7FE0, 0x10, pixels)
    peer.socket.sendall(data_pdu(0, data_set))
    for sent in range(0, pixels, 16000):
        peer.socket.sendall(
            data_pdu(2 if sent + 16000 >= pixels else 0, bytes(min(16000, pixels - sent)))
        )
    peer.pdu()
    reply = f"{receiver.peak():.1f} MiB"
    peer.close()
    return reply


def ask_durable(receiver, traced):
    """Returns how many files were synced before the reply, except those of a database."""
    peer = Peer()
    there = len(pathlib.Path(traced).read_text().splitlines())
    peer.store("2.25.12", image("2.25.12"))
    trace = pathlib.Path(traced).read_text().splitlines()[there:]
    peer.close()
    synced = [line for line in trace if re.search(r"\b(fsync|fdatasync)\(", line)]
    files = [line for line in synced if not re.search(r"\.db|/index", line)]
    return (
        f"yes ({len(files)} × fsync)" if files else ("no: its database alone" if synced else "no")
    )


QUESTIONS = [
    ("Storage classes accepted", ask_classes),
    ("Transfer syntaxes accepted for CT", ask_syntaxes),
    ("A second association while one is open", ask_together),
    ("The same instance sent twice, with other values", ask_twice),
    (
        "A data set that is cut off; one with an odd length; one of another instance than the command",
        ask_damaged,
    ),
    ("On the disk before success", ask_durable),
    ("Peak memory with one object of 160 MB", ask_memory),
]


def main():
    parser = argparse.ArgumentParser()
    parser.add_argument("program")
    parser.add_argument("--orthanc")
    arguments = parser.parse_args()
    found = receivers(os.path.abspath(arguments.program), arguments.orthanc)
    print(
        "| | " + " | ".join(f"`{name}`" for name in found) + " |\n|---" + "|---" * len(found) + "|"
    )
    for question, ask in QUESTIONS:
        answers = []
        for command_of in found.values():
            work = tempfile.mkdtemp()
            folder, traced = (
                os.path.join(work, "received"),
                os.path.join(work, "trace") if ask is ask_durable else None,
            )
            os.mkdir(folder)
            receiver = Receiver(command_of(folder), folder, traced)
            try:
                answers.append(ask(receiver, traced))
            except OSError as error:
                answers.append(f"no answer ({error})")
            finally:
                receiver.end()
                shutil.rmtree(work, ignore_errors=True)
        print(f"| {question} | " + " | ".join(answers) + " |", flush=True)


if __name__ == "__main__":
    main()
