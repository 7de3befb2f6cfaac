"""Measures a store while eight associations of another address keep the box busy with small messages."""
import multiprocessing
import select
import statistics
import sys
import tempfile
import time
from pathlib import Path

sys.path.insert(0, str(Path(__file__).resolve().parent.parent / "tests/program"))
from peer import CT, ECHO_COMMAND, ECHO_REQUEST, EXPLICIT, Peer, element, store_command, values

FLOODERS, OTHER = 8, "127.0.0.2"
OPTIONS = ["--at-once", "16", "--per-peer", "8", "--ae", "DCMBOX"]
INSTANCE = "1.2.840.99.1"
# A store whose data set has an unknown VR: the reply is C000.
REFUSED = store_command(1, CT, INSTANCE) + values(1, 2, b"\x10\0\x10\0??\4\0Name")
# A store without an end, in fragments of one byte: the value of an element of 4 GB.
HEAD = store_command(1, CT, INSTANCE) + values(1, 0, element((0x0008, 0x0016), "UI", CT.encode() + b"\0")) + values(
    1, 0, b"\xe0\x7f\x10\0OB\0\0\xfe\xff\xff\xff")
BYTE = values(1, 0, b"\0")


def image(number):
    """Returns the instance UID and the data set of an image of 512 KiB."""
    uid = f"1.2.840.99.2.{number}"
    even = uid.encode() + b"\0" * (len(uid) % 2)
    data = element((0x0008, 0x0016), "UI", CT.encode() + b"\0") + element((0x0008, 0x0018), "UI", even)
    return uid, data + element((0x7FE0, 0x0010), "OW", bytes(1 << 19))


def flood(port, first, again, started):
    """Associates, and sends bytes repeatedly, as fast as the box reads them; reads the replies."""
    with Peer(port, OTHER) as peer:
        if first is None:
            peer.exchange(ECHO_REQUEST, 6)
        else:
            peer.associate([(CT, EXPLICIT)])
            peer.send(first)
        peer.socket.setblocking(False)
        piece = again * (65536 // len(again))
        rest = memoryview(piece)
        started.release()
        while True:
            readable, writable, _ = select.select([peer.socket], [peer.socket], [])
            try:
                if readable and not peer.socket.recv(1 << 16):
                    return
                if writable:
                    rest = rest[peer.socket.send(rest):] or memoryview(piece)
            except BlockingIOError:
                pass
            except OSError:
                return


def stores(port, count):
    """Returns the seconds of each of `count` stores of an image, each in an association of its own."""
    times = []
    for number in range(count):
        uid, data = image(number)
        started_at = time.monotonic()
        with Peer(port) as peer:
            if (status := peer.store(EXPLICIT, CT, uid, data)) != "0000":
                sys.exit(f"the reply to a store is {status}")
        times.append(time.monotonic() - started_at)
    return times


CASES = {
    "nothing": None,
    "refused stores": (b"", REFUSED),
    "echoes": (None, ECHO_COMMAND),
    "fragments of one byte": (HEAD, BYTE),
}


def measured(start, stop, program, port, log, case):
    """Returns the seconds of each of 20 stores during this load."""
    with tempfile.TemporaryDirectory() as folder:
        server = start([program, "serve", "--port", str(port), *OPTIONS, "--out", folder], log)
        flooders = []
        try:
            if case is not None:
                started = multiprocessing.Semaphore(0)
                flooders = [multiprocessing.Process(target=flood, args=(port, *case, started), daemon=True)
                            for _ in range(FLOODERS)]
                for flooder in flooders:
                    flooder.start()
                for _ in flooders:
                    if not started.acquire(timeout=30):
                        sys.exit("a flooder has no association")
                time.sleep(0.5)
            return stores(port, 20)
        finally:
            for flooder in flooders:
                flooder.kill()
                flooder.join()
            stop(server)


def fairness(start, stop, programs, port, rounds, log):
    """Prints the time of a store of 512 KiB during each kind of flood, as a ratio to that without a flood."""
    print("\n| Beside eight associations of another address that send | " + " | ".join(
        f"`{Path(program).name}`" for program in programs) + " |")
    print("|" + "---|" * (len(programs) + 1))
    alone = {}
    for name, case in CASES.items():
        cells = []
        for program in programs:
            times = [seconds for _ in range(rounds) for seconds in measured(start, stop, program, port, log, case)]
            median = statistics.median(times)
            alone.setdefault(program, median)
            cells.append(f"{median / alone[program]:.1f} ({median * 1000:.0f} ms, at most {max(times) * 1000:.0f})")
        print(f"| {name} | {' | '.join(cells)} |", flush=True)
