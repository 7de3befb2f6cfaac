#!/usr/bin/env python3
"""Compares `dcmbox serve` with DCMTK's storescp and with the baseline, a sink that checks nothing.

bench.py PROGRAM [--rounds N] [--part PART] [--beside PROGRAM]

Each round sends each corpus to each server, one after the other, so that other load on the machine affects all of them.
The table has the medians of the rounds as ratios to the sink's: wall time of the client, CPU time and peak resident memory
of the server's process. --part measures one part only.
"""
import argparse
import importlib.util
import os
import resource
import shutil
import socket
import statistics
import struct
import subprocess
import sys
import tempfile
import time

HERE = os.path.dirname(os.path.abspath(__file__))
sys.dont_write_bytecode = True
sys.path.insert(0, f"{HERE}/../tests")
from fairness import fairness
from ports import free_port

PORT = free_port()
CORPORA = [("ct", "200 CT of 512 KiB"), ("large", "one of 160 MB"), ("tiny", "2,000 of 1 KiB")]
# An object of JPEG frames, each a fragment of 64 KiB; its servers accept compressed transfer syntaxes.
FRAMES = ("frames", "one of 160 MB in 2,441 fragments")


def compiled(work):
    """Builds the client and the sink."""
    for name in ("client", "sink"):
        subprocess.run(["gcc", "-O2", "-o", f"{work}/{name}", f"{HERE}/{name}.c"], check=True)


def servers(program, work):
    """Returns the servers by name, each as the function of a folder that returns its command."""
    return servers_with(program, work, [], [])


def servers_with(program, work, box_options, scp_options):
    """Returns the servers with further options."""
    box = [program, "serve", "--port", str(PORT), *box_options, "--out"]
    scp = ["storescp", *scp_options, "-aet", "DCMBOX", "-od"]
    return {
        "sink": lambda folder: [f"{work}/sink", str(PORT), folder],
        "dcmbox --no-sync": lambda folder: box + [folder, "--no-sync"],
        "dcmbox": lambda folder: box + [folder],
        "storescp": lambda folder: scp + [folder, str(PORT)],
        "storescp +B": lambda folder: scp + [folder, "+B", str(PORT)],
    }


def compressed(program, work):
    """Returns the servers with every transfer syntax accepted."""
    return servers_with(program, work, ["--all-syntaxes"], ["+xa"])


def is_listening(port):
    """Returns whether a process listens on the port, without a connection, which would count as an association."""
    suffix = f":{port:04X}"
    for table in ("/proc/net/tcp", "/proc/net/tcp6"):
        with open(table) as lines:
            for line in lines:
                fields = line.split()
                if fields[1].endswith(suffix) and fields[3] == "0A":
                    return True
    return False


def start(command, log, port=PORT):
    server = subprocess.Popen(command, stdout=log, stderr=log)
    while not is_listening(port):
        if server.poll() is not None:
            sys.exit(f"{command[0]} does not start")
        time.sleep(0.002)
    return server


def stop(server):
    """Ends a server, and returns its CPU seconds and its peak memory in KiB."""
    with open(f"/proc/{server.pid}/status") as status:
        peak = next(int(line.split()[1]) for line in status if line.startswith("VmHWM"))
    server.kill()
    _, _, usage = os.wait4(server.pid, 0)
    server.returncode = 0
    return usage.ru_utime + usage.ru_stime, peak


def empty(folder):
    """Frees the disk space. The files stay until the end: ext4 inspects each recently freed inode when it creates a file."""
    for name in os.listdir(folder):
        os.truncate(f"{folder}/{name}", 0)


def measured(work, command_of, sender, log):
    """Runs a server and a sender, and returns wall seconds, CPU seconds and peak memory."""
    folder = tempfile.mkdtemp(dir=work)
    # (pending writes of the previous server are not charged to this one)
    os.sync()
    server = start(command_of(folder), log)
    try:
        seconds = sender(folder)
    finally:
        cpu, peak = stop(server)
        empty(folder)
    return seconds, cpu, peak


def send(work, *command):
    def sender(_folder):
        client = subprocess.run([f"{work}/client", str(PORT), *command], stdout=subprocess.PIPE, check=True)
        return float(client.stdout.split()[0])

    return sender


def last_replies(work, waits):
    """Sends one object of 160 MB, and notes the seconds from its last byte to its reply."""
    def sender(_folder):
        client = subprocess.run([f"{work}/client", str(PORT), "large"], stdout=subprocess.PIPE, check=True)
        seconds, waited = map(float, client.stdout.split())
        waits.append(waited)
        return seconds

    return sender


def storescu(files):
    def sender(_folder):
        started = time.monotonic()
        subprocess.run(["storescu", "-aec", "DCMBOX", "127.0.0.1", str(PORT), *files], check=True)
        return time.monotonic() - started

    return sender


def medians(runs):
    return [statistics.median(run[i] for run in runs) for i in range(3)]


def ratio(value, floor):
    return f"{value / floor:.2f}" if floor else "-"


def table(titles, names, results):
    """Prints a row for each server, with its wall time, CPU time and peak memory for each corpus."""
    print("| Server | " + " | ".join(titles) + " |")
    print("|" + "---|" * (len(titles) + 1))
    for name in names:
        cells = []
        for title in titles:
            results_of, floor = results[title, name], results[title, "sink"]
            cells.append(f"{ratio(results_of[0], floor[0])}, {ratio(results_of[1], floor[1])}, {results_of[2] / 1024:.1f}")
        print(f"| `{name}` | " + " | ".join(cells) + " |")
    floors = [results[title, "sink"] for title in titles]
    print("| `sink`, in s | " + " | ".join(f"{wall:.3f}, {cpu:.3f}" for wall, cpu, _ in floors) + " |")


def compare(program, work, rounds, log):
    starts = servers(program, work)
    files = {corpus: [f"{work}/{corpus}{n}.dcm" for n in range(60)] for corpus in ("ct", "tiny")}
    for corpus, names in files.items():
        for n, name in enumerate(names):
            subprocess.run([f"{work}/client", "--file", name, corpus, str(n)], check=True)
    senders = {title: send(work, name) for name, title in [*CORPORA, FRAMES]}
    senders["60 CT of 512 KiB by storescu"] = storescu(files["ct"])
    senders["60 of 1 KiB by storescu"] = storescu(files["tiny"])
    runs = {(title, name): [] for title in senders for name in starts}
    for _ in range(rounds):
        for title, sender in senders.items():
            for name, command_of in (compressed(program, work) if title == FRAMES[1] else starts).items():
                runs[title, name].append(measured(work, command_of, sender, log))
    results = {key: medians(results_of) for key, results_of in runs.items()}
    table(list(senders), starts, results)
    servers_drawn = [name for name in starts if name != "sink"]

    def ratio_of(title, name, which):
        return results[title, name][which] / (results[title, "sink"][which] or 1)

    return lambda draw, folder: draw.ratios(f"{folder}/ratios.svg", list(senders), servers_drawn, ratio_of)


def fragments(program, work, rounds, log):
    """Compares the object in fragments with a native one of the same size, alternately, and measures one of empty fragments."""
    command_of = compressed(program, work)["dcmbox --no-sync"]
    runs = {"large": [], "frames": [], "empty": []}
    for _ in range(rounds):
        for corpus, results_of in runs.items():
            results_of.append(measured(work, command_of, send(work, corpus), log))
    large, frames, empty = (medians(results_of) for results_of in runs.values())
    print(f"\n160 MB in 2,441 fragments, compared with 160 MB of native Pixel Data to `dcmbox serve --no-sync --all-syntaxes`: wall time "
          f"{ratio(frames[0], large[0])}, CPU time {ratio(frames[1], large[1])}, peak memory {frames[2] / 1024:.1f} and "
          f"{large[2] / 1024:.1f} MiB ({rounds} rounds).")
    print(f"2^20 fragments without a byte: {empty[1]:.3f} CPU seconds, {empty[2] / 1024:.1f} MiB.")


def growth(program, work, rounds, log):
    """Measures the cost by the bytes of an object, and by the number of stores. Returns the function that draws it."""
    command_of = servers(program, work)["dcmbox --no-sync"]
    print("\nGrowth of `dcmbox serve --no-sync`: CPU seconds for each 100 MB of one object, and for each 1,000 stores\n")
    print("| What | CPU time |")
    print("|---|---|")
    sizes, counts = [], []
    for size in (40_000_000, 160_000_000, 640_000_000):
        runs = [measured(work, command_of, send(work, "large", "1", str(size)), log) for _ in range(rounds)]
        sizes.append((size / 1e6, medians(runs)[1]))
        print(f"| one object of {size // 1_000_000} MB | {medians(runs)[1] / (size / 1e8):.3f} s |")
    for count in (1000, 2000, 4000):
        runs = [measured(work, command_of, send(work, "tiny", str(count)), log) for _ in range(rounds)]
        counts.append((count, medians(runs)[1]))
        print(f"| {count} stores of 1 KiB | {medians(runs)[1] / (count / 1e3):.3f} s |")
    return lambda draw, folder: draw.growth(f"{folder}/growth.svg", sizes, counts)


def sent_at_once(work, corpus, count, ports):
    """Returns the seconds of clients that each send `count` images at once, one to each of the ports."""
    started = time.monotonic()
    clients = [subprocess.Popen([f"{work}/client", str(port), corpus, str(count)], stdout=subprocess.DEVNULL) for port in ports]
    assert all(client.wait() == 0 for client in clients)
    return time.monotonic() - started


def together(work, corpus, count, at_once, senders=8):
    """Returns a sender of clients that each send `count` images, at once or one after the other."""
    def sender(_folder):
        if at_once:
            return sent_at_once(work, corpus, count, [PORT] * senders)
        return sum(sent_at_once(work, corpus, count, [PORT]) for _ in range(senders))

    return sender


def apart(program, work, corpus, count, senders, log):
    """Returns the seconds of `senders` clients at once, each with a box of its own."""
    ports = [free_port() for _ in range(senders)]
    folders = [tempfile.mkdtemp(dir=work) for _ in ports]
    os.sync()
    boxes = [start([program, "serve", "--port", str(port), "--out", folder], log, port) for port, folder in zip(ports, folders)]
    try:
        return sent_at_once(work, corpus, count, ports)
    finally:
        for box, folder in zip(boxes, folders):
            stop(box)
            empty(folder)


def several(program, work, rounds, log):
    """Measures eight senders at once, and one sender to a box for several."""
    starts = servers(program, work)
    boxes = {}
    for name in ("dcmbox --no-sync", "dcmbox"):
        boxes[name] = starts[name]
        boxes[f"{name} --at-once 16"] = (
            lambda command_of: lambda folder: command_of(folder) + ["--at-once", "16", "--per-peer", "16"])(starts[name])
    print("\n### Eight senders at once\n")
    print("Wall time compared with that of the same eight, one after the other, and peak memory.\n")
    print("| Box | Each sends | At once | Peak memory |")
    print("|---|---|---|---|")
    for corpus, count, title in (("ct", 50, "50 CT of 512 KiB"), ("tiny", 250, "250 of 1 KiB")):
        for name in ("dcmbox --no-sync --at-once 16", "dcmbox --at-once 16"):
            runs = {at_once: [] for at_once in (True, False)}
            for _ in range(rounds):
                for at_once, results_of in runs.items():
                    results_of.append(measured(work, boxes[name], together(work, corpus, count, at_once), log))
            one, other = medians(runs[True]), medians(runs[False])
            print(f"| `{name}` | {title} | {ratio(one[0], other[0])} | {one[2] / 1024:.1f} MiB |")
    print("\nOne sender alone, compared with a box that serves one association at a time:\n")
    print("| Box | Sends | Wall time | CPU time | Peak memory |")
    print("|---|---|---|---|---|")
    for corpus, title in CORPORA:
        for name in ("dcmbox --no-sync", "dcmbox"):
            runs = {box: [] for box in (name, f"{name} --at-once 16")}
            for _ in range(rounds):
                for box, results_of in runs.items():
                    results_of.append(measured(work, boxes[box], send(work, corpus), log))
            one, other = medians(runs[f"{name} --at-once 16"]), medians(runs[name])
            print(f"| `{name} --at-once 16` | {title} | {ratio(one[0], other[0])} | {ratio(one[1], other[1])} | {one[2] / 1024:.1f} MiB |")


def groups(program, work, rounds, log, beside=None):
    """Measures synced stores of one, eight and sixteen senders at once, compared with the same one after the other, with as many
    boxes, and with another program."""
    kind = subprocess.run(["df", "--output=fstype", work], stdout=subprocess.PIPE, check=True, text=True).stdout.split()[-1]
    flush = []
    for _ in range(20):
        with open(f"{work}/flushed", "wb") as file:
            file.write(b"x")
            started = time.monotonic()
            os.fsync(file.fileno())
            flush.append(time.monotonic() - started)
    print(f"\n### Senders at once, synced, on {kind}, where an fsync of a byte takes {statistics.median(flush) * 1000:.1f} ms\n")
    others = f" | Compared with {beside}" if beside else ""
    print(f"| Senders | Each sends | One after the other | Boxes of their own{others} |")
    print(f"|---|---|---|---|{'---|' if beside else ''}")
    box = lambda program: lambda folder: servers(program, work)["dcmbox"](folder) + ["--at-once", "16", "--per-peer", "16"]
    for corpus, count, title in (("tiny", 50, "50 of 1 KiB"), ("ct", 10, "10 CT of 512 KiB")):
        for senders in (1, 8, 16):
            runs = {"at once": [], "after": [], "apart": [], "beside": []}
            for _ in range(rounds):
                runs["at once"].append(measured(work, box(program), together(work, corpus, count, True, senders), log)[0])
                runs["after"].append(measured(work, box(program), together(work, corpus, count, False, senders), log)[0])
                runs["apart"].append(apart(program, work, corpus, count, senders, log))
                if beside:
                    runs["beside"].append(measured(work, box(beside), together(work, corpus, count, True, senders), log)[0])
            results_of = {name: statistics.median(seconds) for name, seconds in runs.items() if seconds}
            ratios = [ratio(results_of["at once"], results_of[name]) for name in ("after", "apart", "beside") if name in results_of]
            print(f"| {senders} | {title} | {' | '.join(ratios)} |", flush=True)


def replies(program, work, rounds, log, beside=None):
    """Measures the time from the last byte of a synced object of 160 MB to the reply, and the whole, alternately with another program."""
    programs = [program] if beside is None else [program, beside]
    waits, runs = {name: [] for name in programs}, {name: [] for name in programs}
    for _ in range(rounds):
        for name in programs:
            command_of = servers(name, work)["dcmbox"]
            runs[name].append(measured(work, command_of, last_replies(work, waits[name]), log))
    waited = {name: statistics.median(waits[name]) for name in programs}
    whole = {name: medians(runs[name]) for name in programs}
    kind = subprocess.run(["df", "--output=fstype", work], stdout=subprocess.PIPE, check=True, text=True).stdout.split()[-1]
    print(f"\nFrom the last byte of 160 MB to its reply, synced, on {kind}: {waited[program] * 1000:.1f} ms "
          f"({min(waits[program]) * 1000:.1f} to {max(waits[program]) * 1000:.1f}, {rounds} rounds).")
    if beside is not None:
        print(f"Compared with {beside}: {ratio(waited[program], waited[beside])} of its {waited[beside] * 1000:.1f} ms "
              f"({min(waits[beside]) * 1000:.1f} to {max(waits[beside]) * 1000:.1f}); the whole in "
              f"{ratio(whole[program][0], whole[beside][0])} of its time, with {ratio(whole[program][1], whole[beside][1])} "
              f"of its CPU time.")


def fair(program, _work, rounds, log, beside=None):
    """Measures a store during floods of small messages."""
    fairness(start, stop, [program] if beside is None else [program, beside], PORT, rounds, log)


def counted(program, work, count, log):
    """Returns the instructions of a program that serves one association with `count` stores of 1 KiB."""
    profile = f"{work}/profile"
    command = ["valgrind", "--tool=callgrind", f"--callgrind-out-file={profile}", program, "serve", "--port", str(PORT)]
    server = start([*command, "--no-sync", "--once", "--out", tempfile.mkdtemp(dir=work)], log)
    send(work, "tiny", str(count))(None)
    if server.wait():
        sys.exit(f"{program} failed under callgrind")
    with open(profile) as lines:
        return next(int(line.split()[1]) for line in lines if line.startswith(("summary:", "totals:")))


def instructions(program, work, _rounds, log, beside=None):
    """Counts the instructions of a store of 1 KiB: those of 60 less those of 20. Counts need no rounds."""
    if shutil.which("valgrind") is None:
        print("\nThe instructions of a store are not counted: valgrind is missing.")
        return
    each = {name: (counted(name, work, 60, log) - counted(name, work, 20, log)) / 40 for name in [program, beside] if name}
    print(f"\nA store of 1 KiB with `--no-sync` takes {each[program]:,.0f} instructions (callgrind, 60 stores less 20).")
    if beside is not None:
        print(f"Compared with {beside}: {ratio(each[program], each[beside])} of its {each[beside]:,.0f}.")


def filled(program, work, rounds, log):
    """Measures 500 stores into an empty folder and into one with 20,000 files."""
    command_of = servers(program, work)["dcmbox --no-sync"]
    folders = {there: tempfile.mkdtemp(dir=work) for there in (0, 20_000)}
    for there, folder in folders.items():
        for n in range(1, there + 1):
            open(f"{folder}/I{n:07d}", "w").close()
    runs = {there: [] for there in folders}
    for _ in range(rounds):
        for there, folder in folders.items():
            os.sync()
            server = start(command_of(folder), log)
            seconds = send(work, "tiny", "500")(folder)
            runs[there].append((seconds, *stop(server)))
    results = {there: medians(runs[there]) for there in folders}
    print(f"\n500 stores into a folder of 20,000 files take {ratio(results[20_000][0], results[0][0])} times the wall time of 500 into an empty one.")


def element(group, number, vr, value):
    """Returns an element in Explicit VR Little Endian, padded to an even length."""
    value += (b"\0" if vr == b"UI" else b" ") * (len(value) % 2)
    return struct.pack("<HH2sH", group, number, vr, len(value)) + value


def own_patient(n):
    """Returns the file of an image with a patient, a study and a series of its own."""
    number = str(n).encode()
    meta = b"".join((
        element(2, 2, b"UI", b"1.2.840.10008.5.1.4.1.1.2"),
        element(2, 3, b"UI", b"2.25.7." + number),
        element(2, 0x10, b"UI", b"1.2.840.10008.1.2.1"),
    ))
    return b"".join((
        bytes(128), b"DICM", element(2, 0, b"UL", struct.pack("<L", len(meta))), meta,
        element(8, 0x20, b"DA", b"20260101"), element(8, 0x30, b"TM", b"120000"), element(8, 0x60, b"CS", b"CT"),
        element(0x10, 0x10, b"PN", b"DOE^JANE"), element(0x10, 0x20, b"LO", number),
        element(0x20, 0x0d, b"UI", b"2.25.2." + number), element(0x20, 0x0e, b"UI", b"2.25.3." + number),
        element(0x20, 0x10, b"SH", b"S1"), element(0x20, 0x11, b"IS", b"1"), element(0x20, 0x13, b"IS", number),
    ))


def spent(command, folder):
    """Returns CPU seconds and peak resident bytes of a command in a folder, or `None` if it fails."""
    process = subprocess.Popen(command, cwd=folder, stdout=subprocess.DEVNULL, stderr=subprocess.DEVNULL)
    _, status, usage = os.wait4(process.pid, 0)
    process.returncode = os.waitstatus_to_exitcode(status)
    return (usage.ru_utime + usage.ru_stime, usage.ru_maxrss * 1024) if process.returncode == 0 else None


def indexing(program, work, rounds, _log):
    """Measures a directory by the number of its images, each of another patient, compared with dcmmkdir."""
    print("\nGrowth of `dcmbox index`: CPU seconds for each 1,000 images, each of a patient of its own, and peak memory")
    print("for each image above that for 1,000; compared with DCMTK's `dcmmkdir`, which is skipped if it would take hours\n")
    print("| Images | `index` | Memory | `dcmmkdir` | Memory |")
    print("|---|---|---|---|---|")
    least = {}
    for count in (1000, 4000, 20_000, 100_000):
        folder = tempfile.mkdtemp(dir=work)
        for n in range(1, count + 1):
            with open(f"{folder}/I{n:07d}", "wb") as file:
                file.write(own_patient(n))
        row = f"| {count} |"
        commands = {
            "index": [program, "index", folder, "--uid", "2.25.1", "--replace"],
            "dcmmkdir": ["dcmmkdir", "-Pgp", "+r", "+id", ".", "+D", "OTHER"],
        }
        for name, command in commands.items():
            if name == "dcmmkdir" and count > 4000:
                row += " | |"
                continue
            runs = [spent(command, folder) for _ in range(rounds if count < 20_000 else 1)]
            if None in runs:
                row += " fails | |"
                continue
            seconds = statistics.median(run[0] for run in runs)
            memory = statistics.median(run[1] for run in runs)
            least.setdefault(name, memory)
            grown = f"{(memory - least[name]) / (count - 1000):,.0f} bytes" if count > 1000 else ""
            row += f" {seconds / (count / 1e3):.3f} s | {grown or f'{memory / 2**20:.1f} MiB in all'} |"
        print(row)


def starting(program, work, rounds, log):
    """Measures the time from the start of the process to the first accepted connection."""
    times = []
    folder = tempfile.mkdtemp(dir=work)
    command = servers(program, work)["dcmbox"](folder)
    for _ in range(4 * rounds):
        started = time.monotonic()
        server = subprocess.Popen(command, stdout=log, stderr=log)
        while True:
            try:
                socket.create_connection(("127.0.0.1", PORT)).close()
                break
            except ConnectionRefusedError:
                pass
        times.append(time.monotonic() - started)
        stop(server)
    print(f"\nFrom the start to the first connection: {statistics.median(times) * 1000:.1f} ms.")


def walks(program, work, rounds, _log):
    """Measures `check` and `show` of an object of 160 MB, compared with `cat`."""
    name = f"{work}/large.dcm"
    subprocess.run([f"{work}/client", "--file", name, "large", "0"], check=True)
    costs = {}
    for command in (["cat", name], [program, "check", name], [program, "show", name]):
        runs = []
        for _ in range(rounds):
            before = resource.getrusage(resource.RUSAGE_CHILDREN)
            with open(f"{work}/copy", "wb") as out:
                subprocess.run(command, stdout=out, check=True)
            after = resource.getrusage(resource.RUSAGE_CHILDREN)
            runs.append(after.ru_utime + after.ru_stime - before.ru_utime - before.ru_stime)
        costs[command[1] if command[0] == program else "cat"] = statistics.median(runs)
    print("\nCPU time for 160 MB, compared with `cat` into a file:", end=" ")
    print(", ".join(f"`{what}` {ratio(costs[what], costs['cat'])}" for what in ("check", "show")) + ".")


def explicit(group, element, vr, value):
    return struct.pack("<HH2sH", group, element, vr, len(value)) + value


def part10(syntax, data):
    """Returns a file of a CT image with this data set."""
    meta = explicit(2, 1, b"OB", b"")[:6] + b"\0\0\2\0\0\0\0\1"
    for element, value in ((2, b"1.2.840.10008.5.1.4.1.1.2\0"), (3, b"1.2.3\0"), (0x10, syntax)):
        meta += explicit(2, element, b"UI", value)
    meta += explicit(2, 0x12, b"UI", b"1.2.3.4\0")
    return bytes(128) + b"DICM" + explicit(2, 0, b"UL", struct.pack("<L", len(meta))) + meta + data


def in_implicit(group, element, value):
    return struct.pack("<HHL", group, element, len(value)) + value


def one_sequence(count):
    """Returns a View Code Sequence of defined length, with `count` elements in items of ten."""
    texts = (0x80, 0x90, 0x1010, 0x1030, 0x103E, 0x1040, 0x1050, 0x1060, 0x1070, 0x1090)
    item = b"".join(in_implicit(8, number, b"A ") for number in texts)
    return in_implicit(0x54, 0x220, in_implicit(0xFFFE, 0xE000, item) * (count // 10))


def listing(program, work, rounds, _log):
    """Measures `show` and `show --values` of many elements, with and without a name, compared with DCMTK's dcmdump."""
    explicit_syntax, implicit_syntax = b"1.2.840.10008.1.2.1\0", b"1.2.840.10008.1.2\0"
    private = b"".join(explicit(0x0009, 0x1000 + n, b"LO", b"AB") for n in range(2000))
    known = b"".join(explicit(0x0018, 0x1000 + n, b"LO", b"AB") for n in range(2000))
    files = {
        "2,000 private tags": (explicit_syntax, private),
        "2,000 tags of group 0018": (explicit_syntax, known),
        "20,000 elements in a sequence, Implicit VR": (implicit_syntax, one_sequence(20_000)),
        "40,000 elements in a sequence, Implicit VR": (implicit_syntax, one_sequence(40_000)),
    }
    print("\nCPU milliseconds of ten runs on a file, and compared with those of `show`\n")
    print("| File | `show` | `show --values` | `check --strict` | `dcmdump` |")
    print("|---|---|---|---|---|")
    for title, (syntax, data) in files.items():
        name = f"{work}/shown.dcm"
        with open(name, "wb") as file:
            file.write(part10(syntax, data))
        costs = []
        for command in (["show"], ["show", "--values"], ["check", "--strict"], None):
            command = [program, *command, name] if command else ["dcmdump", "-q", name]
            runs = []
            for _ in range(rounds):
                before = resource.getrusage(resource.RUSAGE_CHILDREN)
                for _ in range(10):
                    subprocess.run(command, stdout=subprocess.DEVNULL, stderr=subprocess.DEVNULL)
                after = resource.getrusage(resource.RUSAGE_CHILDREN)
                runs.append(after.ru_utime + after.ru_stime - before.ru_utime - before.ru_stime)
            costs.append(statistics.median(runs))
        cells = [f"{cost * 1000:.0f} ({cost / costs[0]:.1f})" for cost in costs]
        print(f"| {title} | {' | '.join(cells)} |")


PARTS = {
    "compare": compare,
    "fragments": fragments,
    "growth": growth,
    "replies": replies,
    "fairness": fair,
    "instructions": instructions,
    "several": several,
    "groups": groups,
    "filled": filled,
    "indexing": indexing,
    "starting": starting,
    "walks": walks,
    "show": listing,
}


def main():
    parser = argparse.ArgumentParser()
    parser.add_argument("program")
    parser.add_argument("--rounds", type=int, default=5)
    parser.add_argument("--part", choices=list(PARTS))
    parser.add_argument("--beside", metavar="PROGRAM", help="another build, for the parts fairness, groups, replies and instructions")
    parser.add_argument("--draw", metavar="FOLDER")
    arguments = parser.parse_args()
    if arguments.draw and importlib.util.find_spec("matplotlib") is None:
        sys.exit("--draw needs matplotlib (Debian's python3-matplotlib)")
    program = os.path.abspath(arguments.program)
    drawings = []
    with tempfile.TemporaryDirectory() as work, open(os.devnull, "w") as log:
        compiled(work)
        for name, part in PARTS.items():
            if arguments.part in (None, name):
                others = [arguments.beside] if part in (fair, groups, replies, instructions) else []
                drawn = part(program, work, arguments.rounds, log, *others)
                if drawn:
                    drawings.append(drawn)
    if arguments.draw:
        # (only now: the peak memory of a measured process includes that of this one at its start)
        import draw
        for drawn in drawings:
            drawn(draw, arguments.draw)


if __name__ == "__main__":
    main()
