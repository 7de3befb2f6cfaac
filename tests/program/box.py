"""The program as a server: tests start it, wait for it, read its log, and end it."""
import ctypes
import os
import pathlib
import re
import resource
import signal
import subprocess
import time

from peer import ECHO, ECHO_ANSWER, Peer
from ports import sockets

# The limit of every wait, in seconds. It is long, since a loaded machine is slow.
PATIENCE = 60
# The memory of a box in tests with little memory, in kilobytes.
LITTLE = 16384
LIBC = ctypes.CDLL(None)
PR_SET_PDEATHSIG = 1
# The state of a listening socket in /proc.
LISTEN = "0A"


def wait_for(condition, what, seconds=PATIENCE):
    """Waits until the condition is true, and returns its value."""
    end = time.monotonic() + seconds
    while True:
        found = condition()
        if found:
            return found
        if time.monotonic() > end:
            raise AssertionError(f"{what}: not within {seconds} s")
        time.sleep(0.01)


def limit_memory(kilobytes):
    """Limits the address space of this process."""
    resource.setrlimit(resource.RLIMIT_AS, (kilobytes * 1024, kilobytes * 1024))


def prepare(memory):
    """Returns a function that a process calls before it runs the program.

    The process ends when this one does, and has at most this memory, in kilobytes.
    """

    def prepared():
        LIBC.prctl(PR_SET_PDEATHSIG, signal.SIGKILL)
        if memory:
            limit_memory(memory)

    return prepared


def listeners(port):
    """Returns the addresses of the listening sockets of a port, in hexadecimal as in /proc."""
    return [address for address, used, state in sockets() if (used, state) == (port, LISTEN)]


class Box:
    """`dcmbox serve` over a folder; its log and its output are in the working folder."""

    def __init__(self, program, port, work, folder, options, *, memory=None, before=(), **keywords):
        """`memory` is in kilobytes.

        `before` is a command that runs the program, as strace; `keywords` go to Popen.
        """
        self.port, self.folder = port, pathlib.Path(work, folder)
        self.log_path, self.out_path = pathlib.Path(work, "log.txt"), pathlib.Path(work, "out.txt")
        self.folder.mkdir(exist_ok=True)
        command = [*before, program, "serve", "--port", str(port), "--out", folder, *options]
        with open(self.log_path, "wb") as log, open(self.out_path, "wb") as out:
            self.process = subprocess.Popen(
                [str(argument) for argument in command],
                cwd=work,
                stdin=subprocess.DEVNULL,
                stdout=out,
                stderr=log,
                start_new_session=True,
                preexec_fn=prepare(memory),
                **keywords,
            )

    @property
    def pid(self):
        return self.process.pid

    @property
    def log(self):
        return self.log_path.read_text(errors="replace")

    @property
    def lines(self):
        return self.log.splitlines()

    @property
    def printed(self):
        return self.out_path.read_text()

    def most_resident(self):
        """Returns the peak memory so far in kilobytes, as the kernel counts it."""
        status = pathlib.Path(f"/proc/{self.pid}/status").read_text()
        return int(re.search(r"VmHWM:\s*(\d+) kB", status)[1])

    def files(self):
        """Returns the names in the folder, in order."""
        return sorted(path.name for path in self.folder.iterdir())

    def until_listening(self):
        """Waits until the box listens on its port."""

        def is_listening():
            assert self.process.poll() is None, f"the box has ended:\n{self.log}"
            return listeners(self.port)

        wait_for(is_listening, "the box listens")
        return self

    def until_waiting(self):
        """Waits until the box sleeps in a system call, as it does until a peer connects."""
        stat = pathlib.Path(f"/proc/{self.pid}/stat")
        wait_for(lambda: stat.read_text().rsplit(")")[-1].split()[0] == "S", "the box waits")

    def until_logged(self, pattern, count=1, seconds=PATIENCE):
        """Waits until the log has the pattern `count` times."""

        def is_logged():
            return len(re.findall(pattern, self.log, re.M)) >= count

        try:
            wait_for(is_logged, f"the log has {pattern}", seconds)
        except AssertionError as late:
            raise AssertionError(f"{late}:\n{self.log}") from None

    def connect(self, address="127.0.0.1"):
        return Peer(self.port, address)

    def exchange(self, sent, size):
        """Returns the reply of the box to these bytes, at most `size` bytes."""
        with self.connect() as peer:
            return peer.exchange(sent, size)

    def answers(self, sent, expected):
        """Returns whether the reply to these bytes starts with the expected bytes."""
        return self.exchange(sent, len(expected)) == expected

    def ended(self, seconds=PATIENCE):
        """Waits until the box has ended, and returns its status."""
        try:
            return self.process.wait(seconds)
        except subprocess.TimeoutExpired:
            raise AssertionError(f"the box does not end:\n{self.log}") from None

    def stop(self, number=signal.SIGTERM):
        """Ends the box, if it runs, and the command that runs it by a signal."""
        if self.process.poll() is None:
            os.killpg(self.pid, number)
            try:
                self.process.wait(PATIENCE)
            except subprocess.TimeoutExpired:
                os.killpg(self.pid, signal.SIGKILL)
                self.process.wait()

    def echoes(self):
        """Returns whether the box replies to the recorded association with one echo."""
        return self.answers(ECHO, ECHO_ANSWER)
