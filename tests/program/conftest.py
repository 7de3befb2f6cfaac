"""Fixtures of the tests of the program."""
import functools
import pathlib
import re
import subprocess
import tempfile

import pytest
from box import LITTLE, PATIENCE, Box, prepare
from images import call, need
from ports import free_port
from samples import SAMPLES
from units import Units

ROOT = pathlib.Path(__file__).resolve().parents[2]


def pytest_addoption(parser):
    parser.addoption("--program", default=ROOT / "crates/cli/out/cli", help="the program to test")


def pytest_configure(config):
    """Makes the path of the program absolute, so that it is valid in every folder."""
    config.option.program = str(pathlib.Path(config.option.program).resolve())


@pytest.fixture(scope="session")
def program(pytestconfig):
    """The path of the program."""
    path = pathlib.Path(pytestconfig.getoption("--program"))
    assert path.is_file(), f"there is no program {path}"
    return path


@pytest.fixture(scope="session")
def shared():
    """Makes folders that several tests share; they are removed after the last test."""
    with tempfile.TemporaryDirectory(prefix="dcmbox-") as folder:

        yield lambda name: pathlib.Path(tempfile.mkdtemp(prefix=f"{name}-", dir=folder))


@pytest.fixture
def put(work):
    """Writes files into the folder by their names there, and returns the path of the last one."""

    def written(contents):
        for name, data in contents.items():
            path = work / name
            path.parent.mkdir(parents=True, exist_ok=True)
            path.write_bytes(data)
        return path

    return written


@pytest.fixture
def run(program, work):
    """Runs the program with arguments in the folder.

    `memory` is in kilobytes, `before` is a command that runs the program, and the other keywords
    are those of subprocess.run.
    """

    def done(*arguments, memory=None, before=(), text=True, **keywords):
        if "input" not in keywords:
            keywords.setdefault("stdin", subprocess.DEVNULL)
        return subprocess.run(
            [*before, program, *arguments],
            cwd=work,
            text=text,
            timeout=PATIENCE,
            preexec_fn=prepare(memory) if memory else None,
            **{"stdout": subprocess.PIPE, "stderr": subprocess.PIPE, **keywords},
        )

    return done


@pytest.fixture
def expect(run):
    """Runs the program, and asserts its status.

    The patterns have to match its whole output and its whole standard error.
    """

    def expected(status, output, errors, *arguments, **keywords):
        done = run(*arguments, **keywords)
        assert done.returncode == status, (done.stdout, done.stderr)
        assert re.fullmatch(output, done.stdout.rstrip("\n"), re.DOTALL), done.stdout
        assert re.fullmatch(errors, done.stderr.rstrip("\n"), re.DOTALL), done.stderr

    return expected


@pytest.fixture
def port():
    return free_port()


@pytest.fixture
def serve(program, port, work, small_disk):
    """Starts a box over a folder in the working folder, and waits until it listens.

    The box is ended after the test, before disks are unmounted.
    """
    boxes = []

    def started(*options, folder="received", waits=True, **keywords):
        box = Box(program, port, work, folder, options, **keywords)
        boxes.append(box)
        return box.until_listening() if waits else box

    yield started
    for box in boxes:
        box.stop()


@pytest.fixture
def serve_all_syntaxes(serve):
    """Starts a box with 16 MB of memory that accepts every transfer syntax."""
    return lambda *options: serve("--all-syntaxes", *options, memory=LITTLE)


@pytest.fixture
def small_disk(work):
    """Mounts file systems on folders of the working folder, and unmounts them after the test."""
    mounted = []

    def mount(name, *options):
        folder = work / name
        folder.mkdir(exist_ok=True)
        done = subprocess.run(
            ["mount", *options, folder], capture_output=True, text=True, timeout=PATIENCE
        )
        if done.returncode != 0:
            pytest.skip(f"mount {' '.join(map(str, options))} fails here: {done.stderr.strip()}")
        mounted.append(folder)
        return folder

    yield mount
    for folder in mounted:
        subprocess.run(["umount", folder], check=True, timeout=PATIENCE)


@pytest.fixture
def arrange(run):
    """Runs `arrange`, and returns its status, its output and its errors."""

    def arranged(*options, folder="in", **keywords):
        done = run("arrange", folder, "--to", "tree", *options, **keywords)
        return done.returncode, done.stdout, done.stderr

    return arranged


@pytest.fixture
def tool(work):
    """Runs a tool in the working folder."""
    return functools.partial(call, work)


@pytest.fixture
def to_box(port):
    """The arguments with which DCMTK's clients call the box."""
    return ["-aec", "DCMBOX", "127.0.0.1", str(port)]


@pytest.fixture(params=[(), ("--at-once", "4")], ids=["one_after_the_other", "several_at_once"])
def form(request):
    """The options of a box that serves one association at a time, and of one that serves several."""
    return request.param


@pytest.fixture
def samples(put):
    """Writes the small files and recordings into the folder."""
    put(SAMPLES)


@pytest.fixture(scope="session")
def refusing(shared):
    """The library that makes allocations of a program fail (refusing.c)."""
    need("cc")
    library = shared("refusing") / "refusing.so"
    source = pathlib.Path(__file__).with_name("refusing.c")
    command = ["cc", "-shared", "-fPIC", "-o", library, source]
    subprocess.run(command, check=True, timeout=PATIENCE)
    return library


@pytest.fixture
def refuse(refusing):
    """Returns a command that runs a program with failing allocations, noted in refused.txt."""

    def command(which):
        shell = ["sh", "-c", 'exec "$@" 9>refused.txt', "sh"]
        return [*shell, "env", f"REFUSED={which}", f"LD_PRELOAD={refusing}"]

    return command


@pytest.fixture
def trace():
    """Returns a command that runs a program under strace with these options; the calls are in calls.txt."""
    need("strace")

    def command(*options):
        return ["strace", "-qq", "-o", "calls.txt", *options]

    return command


@pytest.fixture
def calls(work):
    """The lines of calls.txt that strace wrote."""
    return lambda: (work / "calls.txt").read_text().splitlines()


@pytest.fixture
def spawn(work):
    """Starts a command in the working folder, and ends it after the test.

    Its output is in the file `log`.
    """
    processes = []

    def started(*arguments, log="output.txt", cwd=work):
        with open(work / log, "wb") as file:
            process = subprocess.Popen(
                [str(argument) for argument in arguments],
                cwd=cwd,
                stdin=subprocess.DEVNULL,
                stdout=file,
                stderr=subprocess.STDOUT,
                preexec_fn=prepare(None),
            )
        processes.append(process)
        return process

    yield started
    for process in processes:
        process.kill()
        process.wait(PATIENCE)


@pytest.fixture
def units():
    """Runs the systemd units of a root folder, and ends them after the test."""
    roots = []

    def of(root):
        roots.append(Units(root))
        return roots[-1]

    yield of
    for root in roots:
        root.stop()
