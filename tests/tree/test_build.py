"""tools/build proves and compiles a program, keeps what later checks start from, and builds nothing that is not proved.

The tests prove two libraries and a program over them; a further library of the tree has a false contract.
"""
import contextlib
import importlib.machinery
import importlib.util
import io
import os
import pathlib
import subprocess
import tempfile
import threading
import time

import pytest
from cases import cases
from trees import ROOT, run, write

SIX = {
    "HANDLES": "Handles allowed: none.\n",
    "crates.txt": "# The lowest first.\nthree:\nsix: three\nshown may_abort=0: six\nbeside: three\n",
    "crates/three/src/lib.rt": """//! Three.
#![tactic(auto)]

ghost use Rattle.std.specs.Prelude.{◌≡◌};

/// Returns three.
pub fn three() -> u8
    ensures { result ≡ 3 }
{
    3
}
""",
    "crates/six/src/lib.rt": """//! Six.
#![tactic(auto)]

ghost use Rattle.std.specs.Prelude.{◌≡◌};

use three::three;

/// Returns six.
pub fn six() -> u8
    ensures { result ≡ 6 }
{
    three() + three()
}
""",
    "crates/shown/src/main.rt": """//! Prints six.
#![tactic(auto)]

use six::six;
use std::io;

fn main(rt: HostRuntime) -> io::Result<()> {
    let six = six();
    println!(rt; "{six}")
}
""",
    "crates/shown/stdout": "6\n",
    "crates/beside/src/lib.rt": """//! A false contract.
#![tactic(auto)]

ghost use Rattle.std.specs.Prelude.{◌≡◌};

use three::three;

/// Returns four.
pub fn four() -> u8
    ensures { result ≡ 4 }
{
    three()
}
""",
}


def proves(test):
    """Marks a test that proves crates of the shared tree; these tests run in one process."""
    return pytest.mark.proves(pytest.mark.xdist_group("build")(test))


def build(tree, *arguments, **options):
    # (pytest limits the time of a test)
    return run(ROOT, "build", *arguments, cwd=tree, timeout=None, **options)


@pytest.fixture(scope="module")
def built():
    """The tree whose program was built, the tool's status and its output."""
    with tempfile.TemporaryDirectory(prefix="dcmbox-") as folder:
        tree = pathlib.Path(folder)
        write(tree, SIX)
        yield tree, *build(tree, "shown")


@proves
def test_a_program_is_proved_and_compiled(built):
    tree, status, output = built
    # (a toolchain whose gate can prove some crates alone adds their names)
    last = output.splitlines()[-1].removesuffix(" (shown and the crates below alone: not the gate)")
    assert status == 0 and last == "3 passed, 0 failed", output
    assert subprocess.check_output([tree / "crates/shown/out/shown"]) == b"6\n"


@proves
def test_the_progress_is_reported(built):
    """Each crate waits for the one before."""
    reported = [line.partition(",")[0] for line in built[2].splitlines() if " of 3 crates" in line]
    assert reported == [f"{done} of 3 crates" for done in range(4)], built[2]


@proves
@pytest.mark.parametrize("name", ["three", "six", "shown"])
def test_each_crate_is_reported(built, name):
    proved = (f"rt: {name} proved", f"rt: {name} is kept: ")
    assert any(line.startswith(proved) for line in built[2].splitlines()), built[2]


@proves
def test_a_crate_that_the_program_does_not_depend_on_is_omitted(built):
    assert built[1] == 0 and "== beside" not in built[2], built[2]


@proves
def test_what_was_proved_is_not_proved_again(built, tool):
    status, output = build(built[0], "shown")
    assert status == 0, output
    # (a toolchain that can keep nothing reports it; one without `ci_over` keeps nothing and reports nothing)
    is_kept = hasattr(tool.toolchain(), "ci_over") and ", so nothing is kept: " not in output
    ending = " is kept: " if is_kept else " proved"
    reported = [line.split()[1] for line in output.splitlines() if line.startswith("rt: ") and ending in line]
    assert reported == ["three", "six", "shown"], output


@proves
def test_a_program_over_a_crate_that_is_not_proved_is_not_built(built):
    tree = built[0]
    program = tree / "crates/shown/out/shown"
    before = program.stat()
    source = tree / "crates/six/src/lib.rt"
    source.write_text(SIX["crates/six/src/lib.rt"].replace("+ three()", "+ 4"))
    status, output = build(tree, "shown")
    source.write_text(SIX["crates/six/src/lib.rt"])
    assert status == 1 and "rt: six NOT PROVED" in output and "logic=not-proved" in output, output
    assert "`returns` of proofs/six/Answers.antt must prove: " in output, output
    assert program.stat() == before


@proves
def test_a_library_is_built_with_what_later_checks_start_from(built):
    tree = built[0]
    status, output = build(tree, "--keep", "six")
    last = [line.split()[:2] for line in output.splitlines() if line.startswith("logic=")]
    assert status == 0 and last == [["logic=proved", "functions=1"]] * 2, output
    for name in ("three", "six"):
        assert (tree / f"crates/{name}/out/rlib/stamp").is_file()
        assert os.listdir(tree / f"crates/{name}/out/incremental")


@proves
def test_a_library_over_one_that_is_not_proved_is_not_built(built):
    tree = built[0]
    source = tree / "crates/three/src/lib.rt"
    source.write_text(SIX["crates/three/src/lib.rt"].replace("    3", "    4"))
    status, output = build(tree, "--keep", "six")
    source.write_text(SIX["crates/three/src/lib.rt"])
    assert status == 1 and "logic=not-proved" in output and "== six" not in output, output
    assert not (tree / "crates/three/out/rlib/stamp").exists()


# Arguments, and the output.
UNKNOWN = (
    ("no name", (), "there is no program\n"),
    ("two programs", ("shown", "shown"), "there is no program\n"),
    ("an unknown program", ("seven",), "there is no program seven\n"),
    ("a library instead of a program", ("six",), "there is no program six\n"),
    ("an unknown library", ("--keep", "six", "seven"), "there is no library seven\n"),
    ("a program instead of a library", ("--keep", "shown"), "there is no library shown\n"),
)


@pytest.mark.parametrize("arguments, printed", cases(*UNKNOWN))
def test_an_unknown_name_is_reported(work, arguments, printed):
    write(work, SIX)
    assert build(work, *arguments) == (2, printed)


# Arguments, and the folders and arguments of the toolchain's calls.
BY_COMMANDS = (
    ("a program", ("shown",), "shown: run -- --version\n"),
    ("libraries", ("--keep", "three", "six"), "three: lib\nsix: lib\n"),
    ("how many checks", ("--lanes",), "\n"),
)


@pytest.mark.parametrize("arguments, printed", cases(*BY_COMMANDS))
def test_another_toolchain_is_called_by_its_commands(work, arguments, printed):
    write(work, {**SIX, "bin/rt": '#!/bin/sh\necho "$(basename "$PWD"): $*"\n'})
    (work / "bin/rt").chmod(0o755)
    path = f"{work / 'bin'}{os.pathsep}{os.environ['PATH']}"
    assert build(work, *arguments, env={**os.environ, "PATH": path}) == (0, printed)


@pytest.fixture(scope="module")
def tool():
    """The tool as a module."""
    loader = importlib.machinery.SourceFileLoader("build", str(ROOT / "tools/build"))
    tool = importlib.util.module_from_spec(importlib.util.spec_from_loader("build", loader))
    loader.exec_module(tool)
    return tool


def test_a_copy_has_only_what_a_program_depends_on(tool, work, monkeypatch):
    handles = {"HANDLES": "Handles allowed: Net.\n"}
    beside = ("crates/beside/src/lib.rt", "crates/six/mutants/seven.mutant", "crates/six/out/six")
    write(work, {**SIX, **handles, **dict.fromkeys(beside, "")})
    monkeypatch.chdir(work)
    tool.copy_below(tool.toolchain(), "shown", "copy")
    found = {str(it.relative_to("copy")): it.read_text() for it in pathlib.Path("copy").rglob("*") if it.is_file()}
    expected = {file: text for file, text in SIX.items() if file not in beside}
    assert found == {**expected, **handles, "crates.txt": "three:\nsix: three\nshown may_abort=0: six\n"}


OUTPUT = "== three\nfn three::three: proved\nlogic {}\nlogic={}proved functions=1\nrt: note\n"


def test_the_output_of_a_proved_crate_is_shortened(tool):
    shown = "== three\nlogic=proved functions=1\nrt: note\n"
    assert tool.brief(OUTPUT.format("sum", "")) == shown


@pytest.mark.parametrize("output", [OUTPUT.format("sum", "not-"), "rt: three proved\n"])
def test_other_output_is_kept_whole(tool, output):
    assert tool.brief(output) == output


# The crates that are done, of 35, the seconds that are left, and the line.
PROGRESS = (
    ("minutes", 22, 1210, "22 of 35 crates, some 20 minutes left"),
    ("no whole minute", 34, 10, "34 of 35 crates, a minute left"),
    ("the end", 35, 0, "35 of 35 crates"),
)


@pytest.mark.parametrize("done, seconds, line", cases(*PROGRESS))
def test_the_progress_in_words(tool, done, seconds, line):
    assert tool.progress(done, 35, seconds) == line


class Screen(io.StringIO):
    """A terminal."""

    def isatty(self):
        return True

    def lines(self):
        """Returns the lines that are seen."""
        return [line.rsplit("\r\33[K", 1)[-1] for line in self.getvalue().split("\n")]


def report_two(tool):
    """Reports as a build does of which one crate is proved, one kept and one not proved."""
    out = tool.Brief()
    with contextlib.redirect_stdout(out):
        out.report(0, 3, 300)
        for name in ("three", "six"):
            print(OUTPUT.format("sum", ""), end="")
            print(f"rt: {name} {'is kept: ' if name == 'six' else 'proved'}")
        out.report(2, 3, 120)
        out.report(2, 3, 110)
        print("rt: shown NOT PROVED")
        out.end()
    print("2 passed, 1 failed")


def test_the_progress_on_a_terminal(tool, monkeypatch):
    """It is one line; proved crates have no other."""
    screen = Screen()
    monkeypatch.setattr("sys.stdout", screen)
    report_two(tool)
    assert screen.lines() == ["rt: shown NOT PROVED", "2 of 3 crates, some 2 minutes left", "2 passed, 1 failed", ""]


def test_the_progress_elsewhere(tool, capsys):
    """It has a line after each crate."""
    report_two(tool)
    assert capsys.readouterr().out.splitlines() == [
        "0 of 3 crates, some 5 minutes left",
        *("== three", "logic=proved functions=1", "rt: note", "rt: three proved"),
        *("== three", "logic=proved functions=1", "rt: note", "rt: six is kept: "),
        "2 of 3 crates, some 2 minutes left",
        *("rt: shown NOT PROVED", "2 passed, 1 failed"),
    ]


@pytest.fixture(scope="module")
def run_parallel(tool):
    """The tool's function that runs tasks."""
    return tool.run_parallel


# Tasks by name: the tasks that each waits for, and its seconds. The longest chain is that of `low` and `top`.
TASKS = {
    "low": ([], 1),
    "beside": ([], 5),
    "other": ([], 4),
    "top": (["low"], 9),
    "above": (["top", "other"], 1),
}


def tasks_of(call):
    return {
        key: (waits, seconds, 0, lambda results, jobs, key=key: call(key, results, jobs))
        for key, (waits, seconds) in TASKS.items()
    }


@pytest.mark.parametrize("most", [1, 2, 3, 4])
def test_a_task_receives_the_results_that_it_waits_for(run_parallel, most):
    missing = []

    def call(key, results, _jobs):
        missing.extend(it for it in TASKS[key][0] if results.get(it) != it.upper())
        return key.upper()

    assert run_parallel(tasks_of(call), most) == {key: key.upper() for key in TASKS}
    assert not missing


def test_the_longest_chain_starts_first(run_parallel):
    started = []

    def call(key, _results, _jobs):
        started.append(key)

    run_parallel(tasks_of(call), 1)
    assert started == ["low", "top", "beside", "other", "above"]


# The seconds that tasks take, in multiples of their own, and those that are left after each; the whole is 20.
PACES = (
    ("as expected", [1] * 5, [20, 19, 10, 5, 1, 0]),
    ("twice as long", [2] * 5, [20, 38, 20, 10, 2, 0]),
    ("kept by the toolchain", [0] * 5, [20, 19, 10, 5, 1, 0]),
    ("one kept, the next half as long", [0, 0.5, 0.5, 0.5, 0.5], [20, 19, 5, 2.5, 0.5, 0]),
)


@pytest.mark.parametrize("paces, expected", cases(*PACES))
def test_the_time_that_is_left(tool, monkeypatch, paces, expected):
    """It is what the other tasks take at the pace of those that ended."""
    time_now, ended, left = [0], [], []

    def call(key, _results, _jobs):
        time_now[0] += TASKS[key][1] * paces[len(ended)]
        ended.append(key)

    def report(results, seconds):
        if len(results) == len(left):
            left.append(seconds)

    monkeypatch.setattr(tool, "clock", lambda: time_now[0])
    tool.run_parallel(tasks_of(call), 1, report)
    assert left == expected


def test_the_longest_chain_may_last_longer_than_the_others(tool):
    """Its tasks have two jobs, which are 1.7 times as fast."""
    left = []
    tool.run_parallel(tasks_of(lambda *_: None), 4, lambda _results, seconds: left.append(seconds))
    assert left[0] == 11 / 1.7


@pytest.mark.parametrize("most", [1, 2, 3, 4])
def test_a_task_of_one_job_waits_for_a_lane(run_parallel, most):
    lock, used, seen = threading.Lock(), [], []

    def call(_key, _results, jobs):
        with lock:
            used.append(jobs)
            if jobs == 1:
                seen.append(sum(used))
        time.sleep(0.02)
        with lock:
            used.remove(jobs)

    run_parallel(tasks_of(call), most)
    # (with two lanes each task has both, as it is the first of the longest remaining chain)
    assert max(seen, default=0) <= most


@pytest.mark.parametrize("most, first", [(3, ["low", "beside"]), (4, ["low", "beside", "other"])])
def test_tasks_run_in_parallel(run_parallel, most, first):
    # (the barrier breaks, and its waiters fail, if not all tasks reach it in time)
    barrier = threading.Barrier(len(first), timeout=60)

    def call(key, _results, _jobs):
        if key in first:
            barrier.wait()

    assert run_parallel(tasks_of(call), most).keys() == TASKS.keys()


@pytest.mark.parametrize("most, jobs", [(1, 1), (2, 2), (3, 2), (4, 2)])
def test_the_longest_chain_has_two_jobs(run_parallel, most, jobs):
    started = {}

    def call(key, _results, jobs):
        started[key] = jobs

    run_parallel(tasks_of(call), most)
    assert started["low"] == jobs and started["top"] == jobs
    # (with two lanes `beside` comes last, and nothing waits for it)
    assert started["beside"] == 1 or most == 2
