"""Files and folders that another program removes or moves while a folder is read are skipped and counted."""
import json

import pytest
from samples import IMAGE
from studies import image

VANISHED = "dcmbox: vanished 1\n"
LOOKS = "stat,lstat,newfstatat,statx"


@pytest.fixture
def run_without(run, put, trace):
    """
    Runs a command on a folder of which one path has vanished when it is read: calls of these kinds on the path fail,
    after the first ones, which succeed.
    """
    put({f"in/I000000{n}": image(instance=f"1.2.{n}") for n in (1, 2, 3)})

    def done(command, path="in/I0000002", **first):
        failing = {LOOKS: first.pop("looks", 2), **first}
        options = [f"--trace={LOOKS},open,openat,link,linkat", "-P", path, "-P", path + "/"]
        options += [f"--inject={calls}:error=ENOENT:when={n}+" for calls, n in failing.items()]
        ran = run(*command.split(), before=trace(*options))
        lines = [line for line in ran.stderr.splitlines(keepends=True) if not line.startswith("strace: ")]
        return ran.returncode, ran.stdout, "".join(lines)

    return done


def test_list(run_without):
    status, output, errors = run_without("list in --instances")
    assert (status, errors) == (0, VANISHED)
    assert "I0000001" in output and "I0000003" in output and "I0000002" not in output


def test_a_file_that_exists(run_without, work):
    """A file that only fails to open is reported as usual."""
    status, output, errors = run_without("list in", looks=99, **{"open,openat": 1})
    assert status == 3 and output.endswith("\t2\t1.2.3\n")
    assert errors.startswith("dcmbox: in/I0000002: the file can't be opened: ")


def test_arrange(run_without, work):
    assert run_without("arrange in --to tree") == (0, "linked 2 passed over 0 renamed 0 left out 0\n", VANISHED)
    assert len(list((work / "tree").rglob("*.dcm"))) == 2


def test_arrange_as_it_links(run_without, work):
    """The file vanishes after its values were read."""
    status, output, errors = run_without("arrange in --to tree", looks=3, **{"link,linkat": 1})
    assert (status, output) == (0, "linked 2 passed over 0 renamed 0 left out 0\n")
    assert errors == VANISHED and len(list((work / "tree").rglob("*.dcm"))) == 2


def test_arrange_as_it_copies(run_without, work):
    status, output, errors = run_without("arrange in --to tree --copy", looks=3, **{"open,openat": 2})
    assert (status, output) == (0, "copied 2 passed over 0 renamed 0 left out 0\n")
    assert errors == VANISHED and len(list((work / "tree").rglob("*"))) == 5


@pytest.mark.parametrize("command", ["list in", "arrange in --to tree", "check -r in"])
def test_a_folder(run_without, put, command):
    put({"in/sub/a": image(instance="1.2.4")})
    status, output, errors = run_without(command, path="in/sub", **{"open,openat": 1})
    assert (status, errors) == (0, VANISHED) and "3" in output


def test_check(run_without):
    status, output, errors = run_without("check -r in")
    assert (status, errors) == (0, VANISHED)
    assert output.count("file ") == 2 and output.endswith("files 2 good 2 faulty 0 unread 0 notes 0\n")
    status, output, errors = run_without("check -r --json in")
    assert (status, errors) == (0, VANISHED)
    assert [json.loads(line)["file"][-1] for line in output.splitlines()] == ["1", "3"]


def test_check_of_a_named_file(run_without):
    """A missing file that is an argument is reported."""
    status, output, errors = run_without("check in/I0000001 in/I0000002", looks=1)
    assert status == 3 and "in/I0000002: the file can't be opened" in errors


def test_index(run_without, put):
    """A vanished file has its line, and is counted as left out; a folder has no line."""
    put({f"in/I000000{n}": IMAGE for n in (1, 2, 3)})
    command = "index in --uid 1.2.3"
    status, output, errors = run_without(command, looks=1, **{"open,openat": 1})
    assert (status, output) == (0, "skipped I0000002 fault 54\ndouble I0000003\nrecords 4\n")
    assert errors.endswith("images 1 left out 2\nleft out: fault 54 ReadFailed 1, doubles 1\n")
    put({"in/S0000001/I0000001": IMAGE})
    for option, looks in (("", 1), ("", 2), (" --any-name", 2)):
        result = run_without(command + option, path="in/S0000001", looks=looks, **{"open,openat": 1})
        assert result[:2] == (0, "double I0000002\ndouble I0000003\nrecords 4\n"), result
