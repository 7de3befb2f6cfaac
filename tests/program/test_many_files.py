"""More names in a folder, and more folders, than one call of the system returns, and files of several reads."""
import json

import pytest
from peer import element
from studies import counts, image, tree_of

FILES = 1500
FOLDERS = 1200
# Larger than the 16 MiB that a call copies at most on some systems.
LONG = 20 << 20


def numbered(path):
    """Returns as many images of one series as the path, with a number in braces, has names."""
    return lambda count: {
        path.format(number): image(instance=f"1.2.3.1.{number}", number=str(number % 9999))
        for number in range(1, count + 1)
    }


MANY = {
    "files": (numbered("in/I{:07}"), FILES),
    "other names": (numbered("in/A{}"), FILES),
    "folders": (numbered("in/F{}/I0000001"), FOLDERS),
}


@pytest.fixture(params=MANY)
def many(request, put):
    """A folder of many files, and their number."""
    files, count = MANY[request.param]
    put(files(count))
    return count


def test_each_file_is_checked(run, many):
    done = run("check", "-r", "in")
    assert done.stdout.splitlines()[-1] == f"files {many} good {many} faulty 0 unread 0 notes 0"
    assert done.stdout.count("\nfile in/") + 1 == many


def test_each_file_is_shown(run, many):
    assert run("show", "-r", "in").stdout.count("SOPInstanceUID") == many


def test_each_file_is_listed(run, many):
    (study,) = json.loads(run("list", "in", "--instances", "--json").stdout)["studies"]
    (series,) = study["series"]
    assert len({instance["instance"] for instance in series["instances"]}) == many


def test_each_file_has_its_place(arrange, many, work):
    assert arrange() == (0, counts(many), "")
    assert len(tree_of(work / "tree")) == many


def test_each_file_has_its_record(run, many):
    """The images lack keys of their records: each is skipped with its name."""
    lines = run("index", "in", "--uid", "2.25.1", "--any-name").stdout.splitlines()
    assert lines.pop() == "records 0"
    assert len({line.split()[1] for line in lines}) == len(lines) == many


def long_image(last):
    """Returns an image whose pixels are zeros but the last one."""
    return image() + element((0x7FE0, 0x10), "OB", bytes(LONG - 1) + last)


def test_a_long_file_is_copied_whole(arrange, put, work):
    put({"in/a": long_image(b"\1")})
    assert arrange("--copy") == (0, counts(1, action="copied"), "")
    (copy,) = tree_of(work / "tree").values()
    assert copy.read_bytes() == long_image(b"\1")


def test_long_files_that_differ_in_their_last_byte(arrange, put, work):
    put({"in/a": long_image(b"\1"), "in/b": long_image(b"\2")})
    for expected in (counts(1, 0, 1), counts(0, 2)):
        assert arrange() == (0, expected, "")
        assert {path.read_bytes()[-1] for path in tree_of(work / "tree").values()} == {1, 2}


def test_1010_names_that_exist_already(arrange, put, work):
    names = [f"tree/P1/1.2.3/1.2.3.1/1.2.3.1.1{number}.dcm" for number in ("", *range(-2, -1012, -1))]
    put({**dict.fromkeys(names[:-1], b"as it was"), "in/a": image()})
    assert arrange() == (0, counts(0, 0, 1), "")
    assert (work / names[-1]).read_bytes() == image()
    assert {(work / name).read_bytes() for name in names[:-1]} == {b"as it was"}


@pytest.mark.parametrize("name", ["DRAFTS", "DRAFT_1", "DRAFT1A", "DRAFT 1", "DRAFT-1"])
def test_names_that_begin_as_those_of_drafts(run, arrange, put, work, name):
    put({f"in/{name}": image(), "in/DRAFT7": image(instance="1.2.3.1.2")})
    assert run("list", "in", "--instances").stdout.count(f"in/{name}") == 1
    assert arrange() == (0, counts(1), "")
