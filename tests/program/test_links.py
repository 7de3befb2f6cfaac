"""A store of symbolic links, as git-annex makes it: each command says how many there are, or follows them."""
import pytest
from directories import counted, numbered
from samples import IMAGE
from studies import counts

# A command, and what it prints.
COMMANDS = f"""
list in |
show -r in |
check -r in | files 0 good 0 faulty 0 unread 0 notes 0
arrange in --to tree | {counts().strip()}
index in --uid 2.25.1 --any-name | records 0
"""


@pytest.fixture
def store(put, work):
    """A folder with links to a file and to a folder, and one to nothing."""
    put({"objects/one": IMAGE, "in/DICOMDIR": b""})
    (work / "in/DICOMDIR").unlink()
    for name, target in (("ONE", "../objects/one"), ("MORE", "../objects"), ("NONE", "../missing")):
        (work / "in" / name).symlink_to(target)
    return work / "in"


@pytest.mark.parametrize("row", COMMANDS.strip().splitlines())
@pytest.mark.usefixtures("store")
def test_links_are_counted(run, row):
    command, output = (text.strip() for text in row.split("|"))
    done = run(*command.split())
    assert (done.returncode, done.stdout.strip()) == (0, output)
    assert done.stderr.splitlines()[0] == "dcmbox: links passed over 3"


def test_links_that_are_named_like_received_files(run, put, store):
    """`index` opens them, and counts the others."""
    put(numbered(IMAGE))
    (store / "I0000001").rename(store / "../objects/two")
    (store / "I0000001").symlink_to("../objects/two")
    done = run(*"index in --uid 2.25.1".split())
    assert (done.returncode, done.stdout) == (0, "records 4\n")
    assert done.stderr == "dcmbox: links passed over 3\n" + counted(1)


def test_links_beside_files(run, put, store):
    """The files are read, and a link that is named like a draft is not told of."""
    put({"in/a": IMAGE})
    (store / "DRAFT").symlink_to("../objects/one")
    done = run("check", "-r", "in")
    assert (done.returncode, done.stderr) == (0, "dcmbox: links passed over 3\n")
    assert done.stdout.startswith("file in/a\n")


FOLLOWED = f"""
list in --follow --instances | 0 | /ONE
show -r in --follow | 0 | file in/ONE
check -r in --follow | 0 | files 1 good 1 faulty 0 unread 0 notes 0
arrange in --to tree --follow | 0 | {counts(1).strip()}
arrange in --to tree --follow --copy | 0 | {counts(1, action="copied").strip()}
index in --uid 2.25.1 --any-name --follow | 0 | records 4
"""


@pytest.mark.parametrize("row", FOLLOWED.strip().splitlines())
def test_links_are_followed(run, put, work, row):
    """A file is visited once, though three links lead to it, one of them through a loop."""
    put({"objects/one": IMAGE, "in/DRAFT": b""})
    for name, target in (("ONE", "../objects/one"), ("ZMORE", "../objects"), ("ZLOOP", "."), ("ZTWO", "ONE")):
        (work / "in" / name).symlink_to(target)
    command, status, output = (text.strip() for text in row.split("|"))
    done = run(*command.split())
    assert done.returncode == int(status) and "links" not in done.stderr, done.stderr
    assert output in done.stdout or command.startswith("list") and done.stdout.count("\n") == 3
    tree = list(work.glob("tree/**/*.dcm"))
    assert all(not path.is_symlink() and path.read_bytes() == IMAGE for path in tree)
    if "--copy" not in command:
        assert all(path.samefile(work / "objects/one") for path in tree)


@pytest.mark.parametrize("command", ["list in", "check -r in", "show -r in", "arrange in --to tree"])
def test_a_link_to_nothing(run, store, command):
    done = run(*command.split(), "--follow")
    assert done.returncode == 3
    assert "dcmbox: in/NONE: the file can't be opened: No such file or directory (os error 2); " in done.stderr
