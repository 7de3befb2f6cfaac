"""The tree that `arrange` makes from a folder: links, copies, names, and existing files."""
import json
import os
import pathlib
import re

import pytest
from images import need
from samples import DIRECTORY, HEADER, cases
from studies import counts, folder_of_images, image, measured, tree_of

PATH = "P1/1.2.3/1.2.3.1/1.2.3.1.1.dcm"
SECOND = "P1/1.2.3/1.2.3.1/1.2.3.1.1-2.dcm"
THIRD = "P1/1.2.3/1.2.3.1/1.2.3.1.1-3.dcm"


def test_links(arrange, put, work):
    put({"in/I0000001": image(), "in/S0000001/I0000001": image(instance="1.2.3.1.2")})
    assert arrange() == (0, counts(2), "")
    assert set(tree_of(work / "tree")) == {PATH, "P1/1.2.3/1.2.3.1/1.2.3.1.2.dcm"}
    assert (work / "tree" / PATH).samefile(work / "in/I0000001")
    assert arrange() == (0, counts(0, 2), "")


def test_a_tree_below_missing_folders(run, put, work):
    put({"in/I0000001": image()})
    assert run("arrange", "in", "--to", "a/b/c").returncode == 0
    assert (work / "a/b/c" / PATH).samefile(work / "in/I0000001")


@pytest.mark.parametrize("option", ["", "--copy"])
def test_the_same_name(arrange, put, work, option):
    """A file with other bytes gets a number, one with the same bytes is passed over, and no file is overwritten."""
    put({"in/a": image(), "in/b": image(number="2"), "in/c": image(number="3"), "in/d": image()})
    action = "copied" if option else "linked"
    assert arrange(*option.split()) == (0, counts(1, 1, 2, action=action), "")
    tree = tree_of(work / "tree")
    assert set(tree) == {PATH, SECOND, THIRD}
    assert {path.read_bytes() for path in tree.values()} == {
        image(number=number) for number in "123"
    }
    kept = {name: (path.stat().st_ino, path.read_bytes()) for name, path in tree.items()}
    assert arrange(*option.split()) == (0, counts(0, 4, action=action), "")
    put({"in/e": image(number="4")})
    assert arrange(*option.split()) == (0, counts(0, 4, 1, action=action), "")
    tree = tree_of(work / "tree")
    assert len(tree) == 4
    assert kept.items() <= {n: (p.stat().st_ino, p.read_bytes()) for n, p in tree.items()}.items()


@pytest.mark.parametrize("kind", ["file", "folder", "link", "dangling link"])
def test_a_name_that_exists_already(arrange, put, work, kind):
    put({"in/a": image(), "other": b"x"})
    path = work / "tree" / PATH
    path.parent.mkdir(parents=True)
    if kind == "file":
        path.write_bytes(b"x" * len(image()))
    elif kind == "folder":
        path.mkdir()
    else:
        path.symlink_to(work / ("other" if kind == "link" else "missing"))
    before = os.lstat(path)
    assert arrange() == (0, counts(0, 0, 1), "")
    assert (work / "tree" / SECOND).samefile(work / "in/a")
    assert os.lstat(path) == before and (work / "other").read_bytes() == b"x"


def test_names_that_exist_already(arrange, put, work):
    """Other bytes, other bytes of the same length, and a folder each keep their name; the image gets the fourth."""
    before = {PATH: b"as it was", SECOND: image()[:-1] + b"3", THIRD + "/x": b"x"}
    put({"in/a": image(), **{f"tree/{name}": data for name, data in before.items()}})
    for expected in (counts(0, 0, 1), counts(0, 1)):
        assert arrange() == (0, expected, "")
        tree = {name: path.read_bytes() for name, path in tree_of(work / "tree").items()}
        assert tree == {**before, THIRD.replace("-3", "-4"): image()}


def test_a_name_that_has_the_same_bytes_already(arrange, put, work):
    """The file is passed over, and both stay separate."""
    put({"in/a": image(), "tree/" + PATH: image()})
    assert arrange() == (0, counts(0, 1), "")
    assert list(tree_of(work / "tree")) == [PATH]
    assert not (work / "tree" / PATH).samefile(work / "in/a")


@pytest.mark.parametrize(
    "value, name",
    cases(
        ("padded", "P1 ", "P1"),
        ("zero bytes", b"P1\0\0", "P1"),
        ("a space within", "P 1", "P 1"),
        ("a slash", "../P1", "_._P1"),
        ("a dot", ".", "_"),
        ("two dots", "..", "_."),
        ("a hidden file", ".ssh", "_ssh"),
        ("dots within", "P.1.", "P.1."),
        ("empty", "", "_"),
        ("spaces", "  ", "_"),
        ("missing", None, "UNKNOWN"),
        ("control characters", b"a\n\t\x1b\x7fb", "a____b"),
        ("not ASCII", b"M\xc3\xbcller", "M__ller"),
        ("other characters", "a\\b:c*d?e\"f<g>h|i~", "a\\b:c*d?e\"f<g>h|i~"),
        ("the longest", "x" * 230, "x" * 230),
        ("too long", "x" * 232, "_"),
        ("much too long", "x" * 60000, "_"),
        ("too long with spaces", "x" + " " * 231, "_"),
        ("a hyphen", "-rf", "-rf"),
    ),
)
def test_names(arrange, put, work, value, name):
    put({"in/a": image(patient=value)})
    assert arrange() == (0, counts(1), "")
    assert set(tree_of(work / "tree")) == {PATH.replace("P1", name)}
    assert [path.name for path in (work / "tree").iterdir()] == [name]


def test_the_longest_names(arrange, put, work):
    """A number and the suffix fit after a name of 230 bytes."""
    long = "1" * 230
    put({"in/a": image(instance=long, study=long, series=long), "in/b": image(instance=long)})
    put({"in/c": image(instance=long, number="7")})
    assert arrange() == (0, counts(2, 0, 1), "")


def test_missing_values(arrange, put, work):
    put({"in/a": HEADER, "in/b": HEADER})
    assert arrange() == (0, counts(1, 1), "")
    assert set(tree_of(work / "tree")) == {"UNKNOWN/UNKNOWN/UNKNOWN/UNKNOWN.dcm"}


def test_a_dry_run(arrange, put, work):
    put({"in/a": image(), "in/b": image(number="2")})
    assert arrange("--dry-run")[0] == 0 and not (work / "tree").exists()
    os.rename(work / "in/b", work / "b")
    assert arrange("--dry-run") == (0, f"link\tin/a\ttree/{PATH}\n" + counts(1), "")
    copied = f"copy\tin/a\ttree/{PATH}\n" + counts(1, action="copied")
    assert arrange("--dry-run", "--copy") == (0, copied, "")
    arrange()
    os.rename(work / "b", work / "in/b")
    status, output, errors = arrange("--dry-run")
    assert (status, errors) == (0, "") and sorted(output.splitlines()) == [
        counts(0, 1, 1).strip(),
        f"pass over\tin/a\ttree/{PATH}",
        f"rename\tin/b\ttree/{SECOND}",
    ]
    assert set(tree_of(work / "tree")) == {PATH}


def test_a_dry_run_of_repeated_instances(arrange, put, work):
    """A dry run prints what the real run does: numbers for other bytes, and files passed over."""
    put({"in/a": image(), "in/b": image(number="2"), "in/c": image(number="3"), "in/d": image()})
    put({"in/e/a": image(instance="1.2.3.1.2"), "in/e/b": image(instance="1.2.3.1.2")})
    status, output, errors = arrange("--dry-run")
    assert (status, errors) == (0, "") and output.endswith(counts(2, 2, 2))
    planned = [line.split("\t") for line in output.splitlines()[:-1]]
    assert arrange() == (0, counts(2, 2, 2), "")
    for done, file, path in planned:
        same = (work / path).samefile(work / file)
        assert same if done in ("link", "rename") else done == "pass over"
        assert (work / path).read_bytes() == (work / file).read_bytes()
    assert {path for done, _, path in planned} == {f"tree/{name}" for name in tree_of(work / "tree")}


def test_one_object(arrange, put):
    """The JSON object has the counts, and the actions of a dry run, also if there are none."""
    quoted = 'in/a"\\\n\u00e9'
    put({quoted: image(), "in/notes.txt": b"no image"})
    action = {"action": "copy", "file": quoted, "path": f"tree/{PATH}"}
    status, output, errors = arrange("--json", "--dry-run", "--copy")
    assert status == 1 and output.count("\n") == 1 and errors.count("\n") == 1
    numbers = {"passed_over": 0, "renamed": 0, "left_out": 1}
    assert json.loads(output) == {"actions": [action], "copied": 1, **numbers}
    put({"in/b": image(), "in/c": image(number="2")})
    output = arrange("--json", "--dry-run", "--ignore-others")[1]
    actions = json.loads(output)["actions"]
    assert sorted(action["action"] for action in actions) == ["link", "pass over", "rename"]
    output = arrange("--json", "--ignore-others")[1]
    assert output == '{"linked":1,"passed_over":1,"renamed":1,"left_out":0}\n'
    (put({"none/x": b"x"})).unlink()
    none = '{"actions":[],"linked":0,"passed_over":0,"renamed":0,"left_out":0}\n'
    assert arrange("--json", "--dry-run", folder="none") == (0, none, "")
    assert arrange("--json", folder="missing")[:2] == (3, "")


def test_several_folders(run, put, work):
    """In one tree the same bytes are passed over and other bytes get a number; the tree can't be one of the folders."""
    put({"a/a": image(), "b/b": image(), "c/c": image(number="2")})
    done = run("arrange", "a", "b", "c", "--to", "b/tree")
    assert (done.returncode, done.stdout, done.stderr) == (0, counts(1, 1, 1), "")
    tree = tree_of(work / "b/tree")
    assert tree[PATH].samefile(work / "a/a") and tree[SECOND].samefile(work / "c/c")
    done = run("arrange", "b", "missing", "a", "--to", "b/tree")
    assert (done.returncode, done.stdout) == (3, counts(0, 2, left_out=1))
    assert done.stderr.startswith("dcmbox: missing: the folder can't be opened: ")
    done = run("arrange", "a", "b/.", "--to", "b")
    assert (done.returncode, done.stderr) == (2, "error: --to takes another folder than DIR\n")


def test_copies(arrange, put, work):
    put({"in/a": image(), "in/b": image(instance="1.2.3.1.2"), "tree/.DRAFT": b"what was left"})
    assert arrange("--copy") == (0, counts(2, action="copied"), "")
    tree = tree_of(work / "tree")
    assert len(tree) == 2 and tree[PATH].read_bytes() == image()
    assert not tree[PATH].samefile(work / "in/a") and tree[PATH].stat().st_nlink == 1
    assert arrange("--copy") == (0, counts(0, 2, action="copied"), "")


def test_a_draft_that_has_a_name(arrange, put, work):
    """A run that ends between naming and removing a draft leaves both names; the named file stays unchanged."""
    put({"in/a": image(), "in/b": image(instance="1.2.3.1.2"), "tree/" + PATH: image()})
    os.link(work / "tree" / PATH, work / "tree/.DRAFT")
    assert arrange("--copy") == (0, counts(1, 1, action="copied"), "")
    tree = tree_of(work / "tree")
    assert len(tree) == 2 and tree[PATH].read_bytes() == image()


def test_a_patient_with_the_name_of_a_draft(arrange, put, work):
    """The names of the program's drafts are names of patients, and a file of the user exists there."""
    for number, name in enumerate(["DRAFT", "DRAFT2", "DIRDRAFT", ".DRAFT"]):
        put({f"in/{number}": image(patient=name)})
    put({"tree/notes/DRAFT": b"of the user"})
    assert arrange("--copy") == (0, counts(4, action="copied"), "")
    folders = {name.split("/")[0] for name in tree_of(work / "tree")}
    assert folders == {"DRAFT", "DRAFT2", "DIRDRAFT", "_DRAFT", "notes"}
    assert (work / "tree/notes/DRAFT").read_bytes() == b"of the user"
    assert arrange("--copy") == (0, counts(0, 4, action="copied"), "")


def test_a_file_of_the_user_with_the_name_of_a_draft(arrange, put, work):
    put({"in/a": image(), "tree/DRAFT": b"of the user"})
    assert arrange("--copy") == (0, counts(1, action="copied"), "")
    assert (work / "tree/DRAFT").read_bytes() == b"of the user"


def test_files_that_differ_at_their_end(arrange, put, work):
    """Files of 20 KB with the same first 8 KiB and the same length."""
    long = image(comment="x" * 20000)
    put({"in/a": long, "in/b": long[:-1] + b"y", "in/c": long})
    assert arrange() == (0, counts(1, 1, 1), "")
    tree = tree_of(work / "tree")
    assert {path.read_bytes() for path in tree.values()} == {long, long[:-1] + b"y"}
    assert arrange() == (0, counts(0, 3), "")


def test_a_copy_is_whole_before_it_has_its_name(run, put, work, trace):
    put({"in/a": image()})
    options = ("--trace=openat,fsync,link,linkat,rename,unlink,unlinkat",)
    done = run("arrange", "in", "--to", "tree", "--copy", before=trace(*options))
    assert done.returncode == 0
    calls = (work / "calls.txt").read_text()
    order = r'open\w*\(.*"tree/\.DRAFT".*fsync.*link\w*\(.*"tree/\.DRAFT".*\.dcm".*unlink\w*\(.*"tree/\.DRAFT"'
    assert re.search(order, calls, re.DOTALL), calls


def test_another_file_system(run, put, work, small_disk):
    put({"in/a": image()})
    disk = small_disk("disk", "-t", "tmpfs", "-o", "size=1m", "tmpfs")
    done = run("arrange", "in", "--to", disk / "tree")
    assert done.returncode == 3 and done.stdout == ""
    assert re.fullmatch(
        r"dcmbox: .*tree: a file can't be linked into it: .*cross-device.*; .*--copy\n",
        done.stderr,
        re.IGNORECASE,
    )
    done = run("arrange", "in", "--to", disk / "tree", "--copy")
    assert (done.returncode, done.stdout) == (0, counts(1, action="copied"))
    assert (disk / "tree" / PATH).read_bytes() == image()


@pytest.mark.parametrize(
    "folder, tree, expected",
    cases(
        ("of the tree", "one", "two", counts(1, action="copied")),
        ("of the tree and a subfolder", "one", "two/tree", counts(renamed=1, action="copied")),
        ("of a file in the tree", "one/tree/P1", "two/tree", counts(renamed=1, action="copied")),
    ),
)
def test_equal_inode_numbers_of_two_file_systems(run, put, work, small_disk, folder, tree, expected):
    """They are not the same file, and not the same folder."""
    files = [f"{name}/tree/{PATH}" for name in ("one", "two")]
    for number, file in enumerate(files):
        small_disk(file[:3], "-t", "tmpfs", "tmpfs")
        put({file: image(number=str(number))})
    one, two = (os.stat(work / file) for file in files)
    assert one.st_ino == two.st_ino and one.st_dev != two.st_dev
    done = run("arrange", folder, "--to", tree, "--copy")
    assert (done.returncode, done.stdout, done.stderr) == (0, expected, "")


def test_a_disk_that_is_full(run, put, work, small_disk):
    """No partial copy gets a name."""
    put({f"in/{number}": image(instance=f"1.{number}") + bytes(200_000) for number in range(12)})
    disk = small_disk("disk", "-t", "tmpfs", "-o", "size=1m", "tmpfs")
    done = run("arrange", "in", "--to", disk / "tree", "--copy")
    assert done.returncode == 3 and "it can't be written into: " in done.stderr
    whole = {path.read_bytes() for path in (work / "in").iterdir()}
    left_out = [path.read_bytes() for path in tree_of(disk / "tree").values()]
    assert left_out and set(left_out) < whole


def test_a_tree_in_the_folder(run, put, work):
    put({"in/a": image()})
    for linked, passed in ((1, 0), (0, 1)):
        done = run("arrange", "in", "--to", "in/tree")
        assert (done.returncode, done.stdout) == (0, counts(linked, passed))
    assert (work / "in/tree" / PATH).samefile(work / "in/a")


@pytest.mark.parametrize("tree", ["in", "in/", "./in", "other/../in", "link"])
def test_the_folder_itself(expect, put, work, tree):
    put({"in/a": image(), "other/a": b""})
    (work / "link").symlink_to("in")
    expect(2, "", "error: --to takes another folder than DIR", "arrange", "in", "--to", tree)
    assert set(tree_of(work / "in")) == {"a"}


def test_files_left_out(arrange, put, work):
    put({"in/a": image(), "in/notes.txt": b"x", "in/DICOMDIR": DIRECTORY, "in/DRAFT": b"x"})
    fault = "dcmbox: in/notes.txt: left out: fault 50 NotPart10 at 128\n"
    assert arrange() == (1, counts(1, left_out=1), fault)
    assert set(tree_of(work / "tree")) == {PATH}


@pytest.mark.parametrize("folder", ["missing", "file"])
def test_no_folder(arrange, put, folder):
    put({"file": image()})
    status, output, errors = arrange(folder=folder)
    assert (status, output) == (3, "")
    assert errors.startswith(f"dcmbox: {folder}: the folder can't be opened: ")


def test_a_tree_that_is_a_file(arrange, put):
    put({"in/a": image(), "tree": b""})
    status, output, errors = arrange()
    assert (status, output) == (3, "") and errors.startswith("dcmbox: tree: it can't be written")


@pytest.mark.parametrize("options, action", [((), "linked"), (("--copy",), "copied"), (("--dry-run",), "linked")])
@pytest.mark.parametrize("name", ["P1", "P1/1.2.3", "P1/1.2.3/1.2.3.1"])
def test_a_file_instead_of_a_folder_of_the_tree(arrange, put, work, name, options, action):
    """The file is named and stays as it is; the files that need a folder there are left out, and the others placed."""
    put({"in/a": image(), "in/b": image(instance="1.2"), "in/c": image(patient="P2"), f"tree/{name}": b"x"})
    status, output, errors = arrange(*options)
    assert status == 1 and output.endswith(counts(1, left_out=2, action=action))
    reason = f"its path in the tree needs a folder where a file is: tree/{name}; "
    advice = "move that file away, or give another tree with --to"
    assert sorted(errors.splitlines()) == [f"dcmbox: in/{image}: {reason}{advice}" for image in "ab"]
    assert (work / "tree" / name).read_bytes() == b"x"


def test_a_folder_that_a_box_receives_into(run, serve, put):
    """A folder of copies has one writer; `arrange` can link the files of a running box."""
    serve()
    put({"in/a": image(), "received/I0000001": image()})
    done = run("arrange", "in", "--to", "received", "--copy")
    assert done.returncode == 3 and done.stderr.startswith("dcmbox: received: ")
    assert run("arrange", "received", "--to", "tree").stdout == counts(1)


def test_pydicoms_files(run, work):
    """Each file has the path that follows from the values that pydicom reads, and the same bytes."""
    pydicom = pytest.importorskip("pydicom", reason="make packages installs it")
    from pydicom.data import get_testdata_file

    folder = pathlib.Path(get_testdata_file("CT_small.dcm")).parent
    done = run("arrange", folder, "--to", "tree", "--copy")
    found = re.fullmatch(counts(r"(\d+)", r"(\d+)", r"(\d+)", r"(\d+)", "copied"), done.stdout)
    tree = tree_of(work / "tree")
    put, passed, renamed, left_out = map(int, found.groups())
    assert len(tree) == put + renamed > 80 and left_out == done.stderr.count(": left out: ")
    for name, path in tree.items():
        data = pydicom.dcmread(path, stop_before_pixels=True, force=True)
        keys = ("PatientID", "StudyInstanceUID", "SeriesInstanceUID", "SOPInstanceUID")
        parts = [data.get(key) if key in data else "UNKNOWN" for key in keys]
        parts = [re.sub(r"^\.|[^ -.0-~]", "_", str(part or "").rstrip()) or "_" for part in parts]
        assert re.sub(r"(-\d+)?\.dcm$", "", name) == "/".join(parts)
    sources = [path for path in folder.rglob("*") if path.is_file()]
    assert {path.read_bytes() for path in tree.values()} <= {p.read_bytes() for p in sources}


def test_20000_files(program, shared):
    """Memory does not grow with the number of files, and is less than DCMTK and pydicom need."""
    need("dcmdump")
    work = shared("many")
    folder_of_images(work / "few", 1_000)
    folder_of_images(work / "many", 20_000)
    few = measured(program, "arrange", "few", "--to", "few_tree", cwd=work)
    ours = measured(program, "arrange", "many", "--to", "tree", cwd=work)
    again = measured(program, "arrange", "many", "--to", "tree", cwd=work)
    dcmtk = measured("dcmdump", "-q", "+sd", "+r", "+P", "0020,000e", work / "many", cwd=work)
    print(f"1,000 {few}, 20,000 {ours}, again {again}, dcmdump {dcmtk}")
    assert few[0] == ours[0] == again[0] == dcmtk[0] == 0
    assert len(tree_of(work / "tree")) == 20_000
    assert max(ours[2], again[2]) <= few[2] + 1024
    assert ours[2] < dcmtk[2]
