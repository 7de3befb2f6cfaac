"""`arrange` and `list` while each of their system calls and allocations fails, outputs that are full, and dry runs."""
import re
import shutil
import subprocess
from collections import Counter

import pytest
from box import PATIENCE
from images import need
from samples import IMAGE
from studies import counts, image

SERIES = "P1/1.2.3/1.2.3.1"
PATH, RENAMED = f"{SERIES}/1.2.3.1.1.dcm", f"{SERIES}/1.2.3.1.1-2.dcm"
APART = "P1/1.2.3/1.2.3.20/1.2.3.1.2.dcm"
# Two images that are written in two pieces each. The folder of the second one's series is not yet in the tree, where
# other bytes have the path of the first one.
LONG = "x" * 20000
IMAGES = {"I0000001": image(comment=LONG), "I0000002": image(comment=LONG, instance="1.2.3.1.2", series="1.2.3.20")}
BEFORE = {**dict.fromkeys(("P1", "P1/1.2.3", SERIES)), PATH: b"as it was"}
WHOLE = {**BEFORE, RENAMED: IMAGES["I0000001"], "P1/1.2.3/1.2.3.20": None, APART: IMAGES["I0000002"]}

FOUR = {
    "in/I0000001": image(),
    "in/I0000002": image(instance="1.2.3.1.2", number="2"),
    "in/S0000001/I0000001": image(
        instance="1.2.3.2.1", modality="PR", description=None, series="1.2.3.20", series_number="10"
    ),
    "in/I0000003": image(
        instance="1.2.4.1.1", date="20251231", patient='P"2', study="1.2.4", series="1.2.4.1"
    ),
}
FORMS = pytest.mark.parametrize("form", [(), ("--json",)], ids=["lines", "json"])

KINDS = {
    "flock": "lock",
    "fsync": "sync",
    "getdents64": "list",
    "link": "link",
    "mkdir": "create folder",
    "read": "read",
    "rename": "rename",
    "statx": "metadata",
    "unlink": "remove",
    "write": "write",
}
NAMES = ",".join([*KINDS, "openat"])
# link(2) of a file system without hard links. The system is called, for strace, and finds no file to link.
UNLINKED = """
#define _GNU_SOURCE
#include <errno.h>
#include <sys/syscall.h>
#include <unistd.h>

int link(const char *from, const char *to) {
    syscall(SYS_link, from, "");
    if (errno == ENOENT)
        errno = EPERM;
    return -1;
}
"""
# What is printed if memory runs out: while the command line is read, and after it.
UNREAD_ARGUMENTS = r"dcmbox: (the command line can't be read: out of memory; .*|out of memory)\n"
NO_MEMORY = "dcmbox: out of memory; give the program more\n"
UNREAD = r"dcmbox: (in\S*): .*\ndcmbox: a file or a folder can't be read, as is told above\n"
NO_FOLDER = r"dcmbox: in: the folder can't be opened: .*\n"
NO_TREE = r"dcmbox: tree: (it can't be written into|a file can't be linked into it): .*\n"


def kind_of(call):
    """Returns the kind of a call in strace's line."""
    name = call.split("(")[0]
    if name != "openat":
        return KINDS[name]
    return "create" if "O_CREAT" in call else "list" if "O_DIRECTORY" in call else "open"


def is_on_folders(call, work):
    """Returns whether a call is on the folders `in` and `tree`, or on what is in them."""
    return bool(re.search(rf'"(in|tree)["/]|<{work}/', call))


def limited(size):
    """Returns a command that runs a program whose files have at most this size.

    Python ignores SIGXFSZ, and so does the program with `restore_signals=False`.
    """
    return "prlimit", f"--fsize={size}"


def contents(folder):
    """Returns the bytes of each file and `None` for each folder below a folder, by their relative paths."""
    paths = {str(path.relative_to(folder)): path for path in folder.rglob("*")}
    return {name: path.read_bytes() if path.is_file() else None for name, path in paths.items()}


@pytest.fixture
def failing(run, trace, calls, work):
    """Fails each call of a command on the folders in turn, and yields the kind of the call and what was done.

    `prepare` is called before each run; `options` are strace's.
    """

    def each(prepare, *arguments, options=()):
        options = ("-y", "-e", f"trace={NAMES}", *options)
        prepare()
        assert run(*arguments, before=trace(*options)).returncode == 0
        numbers, failures = Counter(), []
        for call in calls():
            name = call.split("(")[0]
            numbers[name] += 1
            if is_on_folders(call, work):
                failures.append((kind_of(call), f"inject={name}:error=EIO:when={numbers[name]}"))
        for kind, failure in failures:
            prepare()
            done = run(*arguments, before=trace(*options, "-e", failure))
            assert [kind_of(call) for call in calls() if call.endswith("(INJECTED)")] == [kind]
            yield kind, done

    return each


@pytest.fixture
def refused(run, refuse, work):
    """Refuses each allocation of a command in turn; yields what was done once the command line was read.

    The last run has no refusal. `prepare` is called before each run; more than `least` refusals are yielded.
    """

    def each(prepare, least, *arguments):
        count = 0
        for number in range(1, 1000):
            prepare()
            done = run(*arguments, before=refuse(number))
            if not (work / "refused.txt").stat().st_size:
                break
            assert done.returncode == 3
            if done.stderr == NO_MEMORY:
                count += 1
                yield done
            else:
                assert re.fullmatch(UNREAD_ARGUMENTS, done.stderr) and not done.stdout, done
        assert (done.returncode, done.stderr) == (0, "") and least < count
        yield done

    return each


@pytest.mark.parametrize("call", ["openat", "getdents64"])
@pytest.mark.parametrize(
    "command",
    ["index in --uid 2.25.1", "index in --uid 2.25.1 --any-name"]
    + ["list in", "arrange in --to tree", "check -r in", "show -r in"],
)
def test_a_subfolder_that_cannot_be_read(run, put, trace, calls, work, command, call):
    """The command fails, and names a folder; `index` writes no directory."""
    put({"in/I0000001": IMAGE, "in/S0000001/I0000001": IMAGE})
    paths = ("-P", "in/S0000001", "-P", "in/S0000001/")
    done = run(*command.split(), before=trace(*paths, "-e", f"trace={call}", "-e", f"inject={call}:error=EACCES"))
    assert sum("(INJECTED)" in made for made in calls()) == 1
    assert done.returncode == 3 and re.search(r"dcmbox: in\S*: the folder can't be opened", done.stderr), done
    assert not (work / "in/DICOMDIR").exists()


class TestArrange:
    """The tree that `arrange` leaves, and that the same command without a failure completes."""

    @pytest.fixture
    def fill(self, put, work):
        """Recreates the folder of the two images, and the tree."""

        def filled():
            for name in ("in", "tree"):
                shutil.rmtree(work / name, ignore_errors=True)
            put({f"in/{name}": data for name, data in IMAGES.items()})
            put({f"tree/{PATH}": BEFORE[PATH]})

        return filled

    @pytest.fixture
    def placed(self, work):
        """Returns how many of the images are in the tree; nothing else is there, and nothing was overwritten."""

        def counted(may_have_draft=False):
            tree = contents(work / "tree")
            if may_have_draft:
                tree.pop(".DRAFT", None)
            assert contents(work / "in") == IMAGES
            assert BEFORE.items() <= tree.items() <= WHOLE.items()
            return len({RENAMED, APART} & tree.keys())

        return counted

    @pytest.fixture
    def completes(self, arrange, placed):
        """Runs the command without a failure, after which both images are in the tree."""

        def completed(*options, may_have_draft=False):
            status, _, errors = arrange(*options)
            assert (status, errors, placed(may_have_draft)) == (0, "", 2)

        return completed

    @pytest.fixture
    def all_fail(self, failing, fill, placed, completes, calls):
        """Fails each call in turn, calls of the wanted kinds among them.

        All was done, or a line says that a file or a folder can't be read or, if the call was on the tree, that the
        tree can't be written.
        """

        def failed(wanted, *arguments, options=()):
            kinds = set()
            for kind, done in failing(fill, "arrange", "in", "--to", "tree", *arguments, options=options):
                kinds.add(kind)
                may_have_draft = kind == "remove"
                count = placed(may_have_draft)
                if done.returncode == 0:
                    assert (done.stderr, count) == ("", 2)
                else:
                    [call] = [call for call in calls() if call.endswith("(INJECTED)")]
                    reason = NO_TREE if re.search('["/]tree[">/]', call) else NO_FOLDER
                    assert done.returncode == 3
                    assert re.fullmatch(f"{UNREAD}|{reason}", done.stderr), (call, done.stderr)
                completes(*arguments, may_have_draft=may_have_draft)
            assert wanted <= kinds

        return failed

    def test_each_call_fails_where_files_are_linked(self, all_fail):
        all_fail({"open", "list", "metadata", "read", "link", "create folder"})

    def test_each_call_fails_where_files_are_copied(self, all_fail):
        all_fail({"lock", "create", "write", "sync", "link", "remove", "create folder"}, "--copy")

    def test_each_call_fails_where_there_are_no_links(self, all_fail, shared):
        """Copies get their paths by renames."""
        need("cc")
        library = shared("unlinked") / "unlinked.so"
        command = ["cc", "-shared", "-fPIC", "-x", "c", "-o", library, "-"]
        subprocess.run(command, input=UNLINKED, text=True, check=True, timeout=PATIENCE)
        options = ("-E", f"LD_PRELOAD={library}")
        all_fail({"lock", "write", "sync", "link", "rename"}, "--copy", options=options)

    def test_a_copy_that_is_written_in_part(self, arrange, fill, placed, completes):
        """A write takes fewer bytes than asked, and the next one fails."""
        need("prlimit")
        fill()
        status, output, errors = arrange("--copy", before=limited(10_000), restore_signals=False)
        assert (status, output, placed()) == (3, "", 0) and re.fullmatch(NO_TREE, errors), errors
        completes("--copy")

    @pytest.mark.parametrize("option", [(), ("--copy",)], ids=["linked", "copied"])
    def test_each_allocation_is_refused(self, refused, fill, placed, completes, option):
        for done in refused(fill, 10, "arrange", "in", "--to", "tree", *option):
            count = placed()
            assert done.stdout == "" if done.returncode else count == 2
            completes(*option)

    def test_a_dry_run_changes_nothing(self, arrange, put, work, trace, calls):
        """It opens files to read them, and makes no call that changes the disk."""

        def reports(action, path, line, *options):
            before = contents(work)
            done = arrange("--dry-run", *options, before=trace("-y", "-e", "trace=%file,%desc"))
            assert done == (0, f"{action}\tin/I0000001\ttree/{path}\n{line}", "")
            _, *made = (call for call in calls() if is_on_folders(call, work))  # (the first one starts the program)
            assert {call.split("(")[0] for call in made} == {"close", "getdents64", "openat", "read", "statx"}
            assert all("O_RDONLY" in call and "O_CREAT" not in call for call in made if call.startswith("openat"))
            (work / "calls.txt").unlink()
            assert contents(work) == before

        put({"in/I0000001": image()})
        reports("link", PATH, counts(1))
        reports("copy", PATH, counts(1, action="copied"), "--copy")
        assert not (work / "tree").exists()
        put({f"tree/{PATH}": b"as it was"})
        reports("rename", RENAMED, counts(renamed=1))
        put({f"tree/{PATH}": image()})
        reports("pass over", PATH, counts(passed=1))


class TestList:
    """What `list` prints of a folder with its files."""

    def test_each_call_fails(self, put, failing):
        """One line names the file or folder that can't be read, and the others are listed; or listing `in` fails."""
        put(FOUR)
        kinds = []
        for kind, done in failing(lambda: None, "list", "in", "--instances"):
            kinds.append(kind)
            assert done.returncode == 3
            if re.fullmatch(NO_FOLDER, done.stderr):
                assert done.stdout == ""
                continue
            named = re.fullmatch(UNREAD, done.stderr)[1]
            others = {name for name in FOUR if not f"{name}/".startswith(f"{named}/")}
            listed = {line.split("\t")[2] for line in done.stdout.splitlines() if line.startswith(" " * 4)}
            assert others < FOUR.keys() and (others <= listed if kind == "list" else others == listed)
        assert set(kinds) >= {"list", "metadata", "open", "read"} and 15 < len(kinds)

    @FORMS
    def test_an_output_that_is_full(self, run, put, work, trace, calls, form):
        """For each number of bytes that it has room for, it has the beginning of the whole output.

        So it is if each write is interrupted before it.
        """
        need("prlimit")
        put({"in/I0000001": image()})
        command = ("list", "in", "--instances", *form)
        whole = run(*command).stdout

        def fails(size, *before):
            with open(work / "output.txt", "wb") as output:
                done = run(*command, before=(*before, *limited(size)), stdout=output, restore_signals=False)
            full = r"dcmbox: the output can't be written: File too large .*; check that its disk has room\n"
            assert done.returncode == 3 and re.fullmatch(full, done.stderr), done.stderr
            assert (work / "output.txt").read_text() == whole[:size]

        for size in range(len(whole)):
            fails(size)
        fails(len(whole) // 2, *trace("-e", "trace=write", "-e", "inject=write:error=EINTR:when=1+2"))
        assert sum("EINTR" in call for call in calls()) > 2

    @FORMS
    def test_each_allocation_is_refused(self, run, put, refused, form):
        """The output is a beginning of the whole."""
        put(FOUR)
        command = ("list", "in", "--instances", *form)
        whole = run(*command).stdout
        for done in refused(lambda: None, 40, *command):
            assert whole.startswith(done.stdout) if done.returncode else done.stdout == whole
