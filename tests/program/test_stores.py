"""Recorded stores, the folders that they fill, and folders that can't be written."""
import os
import subprocess

import pytest
from box import PATIENCE
from peer import ROOT
from samples import CT_FILE

pytestmark = pytest.mark.usefixtures("samples")
STORES_LINES = (ROOT / "tests/expected/two_stores.txt").read_text().rstrip("\n")


def tree(folder):
    """Returns the files below a folder, by their relative paths."""
    paths = [path for path in folder.rglob("*") if path.is_file()]
    return {str(path.relative_to(folder)): path.read_bytes() for path in paths}


@pytest.fixture
def replay(expect, work):
    """Replays the two stores into a new folder with these options, and returns its files."""

    def done(folder, *options):
        (work / folder).mkdir(parents=True)
        expect(0, STORES_LINES, "", "replay", "stores.bin", "--out", folder, *options)
        return tree(work / folder)

    return done


def test_two_stores(replay):
    """The files differ in the instance."""
    second = CT_FILE.replace(b"1.2.3\0", b"1.2.4\0")
    assert replay("flat") == {"I0000001": CT_FILE, "I0000002": second}


def test_folders_of_one_file_each(replay):
    flat = replay("flat")
    assert replay("levels", "--per", "1", "--cut", "1") == {
        "S0000001/I0000001": flat["I0000001"],
        "S0000002/I0000001": flat["I0000002"],
    }


@pytest.mark.parametrize(
    "command, removes",
    [
        (("replay", "stores.bin", "--out"), True),
        (("check", "-r"), False),
        (("list",), False),
        (("arrange", "--to", "tree"), False),
        (("index", "--new-uid"), False),
    ],
    ids=lambda value: value[0] if isinstance(value, tuple) else None,
)
def test_files_with_the_names_of_drafts(run, put, work, command, removes):
    """Such files are removed when a folder is opened for writing, whoever made them."""
    put({"in/DRAFT": b"x", "in/DRAFT07": b"x", "in/DRAFTS": b"x"})
    run(*command, "in")
    names = {name for name in os.listdir(work / "in") if name.startswith("DRAFT")}
    assert names == ({"DRAFTS"} if removes else {"DRAFT", "DRAFT07", "DRAFTS"})


def mount_without_links(folder, image):
    """Mounts exFAT by the kernel or by FUSE, or vfat by the kernel.

    Returns the device, or the error.
    """
    status = "there is no mkfs.exfat and no mkfs.vfat"
    for tool, mount in (
        ("mkfs.exfat", "mount"),
        ("mkfs.exfat", "mount.exfat-fuse"),
        ("mkfs.vfat", "mount"),
    ):
        image.write_bytes(b"")
        os.truncate(image, 8 << 20)
        device = None
        try:
            call(tool, image)
            device = call("losetup", "-f", "--show", image).strip()
            call(mount, device, folder)
            return device, None
        except (OSError, subprocess.CalledProcessError) as refused:
            status = getattr(refused, "stderr", None) or str(refused)
            if device:
                call("losetup", "-d", device)
    return None, status


def call(*arguments):
    """Returns the output of a command."""
    done = subprocess.run(arguments, capture_output=True, text=True, check=True, timeout=PATIENCE)
    return done.stdout


@pytest.fixture
def without_links(work):
    """The name of a folder on a file system without hard links."""
    folder = work / "without_links"
    folder.mkdir()
    device, refused = mount_without_links(folder, work / "disk.img")
    if refused:
        pytest.skip(f"no exFAT or vfat can be mounted here: {refused.strip()}")
    yield folder.name
    call("umount", folder)
    call("losetup", "-d", device)


def test_a_file_system_without_hard_links(without_links, work):
    one = work / without_links / "one"
    one.touch()
    with pytest.raises(OSError):
        os.link(one, one.with_name("two"))


@pytest.mark.parametrize("options", [(), ("--per", "1")], ids=["flat", "folders_of_one_file_each"])
def test_two_stores_without_hard_links(replay, without_links, options):
    assert replay(f"{without_links}/stored", *options) == replay("stored", *options)


def test_a_folder_of_a_read_only_disk(expect, small_disk, port):
    """A box does not start with a folder that can't be written."""
    fixed = small_disk("fixed", "-t", "tmpfs", "tmpfs")
    call("mount", "-o", "remount,ro", fixed)
    refused = "the folder can't be (opened|written into): Read-only file system .*; check that .*"
    expect(3, "", f"dcmbox: fixed: {refused}", "serve", "--port", str(port), "--out", "fixed")


def test_the_folder_of_a_box_is_empty_at_first(serve):
    """The test of whether the folder can be written leaves no file."""
    box = serve()
    box.until_logged("listening on")
    assert box.files() == []
