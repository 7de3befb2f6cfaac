"""What the program says of files and folders that it can't read, and of values that are hard to see."""
import os

import pytest
from peer import element
from samples import HEADER
from studies import image

# Arguments, the subject of the message, and what it says after that: the system's error and the advice.
FOLDER = "check its name, that it is a folder, and that you may read it"
MISSING, NO_FOLDER = "No such file or directory (os error 2)", "Not a directory (os error 20)"
MESSAGES = f"""
list missing | missing | the folder can't be opened: {MISSING}; {FOLDER}
list image.dcm | image.dcm | the folder can't be opened: {NO_FOLDER}; {FOLDER}
arrange missing --to tree | missing | the folder can't be opened: {MISSING}; {FOLDER}
arrange image.dcm --to tree | image.dcm | the folder can't be opened: {NO_FOLDER}; {FOLDER}
index missing --uid 1.2 | missing | the folder can't be opened: {MISSING}; {FOLDER}
index image.dcm --uid 1.2 | image.dcm | the folder can't be opened: {NO_FOLDER}; {FOLDER}
index image.dcm --uid 1.2 --keep | image.dcm | the folder can't be opened: {NO_FOLDER}; {FOLDER}
index image.dcm --uid 1.2 --replace | image.dcm | the folder can't be opened: {NO_FOLDER}; {FOLDER}
checkdir in | in | the file can't be read: Is a directory (os error 21); give a file
replay in --out in | in | the file can't be read: Is a directory (os error 21); give a file
replay in --out missing | missing | the folder can't be opened: {MISSING}; create it, or check its name
replay in --out image.dcm | image.dcm | the folder can't be opened: {NO_FOLDER}; check that it is a folder, and that you may write into it
"""


@pytest.mark.parametrize("row", MESSAGES.strip().splitlines())
def test_messages(run, put, row):
    """A folder that is read need not be created or written into, and a folder is no sign of a failing disk."""
    put({"image.dcm": image(), "in/a": image()})
    arguments, subject, message = row.split(" | ")
    done = run(*arguments.split())
    assert (done.returncode, done.stdout, done.stderr) == (3, "", f"dcmbox: {subject}: {message}\n")


@pytest.mark.parametrize("command", ["check", "show"])
def test_a_folder_instead_of_a_file(run, put, command):
    put({"in/a": image()})
    lines = (
        "dcmbox: in: it is a folder; -r takes the files in it\n"
        "dcmbox: in: the file can't be read: Is a directory (os error 21); give a file\n"
    )
    assert run(command, "in").stderr == lines


@pytest.mark.parametrize("command", ["list in", "arrange in --to tree", "check -r in", "show -r in"])
def test_a_name_that_is_not_utf_8(run, put, work, command):
    put({"in/a": image()})
    with open(os.fsencode(work / "in") + b"/\xff", "wb") as file:
        file.write(image())
    done = run(*command.split())
    line = "dcmbox: in/?: the file can't be opened: invalid filename; its name is not UTF-8: rename it"
    assert done.returncode == 3 and done.stderr.splitlines()[0] == line


@pytest.mark.parametrize("value, shown", [(b"\0\0", "%00%00"), (b" \0", " %00"), (b"A\0", "A"), (b"  ", "")])
def test_a_value_of_zero_bytes(run, put, value, shown):
    """A text of nothing but padding is shown if it has a zero byte."""
    put({"a": HEADER + element((8, 0x70), "LO", value)})
    assert f"Manufacturer\n           = {shown}\n" in run("show", "--values", "a").stdout
    assert f'"value":"{shown}"' in run("show", "--values", "--json", "a").stdout
