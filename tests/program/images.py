"""DICOM files that DCMTK's tools make from text, and the contents of received files."""
import hashlib
import pathlib
import re
import shutil
import struct
import subprocess

import pytest

# The time limit of a tool in seconds.
TOOL_PATIENCE = 180


def need(*tools):
    """Skips the test if a tool is missing."""
    for tool in tools:
        if not shutil.which(tool):
            pytest.skip(f"there is no {tool}: make packages installs it")


def call(work, tool, *arguments, check=True):
    """Runs a tool in a folder."""
    need(tool)
    done = subprocess.run(
        [tool, *map(str, arguments)],
        cwd=work,
        stdin=subprocess.DEVNULL,
        capture_output=True,
        text=True,
        errors="replace",
        timeout=TOOL_PATIENCE,
    )
    assert not check or done.returncode == 0, (done.args, done.stdout, done.stderr)
    return done


def dumped(work, name, text, *options):
    """Makes a DICOM file from dump2dcm's text, by default in Explicit VR Little Endian."""
    source = pathlib.Path(work, f"{name}.txt")
    source.write_text(text)
    call(work, "dump2dcm", "-q", *(options or ("+te",)), source.name, f"{name}.dcm")
    return pathlib.Path(work, f"{name}.dcm")


def identity(sop_class="CTImageStorage", instance="2.25.1.1", modality="CT", series="2.25.3.1"):
    """Returns the identifying elements of an image in dump2dcm's text."""
    return f"""(0008,0016) UI ={sop_class}
(0008,0018) UI [{instance}]
(0008,0060) CS [{modality}]
(0010,0010) PN [DOE^JOHN]
(0010,0020) LO [P1]
(0020,000d) UI [2.25.2.1]
(0020,000e) UI [{series}]
"""


def study(number):
    """Returns the date, the time and the numbers of an image in dump2dcm's text."""
    return f"""(0008,0020) DA [20260101]
(0008,0030) TM [120000]
(0008,0050) SH [A1]
(0020,0010) SH [S1]
(0020,0011) IS [{number}]
(0020,0013) IS [{number}]
"""


def pixels(file, rows=16, columns=16, bits=8, vr="OW"):
    """Returns a grayscale image, whose pixels are in a file, in dump2dcm's text."""
    return f"""(0028,0002) US 1
(0028,0004) CS [MONOCHROME2]
(0028,0010) US {rows}
(0028,0011) US {columns}
(0028,0100) US {16 if bits > 8 else 8}
(0028,0101) US {bits}
(0028,0102) US {bits - 1}
(0028,0103) US 0
(7fe0,0010) {vr} ={file}
"""


def data_set(path):
    """Returns the data set of a file: the bytes after its file meta information."""
    data = pathlib.Path(path).read_bytes()
    return data[144 + struct.unpack("<L", data[140:144])[0] :]


def digests(paths):
    """Returns the digests of the data sets of files, in order."""
    return sorted(hashlib.sha256(data_set(path)).hexdigest() for path in paths)


def filed(folder):
    """Returns the files that a box filed below a folder."""
    found = pathlib.Path(folder).rglob("I[0-9]*")
    return sorted(path for path in found if path.is_file())


def has_all(folder, sent):
    """Returns whether a folder has each sent data set once; DCMTK has to read each file."""
    files = filed(folder)
    if files:
        tested = call(folder, "dcmftest", *files, check=False).stdout.splitlines()
        assert len(tested) == len(files) and all(line.startswith("yes: ") for line in tested)
        call(folder, "dcmdump", "-q", *files)
    return digests(files) == digests(sent)


def element_of(tag, path):
    """Returns the UID that is the first value of an element of a file, or an empty text."""
    dump = call(path.parent, "dcmdump", "-q", "-Un", "+P", tag, path, check=False).stdout
    found = re.search(r"\[(.*)\]", dump)
    return found[1] if found else ""


def syntax_of(path):
    """Returns the transfer syntax of a file."""
    return element_of("0002,0010", path)
