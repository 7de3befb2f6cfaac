"""Generated files of studies, and the time and memory that a command needs."""
import pathlib
import subprocess
import tempfile

from peer import element
from samples import HEADER

ORDER = (
    ("instance", (0x08, 0x18), "UI"),
    ("date", (0x08, 0x20), "DA"),
    ("modality", (0x08, 0x60), "CS"),
    ("description", (0x08, 0x103E), "LO"),
    ("name", (0x10, 0x10), "PN"),
    ("patient", (0x10, 0x20), "LO"),
    ("study", (0x20, 0x0D), "UI"),
    ("series", (0x20, 0x0E), "UI"),
    ("series_number", (0x20, 0x11), "IS"),
    ("number", (0x20, 0x13), "IS"),
    ("comment", (0x20, 0x4000), "LT"),
)
FIRST = {
    "instance": "1.2.3.1.1",
    "date": "20260101",
    "modality": "CT",
    "description": "HEAD",
    "name": "DOE^JANE",
    "patient": "P1",
    "study": "1.2.3",
    "series": "1.2.3.1",
    "series_number": "1",
    "number": "1",
}


def padded(value, vr):
    value = value.encode("latin-1") if isinstance(value, str) else value
    return value + (b"\0" if vr == "UI" else b" ") * (len(value) % 2)


def image(**values):
    """Returns the file of the first image with other values; `None` omits an element."""
    values = {**FIRST, **values}
    return HEADER + b"".join(
        element(tag, vr, padded(values[name], vr))
        for name, tag, vr in ORDER
        if values.get(name) is not None
    )


def counts(linked=0, passed=0, renamed=0, left_out=0, action="linked"):
    """Returns the last line of `arrange`."""
    return f"{action} {linked} passed over {passed} renamed {renamed} left out {left_out}\n"


def folder_of_images(folder, count, per_series=100):
    """Writes `count` images of one study."""
    folder.mkdir(parents=True)
    comment = "x" * 2000
    for number in range(count):
        series = number // per_series + 1
        data = image(
            instance=f"1.2.3.{series}.{number + 1}",
            series=f"1.2.3.{series}",
            series_number=str(series),
            number=str(number % per_series + 1),
            comment=comment,
        )
        (folder / f"I{number + 1:07}").write_bytes(data)


def measured(*command, cwd):
    """
    Runs a command. Returns its status, its CPU seconds, and its peak memory in kilobytes.

    GNU time starts it: for the kernel the peak of a process includes that of the process that forked it,
    which would be this interpreter.
    """
    with tempfile.NamedTemporaryFile("r") as figures:
        timed = ["/usr/bin/time", "--quiet", "--format", "%U %S %M", "--output", figures.name, "--", *command]
        status = subprocess.run(
            [str(argument) for argument in timed],
            cwd=cwd,
            stdin=subprocess.DEVNULL,
            stdout=subprocess.DEVNULL,
            stderr=subprocess.DEVNULL,
        ).returncode
        user, system, peak = figures.read().split()
    return status, float(user) + float(system), int(peak)


def tree_of(folder):
    """Returns the files below a folder, by their relative paths."""
    folder = pathlib.Path(folder)
    return {
        str(path.relative_to(folder)): path for path in folder.rglob("*") if path.is_file()
    }
