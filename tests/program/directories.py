"""Images of a folder, and what `index` reports and `checkdir` lists for its directory (DICOMDIR)."""
from samples import IMAGE, changed

# Two images of a series, an image of another series of the same study, and a further image of the first series without
# Study ID.
FIRST = IMAGE
SECOND = changed(changed(IMAGE, 208, b"2"), 428, b"2")
THIRD = changed(changed(IMAGE, 206, b"2"), 398, b"2")
UNIDENTIFIED = changed(IMAGE, 208, b"3")[:400] + IMAGE[410:]
# The records of an image: offset, level, type, and the file, if any.
UPPER = ((320, 1, "PATIENT", ""), (404, 2, "STUDY", ""), (534, 3, "SERIES", ""))


def numbered(*images, folder="in"):
    """Returns these images by their names in the folder."""
    return {f"{folder}/I{number:07}": image for number, image in enumerate(images, 1)}


def listed(*records):
    """Returns what `checkdir` prints for a directory of these records."""
    lines = [f"{offset:010} {'  ' * (level - 1)}{kind} {file}".rstrip() for offset, level, kind, file in records]
    return "\n".join([*lines, f"records {len(records)}\n"])


def counted(images, left_out=0, why=""):
    """Returns the last lines of standard error: how many images are listed and files left out, and why."""
    return f"images {images} left out {left_out}\n" + (f"left out: {why}\n" if why else "")


def image(offset, file):
    """Returns the record of an image."""
    return offset, 4, "IMAGE", file


def reported(done):
    """Returns the lines of the program on standard error, without those of strace."""
    return "".join(line for line in done.stderr.splitlines(keepends=True) if not line.startswith("strace: "))
