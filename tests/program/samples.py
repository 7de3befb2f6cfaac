"""Small files and recordings for the program, and its listings of them."""
from cases import cases as cases  # (tests import it from here)
from peer import CT, ECHO, RELEASE, STORES, element, from_hex, values


def changed(data, offset, new):
    """Returns the bytes with other bytes at an offset."""
    return data[:offset] + new + data[offset + len(new) :]


# A CT image of two elements, 336 bytes long, whose data set begins at byte 288.
CT_FILE = from_hex("tests/data/ct_image.hex")
HEADER = CT_FILE[:288]
# The directory of one image, 788 bytes long; and that image, whose series ends at byte 399 and its
# number at 429.
DIRECTORY = from_hex("tests/data/directory.hex")
IMAGE = from_hex("tests/data/image.hex")
SAMPLES = {
    "ct.dcm": CT_FILE,
    "cut.dcm": CT_FILE[:330],
    "header.dcm": HEADER,
    # A code that breaks the rules of its VR, and a private element with control characters.
    "control.dcm": HEADER
    + element((8, 0x60), "CS", b"c\33[m")
    + element((9, 0x1001), "LT", b"\33[2J"),
    # Another transfer syntax: Explicit VR Big Endian.
    "big.dcm": changed(CT_FILE, 232, b"2"),
    "empty.bin": b"",
    "text.bin": b"GET / HTTP/1.0\r\n\r\n",
    "echo.bin": ECHO,
    "cut_echo.bin": ECHO[:200],
    # The peer accepts P-DATA-TF PDUs of eight bytes.
    "eights.bin": changed(ECHO, 157, b"\0\0\0\10"),
    "stores.bin": STORES,
    "directory.bin": DIRECTORY,
    "cut_directory.bin": DIRECTORY[:710],
    "image.dcm": IMAGE,
}
SHOWN = f"class {CT}\ninstance 1.2.3\nsyntax 1.2.840.10008.1.2.1\n"
ELEMENTS = "0000000288 0008,0016 UI 26 SOPClassUID\n0000000322 0008,0018 UI 6 SOPInstanceUID\n"
CUT_FAULT = "fault 20 Truncated at 330 tag 0008,0018"


def many_items():
    """Returns a CT image with one element, a sequence of 32,768 empty items: a listing of 1.4 MB."""
    items = bytes.fromhex("feff00e000000000") * (1 << 15)
    end = bytes.fromhex("feffdde000000000")
    return HEADER + b"\10\0\100\21SQ\0\0\377\377\377\377" + items + end


class LargeStore:
    """The first of the two stores, with Pixel Data of `size` zeros, on an association of its own.

    It has the bytes up to the first pixel, P-DATA-TF PDUs of 16,384 bytes, the last PDU, and the
    expected file.
    """

    def __init__(self, size):
        pixels = b"\340\177\20\0OW\0\0" + size.to_bytes(4, "little")
        whole, rest = divmod(size, 16372)
        self.opening = STORES[:292] + values(1, 0, STORES[304:352] + pixels)
        self.middle = values(1, 0, bytes(16372)) * whole
        self.last = values(1, 2, bytes(rest)) + RELEASE
        self.file = CT_FILE + pixels + bytes(size)
        # The sizes of the file before its pixels, and before the last PDU.
        self.opened, self.filled = 348, 348 + 16372 * whole
