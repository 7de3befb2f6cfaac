"""Extended offset tables of encapsulated Pixel Data, by pydicom and with faults."""
import re
import struct

import pytest
from peer import CT
from samples import cases

pydicom = pytest.importorskip("pydicom", reason="make packages installs it")
from pydicom.encaps import encapsulate, encapsulate_extended  # noqa: E402

UNCOMPRESSED = "1.2.840.10008.1.2.1.98"
FRAMES = [bytes([n]) * (64 + 2 * n) for n in range(200)]
PIXELS, OFFSETS, LENGTHS = encapsulate_extended(FRAMES)


def written(path, pixels, offsets, lengths):
    """Writes an image of these frames."""
    image = pydicom.Dataset()
    image.is_little_endian, image.is_implicit_VR = True, False
    image.file_meta = pydicom.dataset.FileMetaDataset()
    image.file_meta.TransferSyntaxUID = pydicom.uid.UID(UNCOMPRESSED)
    image.SOPClassUID, image.SOPInstanceUID = CT, "2.25.1"
    image.NumberOfFrames = len(FRAMES)
    image.ExtendedOffsetTable, image.ExtendedOffsetTableLengths = offsets, lengths
    image.PixelData = pixels
    image["PixelData"].VR, image["PixelData"].is_undefined_length = "OB", True
    image.save_as(path, write_like_original=False)


@pytest.mark.parametrize(
    "notes, pixels, offsets, lengths",
    cases(
        ("of pydicom", [], PIXELS, OFFSETS, LENGTHS),
        (
            "an offset past the last fragment",
            ["7fe0,0001 OV 15 WrongOffset"],
            PIXELS,
            OFFSETS[:-8] + struct.pack("<Q", 1 << 32),
            LENGTHS,
        ),
        ("fewer lengths", ["7fe0,0002 OV 16 WrongCount"], PIXELS, OFFSETS, LENGTHS[:-8]),
        (
            "a length of two bytes more",
            ["7fe0,0002 OV 17 WrongLength"],
            PIXELS,
            OFFSETS,
            struct.pack("<Q", 66) + LENGTHS[8:],
        ),
        (
            "with a basic table",
            ["fffe,e000 -- 18 SecondTable"],
            encapsulate(FRAMES, has_bot=True),
            OFFSETS,
            LENGTHS,
        ),
    ),
)
def test_a_table(work, run, notes, pixels, offsets, lengths):
    """The file is good, with the expected notes on its tables."""
    written(work / "extended.dcm", pixels, offsets, lengths)
    lines = run("check", "--strict", "--all-syntaxes", "extended.dcm").stdout
    assert re.findall(r"^note \d+ (.* 1[5-8] .*)$", lines, re.M) == notes
    assert lines.splitlines()[-1].startswith("good ")
