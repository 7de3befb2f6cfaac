"""Compressed images that no tool sends: fragments with faults, many and long ones, and pydicom's samples."""
import pathlib
import re
import struct
import warnings

import pytest
from box import LITTLE
from images import data_set
from peer import CT, ROOT, element
from samples import cases

try:
    import pydicom
except ImportError:
    pydicom = None

CONFORMANCE = (ROOT / "docs/CONFORMANCE.md").read_text()
TABLE = CONFORMANCE.split("made by tools/transfer-syntaxes")[1].split("end -->")[0]
KNOWN = re.findall(r"^    ([0-9.]+) +[A-Za-z0-9]+$", TABLE, re.M)
JPEG = "1.2.840.10008.1.2.4.70"
UNCOMPRESSED = "1.2.840.10008.1.2.1.98"


def fragment(content, length=None):
    """Returns a fragment, or one whose header has another length."""
    length = len(content) if length is None else length
    return bytes.fromhex("feff00e0") + struct.pack("<L", length) + content


# A CT image up to the header of its Pixel Data, of undefined length.
BEGIN = (
    element((8, 0x16), "UI", CT.encode() + b"\0")
    + element((8, 0x18), "UI", b"2.25.1")
    + b"\340\177\20\0OB\0\0\377\377\377\377"
)
TABLE_OF_NONE = fragment(b"")
DELIMITATION = bytes.fromhex("feffdde0")
END = DELIMITATION + bytes(4)
# An offset table without an offset, and a fragment that looks like a delimitation.
WHOLE = BEGIN + TABLE_OF_NONE + fragment(DELIMITATION) + END
# Two frames of four bytes.
FRAMES = BEGIN + TABLE_OF_NONE + fragment(b"abcd") + fragment(DELIMITATION) + END
FOUR_GIGABYTES = BEGIN + TABLE_OF_NONE + fragment(bytes(100000), length=(1 << 32) - 2)
# An item of 28 bytes in an Icon Image Sequence, whose Pixel Data has a longer fragment.
PAST_ITS_ITEM = (
    WHOLE[:48]
    + b"\210\0\0\2SQ\0\0\377\377\377\377"
    + fragment(BEGIN[-12:] + TABLE_OF_NONE + fragment(b"", length=100), length=28)
)


class TestFragments:
    """Fragments of an image on an association of its own."""

    @pytest.fixture
    def box(self, serve_all_syntaxes):
        return serve_all_syntaxes("--at-once", "2")

    def test_128_contexts_each_with_one_syntax_that_is_not_native(self, box):
        contexts = [(CT, KNOWN[n % len(KNOWN)]) for n in range(128)]
        with box.connect() as peer:
            accepted = [(0, syntax) for _, syntax in contexts]
            assert peer.associate(contexts) == accepted
            peer.release()
        box.until_logged("released contexts 128 of 128 ")

    @pytest.mark.parametrize("contexts", [1, 128])
    def test_one_that_looks_like_a_delimitation(self, box, contexts):
        """The context is the only one, or the last of 128."""
        with box.connect() as peer:
            assert peer.store(JPEG, CT, "2.25.1", WHOLE, contexts) == "0000"
        assert box.files() == ["I0000001"]
        assert data_set(box.folder / "I0000001") == WHOLE

    def test_uncompressed_ones(self, box, run):
        """Debian's DCMTK does not send them. `show` and `check` accept the file."""
        with box.connect() as peer:
            assert peer.store(UNCOMPRESSED, CT, "2.25.1", FRAMES) == "0000"
        path = box.folder / "I0000001"
        assert data_set(path) == FRAMES
        shown = run("show", "--all-syntaxes", path).stdout
        assert f"syntax {UNCOMPRESSED}" in shown.splitlines()
        assert len(re.findall(r" fffe,e000 -- \d+ Item$", shown, re.M)) == 3
        strict = run("check", "--strict", "--all-syntaxes", path).stdout
        assert [line for line in strict.splitlines() if " 21 MissingUid" not in line][0].startswith("good ")

    @pytest.mark.parametrize("size", [60, 66, 78, 84, 90])
    def test_truncated_uncompressed_ones(self, box, size):
        with box.connect() as peer:
            assert peer.store(UNCOMPRESSED, CT, "2.25.1", FRAMES[:size]) == "C000"
        assert box.files() == []

    @pytest.mark.parametrize(
        "fault, data",
        cases(
            *((f"cut after {size} bytes", 20, WHOLE[:size]) for size in (60, 66, 72, 76)),
            ("one that claims 4 GB", 20, FOUR_GIGABYTES),
            (
                "one of undefined length",
                14,
                BEGIN + TABLE_OF_NONE + fragment(b"", length=(1 << 32) - 1),
            ),
            ("one of odd length", 11, BEGIN + TABLE_OF_NONE + fragment(b"abc") + END),
            (
                "an element instead of it",
                15,
                BEGIN + TABLE_OF_NONE + b"\340\177\21\0\0\0\0\0" + END,
            ),
            (
                "a delimitation of two bytes",
                16,
                BEGIN + TABLE_OF_NONE + DELIMITATION + b"\2\0\0\0ab",
            ),
            ("one past the end of its item", 17, PAST_ITS_ITEM),
        ),
    )
    def test_with_a_fault(self, box, fault, data):
        """No file remains, the log names the fault, and the box replies to an echo."""
        with box.connect() as peer:
            assert peer.store(JPEG, CT, "2.25.1", data) == "C000"
        assert box.echoes()
        assert box.files() == []
        box.until_logged(f" status C000 fault {fault} ")

    def test_a_peer_that_closes_within_one(self, box):
        with box.connect() as peer:
            assert peer.associate([(CT, JPEG)]) == [(0, JPEG)]
            peer.send_store(1, CT, "2.25.1", FOUR_GIGABYTES, is_whole=False)
        box.until_logged("dropped 1 .* closed by the peer")
        assert box.files() == []

    def test_one_that_claims_more_than_the_limit(self, serve_all_syntaxes):
        box = serve_all_syntaxes("--max-data", "1024")
        with box.connect() as peer:
            assert peer.store(JPEG, CT, "2.25.1", FOUR_GIGABYTES) == "A700"
        assert box.files() == []

    @pytest.mark.parametrize(
        "fragments",
        cases(
            ("a million without a byte", TABLE_OF_NONE * (2 + (1 << 20))),
            ("one of 64 MiB", TABLE_OF_NONE + fragment(bytes(64 << 20))),
        ),
    )
    def test_many_or_long(self, serve_all_syntaxes, fragments):
        """Many or long fragments are filed bit for bit, in 16 MB of memory."""
        box, data = serve_all_syntaxes(), BEGIN + fragments + END
        with box.connect() as peer:
            assert peer.store(JPEG, CT, "2.25.1", data) == "0000"
        assert data_set(box.folder / "I0000001") == data


def samples_of_pydicom():
    """Returns the compressed images of pydicom that have a SOP Class UID and explicit VRs."""
    folder = pathlib.Path(pydicom.__file__).parent / "data/test_files"
    for path in sorted(folder.glob("*.dcm")):
        try:
            image = pydicom.dcmread(path, specific_tags=["SOPClassUID", "SOPInstanceUID"])
        except pydicom.errors.InvalidDicomError:
            continue
        is_compressed = image.file_meta.get("TransferSyntaxUID") in KNOWN
        if is_compressed and image.get("SOPClassUID") and data_set(path)[4:6].isalpha():
            yield pytest.param(path, image, id=path.name)


with warnings.catch_warnings():
    warnings.simplefilter("ignore")
    SAMPLES = list(samples_of_pydicom()) if pydicom else []


def test_there_are_samples():
    if pydicom is None:
        pytest.skip("there is no pydicom: make packages installs it")
    assert len(SAMPLES) > 20


@pytest.mark.parametrize("path, image", SAMPLES)
def test_a_sample_of_pydicom(serve_all_syntaxes, path, image):
    """A sample is filed bit for bit."""
    box, syntax = serve_all_syntaxes("--all-storage"), image.file_meta.TransferSyntaxUID
    data = data_set(path)
    with box.connect() as peer:
        status = peer.store(syntax, image.SOPClassUID, image.get("SOPInstanceUID", ""), data)
    assert status == "0000"
    assert data_set(box.folder / "I0000001") == data


def test_without_the_option_the_context_is_refused(serve):
    """The reason is the transfer syntax."""
    with serve(memory=LITTLE).connect() as peer:
        assert peer.store(JPEG, CT, "2.25.1", WHOLE) == "result 4"
