"""Compressed images of DCMTK's and GDCM's tools.

They are filed as received, with the transfer syntax of their context, also if an archive forwards
them, and can be decoded to their pixels.
"""
import random
import re

import pytest
from box import LITTLE
from images import call, data_set, dumped, filed, has_all, identity, need, pixels, study, syntax_of
from orthanc import Orthanc
from peer import EXPLICIT, ROOT

# An encoded image: the tool and its options, the image, the option with which storescu proposes the
# transfer syntax, the tool that decodes it, and whether it is lossless.
ENCODED = {
    "sv1": ("dcmcjpeg -q +e1", "words", "-xs", "dcmdjpeg", True),
    "lossless": ("dcmcjpeg -q +el", "words", None, "dcmdjpeg", True),
    "baseline": ("dcmcjpeg -q +eb", "bytes", "-xy", "dcmdjpeg", False),
    "extended": ("dcmcjpeg -q +ee", "words", "-xx", "dcmdjpeg", False),
    "jpegls": ("dcmcjpls -q +el", "words", "-xt", "dcmdjpls", True),
    "near": ("dcmcjpls -q +en", "words", "-xu", "dcmdjpls", False),
    "rle": ("dcmcrle -q", "words", "-xr", "dcmdrle", True),
    "j2k": ("gdcmconv --j2k", "words", "-xv", "gdcmconv", True),
    "j2k_lossy": ("gdcmconv --j2k --lossy", "bytes", "-xw", "gdcmconv", False),
    "frames_rle": ("dcmcrle -q", "frames", "-xr", "dcmdrle", True),
    "frames_jpegls": ("dcmcjpls -q +el +fs 1", "frames", "-xt", "dcmdjpls", True),
    "no_table": ("dcmcrle -q -ot", "words", "-xr", "dcmdrle", True),
    "fragments": ("dcmcjpls -q +el +fs 1", "words", "-xt", "dcmdjpls", True),
}
PROPOSED = [name for name, (_, _, option, *_) in ENCODED.items() if option]
RLE = "1.2.840.10008.1.2.5"


def ramps():
    """Returns ramps with noise: an image of 12 bits, one of 8, and 200 frames of 12 bits."""
    noise = random.Random(1)
    words = [n // 32 + noise.randrange(64) for n in range(256 * 256)]
    frames = [n % 3840 + noise.randrange(64) for n in range(200 * 32 * 32)]
    return {
        "bytes": bytes(word // 16 for word in words),
        "words": b"".join(word.to_bytes(2, "little") for word in words),
        "frames": b"".join(word.to_bytes(2, "little") for word in frames),
    }


@pytest.fixture(scope="session")
def encoded(shared):
    """A folder with the images, their pixels, and each of ENCODED."""
    work = shared("compressed")
    for name, raw in ramps().items():
        (work / f"{name}.raw").write_bytes(raw)
    images = {
        "words": ("CTImageStorage", 1, "", pixels("words.raw", 256, 256, bits=12)),
        "bytes": (
            "SecondaryCaptureImageStorage",
            2,
            "",
            pixels("bytes.raw", 256, 256, bits=8, vr="OB"),
        ),
        "frames": (
            "EnhancedCTImageStorage",
            3,
            "(0028,0008) IS [200]\n",
            pixels("frames.raw", 32, 32, bits=12),
        ),
    }
    for name, (sop_class, number, more, image) in images.items():
        dumped(work, name, identity(sop_class, f"2.25.1.{number}") + study(number) + more + image)
    for name, (command, image, *_) in ENCODED.items():
        tool, *options = command.split()
        call(work, tool, *options, f"{image}.dcm", f"{name}.dcm")
    call(work, "dcmconv", "-q", "j2k_lossy.dcm", "of_gdcm.dcm")
    (work / "of_gdcm.dcm").rename(work / "j2k_lossy.dcm")
    return work


@pytest.fixture
def send(tool, to_box, encoded):
    """Sends an encoded image in its transfer syntax, by storescu or, if it has no option for it, dcmsend."""

    def sent(name, check=True):
        option, path = ENCODED[name][2], encoded / f"{name}.dcm"
        if option:
            return tool("storescu", option, *to_box, path, check=check)
        return tool("dcmsend", "-dn", *to_box, path, check=check)

    return sent


@pytest.fixture
def path(serve_all_syntaxes, send, name):
    """The path of the received file of an encoded image."""
    box = serve_all_syntaxes()
    send(name)
    return box.folder / "I0000001"


@pytest.mark.parametrize("name", ENCODED)
class TestFiled:
    """An encoded image that was sent."""

    def test_bit_for_bit(self, path, encoded, name):
        """Its header names the transfer syntax."""
        assert has_all(path.parent, [encoded / f"{name}.dcm"])
        assert syntax_of(path) == syntax_of(encoded / f"{name}.dcm")

    def test_decoded_to_its_pixels(self, path, encoded, work, name):
        """A lossless image is decoded to the original pixels, a lossy one to those of the sent file."""
        _, image, _, tool, is_exact = ENCODED[name]
        options = ["--raw"] if tool == "gdcmconv" else ["-q"]
        call(work, tool, *options, path, "decoded.dcm")
        call(work, tool, *options, encoded / f"{name}.dcm", "again.dcm")
        assert data_set(work / "decoded.dcm") == data_set(work / "again.dcm")
        if is_exact:
            raw = (encoded / f"{image}.raw").read_bytes()
            assert data_set(work / "decoded.dcm").endswith(raw)

    def test_checked(self, path, run):
        """With the option `check` accepts the file, without notes 15 to 18 on its tables; without it the file is refused."""
        strict = run("check", "--strict", "--all-syntaxes", path)
        assert re.search("^good ", strict.stdout, re.M)
        assert not re.search(" 1[5-8] [A-Za-z]+$", strict.stdout, re.M)
        assert run("check", path).returncode != 0


# For JPEG-LS of several frames pydicom gets other pixels from GDCM.
@pytest.mark.parametrize("name", [name for name in ENCODED if name != "frames_jpegls"])
def test_decoded_by_pydicom(path, encoded, name):
    for module in ("numpy", "gdcm", "PIL"):
        pytest.importorskip(module, reason="make packages installs it")
    pydicom = pytest.importorskip("pydicom", reason="make packages installs it")
    _, image, _, _, is_exact = ENCODED[name]
    found = pydicom.dcmread(path).pixel_array
    if is_exact:
        assert found.tobytes() == (encoded / f"{image}.raw").read_bytes()
    else:
        sent = pydicom.dcmread(encoded / f"{name}.dcm").pixel_array
        assert found.std() > 1 and (found == sent).all()


def test_all_on_one_association(serve_all_syntaxes, tool, to_box, encoded):
    paths = [encoded / f"{name}.dcm" for name in ENCODED]
    box = serve_all_syntaxes("--at-once", "4")
    tool("dcmsend", "-dn", *to_box, *paths)
    assert has_all(box.folder, paths)


@pytest.mark.parametrize("option, expected", [((), EXPLICIT), (("-dn",), RLE)])
def test_a_native_syntax_in_the_same_context_wins(serve_all_syntaxes, tool, to_box, encoded, option, expected):
    """As README says, the image is filed as sent only if its context proposes no native transfer syntax."""
    readme = " ".join((ROOT / "README.md").read_text().split())
    assert "if a context proposes a native transfer syntax, too, that is accepted" in readme
    assert "the sender decompresses: `dcmsend` without `-dn` does" in readme
    box = serve_all_syntaxes()
    tool("dcmsend", *option, *to_box, encoded / "rle.dcm")
    (path,) = filed(box.folder)
    assert syntax_of(path) == expected
    assert (data_set(path) == data_set(encoded / "rle.dcm")) == bool(option)


def test_an_archive_forwards_them(serve_all_syntaxes, spawn, work, port, encoded):
    """Each image is forwarded in its own transfer syntax."""
    need("Orthanc")
    box = serve_all_syntaxes("--at-once", "4")
    archive, paths = Orthanc(work, port, spawn), [encoded / f"{name}.dcm" for name in ENCODED]
    assert {path.stem: archive.forward(path) for path in paths} == dict.fromkeys(ENCODED, 0)
    assert has_all(box.folder, paths)


class TestShow:
    """The listing of fragments by `show`."""

    @pytest.fixture
    def shown(self, run, encoded):
        words = ("show", "--all-syntaxes", "--values")
        return lambda name: run(*words, encoded / f"{name}.dcm").stdout

    def test_the_offset_table_and_200_fragments(self, shown):
        text = shown("frames_rle")
        assert len(re.findall(r" fffe,e000 -- \d* Item$", text, re.M)) == 201
        assert re.search("^ *= 200$", text, re.M)
        assert re.search(r"^ *= \(800 bytes\)$", text, re.M)

    def test_the_offset_of_a_frame(self, shown):
        assert re.search(r" fffe,e000 -- 4 Item\n *= 0$", shown("rle"), re.M)


class TestIndex:
    """The directory of compressed images of four instances."""

    @pytest.fixture
    def index(self, serve_all_syntaxes, send, run):
        """Indexes the folder of the images with these options.

        Returns the counts of images and of those left out, and the lines.
        """
        box = serve_all_syntaxes()
        for name in ("sv1", "baseline", "frames_rle", "near"):
            send(name)
        box.stop()

        def indexed(*options):
            done = run("index", "--uid", "2.25.4.1", *options, "received")
            assert done.returncode == 0
            return done.stderr.strip(), done.stdout.splitlines()

        return indexed

    def test_skips_each_without_the_option(self, index):
        skipped = [f"skipped I000000{n} fault 53" for n in range(1, 5)]
        counts, lines = index()
        assert counts == "images 0 left out 4\nleft out: fault 53 OtherSyntax 4 (taken with --all-syntaxes)"
        assert set(skipped) <= set(lines)

    def test_lists_each_with_its_transfer_syntax(self, index, run, work):
        """`checkdir` accepts the directory, and its images are kept."""
        assert index("--all-syntaxes")[0] == "images 4 left out 0"
        folder = work / "received"
        dump = call(folder, "dcmdump", "-q", "-Un", "+P", "0004,1512", "DICOMDIR").stdout
        assert re.findall(r"\[(.*)\]", dump) == [syntax_of(path) for path in filed(folder)]
        done = run("checkdir", "received/DICOMDIR")
        assert done.returncode == 0 and done.stdout.splitlines()[-1] == "records 7"
        assert index("--all-syntaxes", "--keep")[0] == "images 4 left out 0"


class TestWithoutTheOption:
    """Compressed images are refused, except those of a named transfer syntax."""

    @pytest.mark.parametrize("name", PROPOSED)
    def test_storescu_sends_none(self, serve, send, name):
        box = serve(memory=LITTLE)
        assert send(name, check=False).returncode != 0
        assert box.files() == []

    def test_an_image_without_compression_is_accepted(self, serve, tool, to_box, encoded):
        box = serve(memory=LITTLE)
        tool("storescu", *to_box, encoded / "words.dcm")
        assert has_all(box.folder, [encoded / "words.dcm"])

    def test_the_one_that_is_named_and_no_other(self, serve, send, encoded):
        box = serve("--transfer-syntax", RLE, memory=LITTLE)
        send("rle")
        assert send("sv1", check=False).returncode != 0
        assert has_all(box.folder, [encoded / "rle.dcm"])


def test_the_native_one_is_preferred(serve_all_syntaxes, tool, to_box, encoded):
    """storescu proposes native transfer syntaxes and a compressed one in one context."""
    box = serve_all_syntaxes()
    tool("storescu", "-xr", "+C", *to_box, encoded / "words.dcm")
    assert syntax_of(box.folder / "I0000001") == EXPLICIT
