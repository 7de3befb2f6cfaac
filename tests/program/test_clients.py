"""`dcmbox serve` with DCMTK's tools, the filed files, and the directories of them by DCMTK and `index`."""
import random
import re
import subprocess
import time

import pytest
from box import PATIENCE
from images import call, digests, dumped, filed, has_all, identity, need, pixels, study

CLASSES = [
    ("CTImageStorage", "CT"),
    ("MRImageStorage", "MR"),
    ("ComputedRadiographyImageStorage", "CR"),
    ("UltrasoundImageStorage", "US"),
    ("SecondaryCaptureImageStorage", "OT"),
]
KILLS = 50


def image_text(number, pixel_data=True):
    """Returns one of twenty images of five classes, in dump2dcm's text."""
    kind = (number - 1) % 5
    sop_class, modality = CLASSES[kind]
    text = identity(sop_class, f"2.25.1.{number}", modality, series=f"2.25.3.{kind + 1}")
    text += re.sub(r"\(0020,0011\).*", f"(0020,0011) IS [{kind + 1}]", study(number))
    text += f"""(0008,0008) CS [ORIGINAL\\PRIMARY]
(0008,1030) LO [Study]
(0008,1140) SQ
(fffe,e000) na
(0008,1150) UI ={sop_class}
(0008,1155) UI [2.25.9.{number}]
(fffe,e00d)
(fffe,e0dd)
(0009,0010) LO [PRIVATE]
(0009,1001) UN 01\\02\\03\\04
"""
    text += pixels("pixels.raw", 256, 256, bits=12)
    return text if pixel_data else re.sub(r"\(7fe0,0010\).*\n", "", text)


@pytest.fixture(scope="session")
def made(shared):
    """A folder with twenty images, every fourth in Implicit VR, and one without pixels."""
    work = shared("images")
    (work / "pixels.raw").write_bytes(random.Random(1).randbytes(131072))
    for number in range(1, 21):
        dumped(work, f"image{number}", image_text(number), "+ti" if number % 4 == 0 else "+te")
    dumped(work, "small", image_text(20, pixel_data=False))
    return work


@pytest.fixture(scope="session")
def explicit(made):
    return [made / f"image{number}.dcm" for number in range(1, 21) if number % 4]


@pytest.fixture(scope="session")
def implicit(made):
    return [made / f"image{number}.dcm" for number in range(1, 21) if number % 4 == 0]


@pytest.fixture
def send(tool, to_box):
    """Sends files by storescu with these options."""
    return lambda files, *options: tool("storescu", *options, *to_box, *files)


class TestEchoes:
    """Echoes of echoscu."""

    @pytest.mark.parametrize("options", [(), ("--repeat", "10")], ids=["one", "ten"])
    def test_on_one_association(self, serve, tool, to_box, options):
        serve()
        tool("echoscu", *options, *to_box)

    def test_another_called_title_is_refused(self, serve, tool, port):
        serve()
        done = tool("echoscu", "-aec", "OTHER", "127.0.0.1", port, check=False)
        assert done.returncode != 0


class TestImages:
    """Twenty images of five classes, sent by each tool, are filed as they were sent."""

    def test_by_storescu(self, serve, send, explicit, implicit):
        box = serve()
        send(explicit)
        send(implicit, "--propose-implicit")
        assert has_all(box.folder, explicit + implicit)

    def test_by_dcmsend(self, serve, tool, to_box, explicit):
        box = serve()
        tool("dcmsend", *to_box, *explicit)
        assert has_all(box.folder, explicit)

    def test_an_association_each_into_folders_of_three(self, serve, send, explicit):
        box = serve("--per", "3")
        for image in explicit:
            send([image])
        assert has_all(box.folder, explicit)
        assert box.files() == [f"S000000{n}" for n in range(1, 6)]
        assert (box.folder / "S0000005/I0000003").is_file()

    @pytest.mark.parametrize("length", [4096, 131072])
    def test_in_pdus_of_at_most(self, serve, send, explicit, length):
        box = serve("--max-pdu", str(length))
        send(explicit, "--max-pdu", length)
        assert has_all(box.folder, explicit)

    def test_wait_for_no_delayed_acknowledgement(self, serve, send, made):
        """Sixty small images are sent in less than 1.2 s, in one of five attempts.

        storescu writes the command and the data set separately, and sends the second once the first
        is acknowledged: delayed acknowledgements would cost 40 ms for each image.
        """
        serve("--no-sync")
        times = []
        while not times or min(times) >= 1.2 and len(times) < 5:
            started = time.monotonic()
            send([made / "small.dcm"] * 60)
            times.append(time.monotonic() - started)
        assert min(times) < 1.2

    def test_that_are_compressed_are_refused(self, serve, tool, to_box, send, made):
        """Nothing of a compressed image is filed, and the next image is accepted."""
        box = serve()
        image = made / "image1.dcm"
        tool("dcmcjpeg", "-q", image, "compressed.dcm")
        arguments = ("--propose-lossless", *to_box, "compressed.dcm")
        assert tool("storescu", *arguments, check=False).returncode != 0
        assert box.files() == []
        send([image])
        assert has_all(box.folder, [image])


REPORT, PLAN, STRUCTURES, STATE, DOCUMENT = (
    f"1.2.840.10008.5.1.4.1.1.{end}" for end in ("88.33", "481.5", "481.3", "11.1", "104.1")
)
# Objects of a study: the name of the class, the modality, and further elements of the class.
OBJECTS = {
    "report": (
        "ComprehensiveSRStorage",
        "SR",
        """(0040,a040) CS [CONTAINER]
(0040,a043) SQ
(fffe,e000) na
(0008,0100) SH [121060]
(0008,0102) SH [DCM]
(0008,0104) LO [History]
(fffe,e00d)
(fffe,e0dd)
(0040,a050) CS [SEPARATE]
(0040,a491) CS [COMPLETE]
(0040,a493) CS [UNVERIFIED]
(0040,a730) SQ
(fffe,e000) na
(0040,a010) CS [CONTAINS]
(0040,a040) CS [TEXT]
(0040,a160) UT [No finding]
(fffe,e00d)
(fffe,e0dd)
""",
    ),
    "plan": (
        "RTPlanStorage",
        "RTPLAN",
        """(300a,0002) SH [PLAN]
(300a,000c) CS [TREATMENT_DEVICE]
(300a,0070) SQ
(fffe,e000) na
(300a,0071) IS [1]
(300a,0080) IS [0]
(fffe,e00d)
(fffe,e0dd)
""",
    ),
    "structures": (
        "RTStructureSetStorage",
        "RTSTRUCT",
        """(3006,0002) SH [STRUCTURES]
(3006,0039) SQ
(fffe,e000) na
(3006,0040) SQ
(fffe,e000) na
(3006,0042) CS [POINT]
(3006,0046) IS [1]
(3006,0050) DS [1.5\\-2\\0]
(fffe,e00d)
(fffe,e0dd)
(3006,0084) IS [1]
(fffe,e00d)
(fffe,e0dd)
""",
    ),
    "state": (
        "GrayscaleSoftcopyPresentationStateStorage",
        "PR",
        """(0070,0080) CS [STATE]
(0070,0082) DA [20260101]
(0070,0083) TM [120000]
(2050,0020) CS [IDENTITY]
""",
    ),
    "document": (
        "EncapsulatedPDFStorage",
        "DOC",
        """(0042,0011) OB =document.pdf
(0042,0012) LO [application/pdf]
""",
    ),
}


@pytest.fixture(scope="session")
def objects(shared):
    """A study of six classes by name; without an option only the image's class is accepted."""
    work = shared("study")
    (work / "pixels.raw").write_bytes(random.Random(2).randbytes(131072))
    document = b"%PDF-1.4\n" + random.Random(3).randbytes(20000) + b"\n%%EOF\n"
    (work / "document.pdf").write_bytes(document + b" " * (len(document) % 2))
    image = identity(instance="2.25.5.9", series="2.25.3.19") + study(9)
    made = {"ct": dumped(work, "ct", image + pixels("pixels.raw", 256, 256, bits=12))}
    for number, (name, (sop_class, modality, text)) in enumerate(OBJECTS.items(), 1):
        head = identity(sop_class, f"2.25.5.{number}", modality, f"2.25.3.1{number}")
        made[name] = dumped(work, name, head + study(number) + text)
    return made


@pytest.fixture
def successes(tool, to_box, objects):
    """Sends objects of the study on one association, and counts the successes."""

    def counted(*names):
        files = [objects[name] for name in names]
        done = tool("storescu", "-v", "-R", *to_box, *files, check=False)
        return (done.stdout + done.stderr).count("Received Store Response (Success)")

    return counted


class TestStudy:
    """A study of six classes."""

    def test_if_every_class_is_accepted(self, serve, run, successes, objects):
        """`check` and `show` accept the files, and `index` leaves five of them out."""
        box = serve("--all-storage")
        assert successes(*objects) == 6
        assert has_all(box.folder, objects.values())
        for path in filed(box.folder):
            assert run("check", path).stdout.startswith("good ")
            shown = run("show", path).stdout
            assert shown.startswith("class 1.2.840.10008.5.1.4.1.1.")
        done = run("index", "received", "--uid", "2.25.7.100")
        classes = (REPORT, PLAN, STRUCTURES, STATE, DOCUMENT)
        lines = [f"skipped I000000{number} class {uid}" for number, uid in enumerate(classes, 2)]
        assert done.stdout.splitlines() == [*lines, "records 4"]
        why = ", ".join(f"class {uid} 1" for uid in classes)
        assert done.stderr == f"images 1 left out 5\nleft out: {why}\n"
        call(box.folder, "dcmftest", "DICOMDIR")

    def test_without_an_option(self, serve, successes, objects):
        box = serve()
        assert successes(*objects) == 1
        assert has_all(box.folder, [objects["ct"]])

    def test_of_the_classes_that_are_named(self, serve, successes, objects):
        box = serve("--storage-class", REPORT, "--storage-class", PLAN)
        assert successes("ct", "report", "plan") == 3
        assert successes("ct", "report", "plan", "state") == 3
        assert has_all(box.folder, [objects[name] for name in ("ct", "report", "plan")] * 2)


def test_kills_at_any_moment(serve, spawn, to_box, explicit, work):
    """A killed box leaves a complete file for each reported success, and at most one draft.

    The next start removes the draft.
    """
    need("storescu")
    moments = random.Random()
    reported = 0
    for _ in range(KILLS):
        box = serve("--no-sync")
        assert [name for name in box.files() if name.startswith("DRAFT")] == []
        sender = spawn("storescu", "-v", *to_box, *explicit, log="sent.txt")
        try:
            sender.wait(moments.uniform(0.02, 0.42))
        except subprocess.TimeoutExpired:
            pass
        box.process.kill()
        box.ended()
        sender.wait(PATIENCE)
        reported += (work / "sent.txt").read_text().count("Received Store Response (Success)")
        assert len(list(box.folder.glob("DRAFT*"))) <= 1
    files = filed(box.folder)
    assert set(digests(files)) <= set(digests(explicit))
    assert len(files) >= reported
    assert not list(serve().folder.glob("DRAFT*"))


@pytest.mark.parametrize("number", range(1, 21))
def test_directories(serve, run, send, explicit, number):
    """`checkdir` accepts DCMTK's directory, which lists the files.

    DCMTK reads the directory of `index`, which lists the same instances.
    """
    box = serve("--no-sync", *(("--per", "3") if number % 2 == 0 else ()))
    send(explicit[: (number - 1) % 12 + 1])
    expected = [str(path.relative_to(box.folder)) for path in filed(box.folder)]
    call(box.folder, "dcmmkdir", "-q", "-Pgp", "+D", "DICOMDIR", *expected)
    assert listed(run) == expected
    of_dcmtk = instances(box.folder)
    (box.folder / "DICOMDIR").unlink()

    assert run("index", "received", "--uid", f"2.25.7.{number}").returncode == 0
    call(box.folder, "dcmftest", "DICOMDIR")
    call(box.folder, "dcmdump", "-q", "DICOMDIR")
    assert listed(run) == expected
    assert instances(box.folder) == of_dcmtk


def listed(run):
    """Returns the file IDs that the directory lists, as `checkdir` prints them."""
    lines = run("checkdir", "received/DICOMDIR").stdout.splitlines()
    return sorted(line.split()[2] for line in lines if line.split()[1] == "IMAGE")


def instances(folder):
    """Returns the instances that the directory lists, as DCMTK reads it."""
    dump = call(folder, "dcmdump", "-q", "+P", "0004,1511", "DICOMDIR").stdout
    return sorted(re.findall(r"\[(.*)\]", dump))


@pytest.mark.parametrize("command", ["check", "checkdir"])
def test_every_prefix_of_a_file(serve, run, send, made, work, command):
    """Each prefix is good or has a fault, and the whole file is good."""
    path = made / "small.dcm"
    if command == "checkdir":
        box = serve()
        send([made / "image1.dcm"])
        call(box.folder, "dcmmkdir", "-q", "-Pgp", "+D", "DICOMDIR", "I0000001")
        assert run("index", "received", "--uid", "2.25.7.1", "--replace").returncode == 0
        path = box.folder / "DICOMDIR"
    whole, front = path.read_bytes(), work / "front.bin"
    for size in range(len(whole)):
        front.write_bytes(whole[:size])
        done = run(command, "front.bin")
        is_good = done.returncode == 0 and done.stdout.startswith("good")
        assert done.returncode == 1 or is_good, (size, done)
    assert run(command, str(path)).returncode == 0
