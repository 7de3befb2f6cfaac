"""`show` and `list` read every test file of pydicom as pydicom does."""
import json
import pathlib
import struct
import warnings

import pytest

pydicom = pytest.importorskip("pydicom", reason="make packages installs it")
from pydicom.data import get_testdata_file  # noqa: E402
from pydicom.dataelem import RawDataElement  # noqa: E402

FOLDER = pathlib.Path(get_testdata_file("CT_small.dcm")).parent
NUMBERS = {"US": "H", "SS": "h", "UL": "L", "SL": "l", "UV": "Q", "SV": "q"}
FLOATS = {"FL": "f", "OF": "f", "FD": "d", "OD": "d"}
WORDS = {"OB": 1, "UN": 1, "OW": 2, "OL": 4, "OV": 8}
# The size of values that are shown whole.
LONGEST = 65536


def read(path):
    with warnings.catch_warnings():
        warnings.simplefilter("ignore")
        return pydicom.dcmread(path)


def raw_elements(dataset):
    """Yields tag, VR and bytes (`None` for a sequence) of each element, also of items."""
    for tag in sorted(dataset.keys()):
        raw = dataset.get_item(tag)
        data = raw.value if isinstance(raw, RawDataElement) else None
        with warnings.catch_warnings():
            warnings.simplefilter("ignore")
            try:
                one = dataset[tag]
            except Exception:  # pydicom can't convert it
                yield f"{tag.group:04x},{tag.elem:04x}", None, None
                continue
        yield f"{tag.group:04x},{tag.elem:04x}", one.VR, data
        if one.VR == "SQ":
            for item in one.value:
                yield from raw_elements(item)


def numbers(code, data):
    count = len(data) // struct.calcsize("<" + code)
    return struct.unpack(f"<{count}{code}", data)


def text_of(vr, data):
    """Returns the value as it is printed, or `None` for a text that is not in ASCII."""
    if vr in NUMBERS:
        return "\\".join(map(str, numbers(NUMBERS[vr], data)))
    if vr == "AT":
        words = numbers("H", data)
        return "\\".join(f"{words[n]:04x},{words[n + 1]:04x}" for n in range(0, len(words), 2))
    if vr in WORDS:
        size = WORDS[vr]
        return "\\".join(data[n : n + size][::-1].hex() for n in range(0, len(data), size))
    text = data.rstrip(b" \0")
    is_plain = all(32 <= byte < 127 and byte != 0x25 for byte in text)
    return text.decode("ascii") if is_plain else None


def is_same(vr, data, value):
    if vr in FLOATS:
        return tuple(map(float, value.split("\\"))) == pytest.approx(
            numbers(FLOATS[vr], data), rel=1e-6, nan_ok=True
        )
    return value == text_of(vr, data)


def test_values(run):
    """Of each file that both read, no element is missing, and elements with the same VR have the same value."""
    files = equal = texts = private = 0
    for path in sorted(FOLDER.rglob("*.dcm")):
        done = run("show", "--json", "--values", "--all-syntaxes", path)
        found = json.loads(done.stdout.splitlines()[0])
        if found["result"] != "good" or found["class"] == "1.2.840.10008.1.3.10":
            continue
        try:
            expected = list(raw_elements(read(path)))
        except Exception:  # a file that pydicom does not read
            continue
        ours = [one for one in found["elements"] if not one["tag"].startswith("fffe")]
        if [one["tag"] for one in ours] != [tag for tag, _, _ in expected]:
            # Private sequences of defined length in Implicit VR are opaque, by their tag, to one of the two.
            private += 1
            continue
        files += 1
        for one, (tag, vr, data) in zip(ours, expected):
            if not data or (vr, len(data)) != (one["vr"], one["length"]) or len(data) > LONGEST:
                continue
            if vr not in FLOATS and text_of(vr, data) is None:
                texts += 1
                continue
            assert is_same(vr, data, one["value"]), (path.name, tag, vr, one["value"])
            equal += 1
    print(f"{files} files, {equal} equal values, {texts} texts not compared, {private} files not compared")
    assert files > 40 and equal > 3500 and private < 5


def test_groups(run):
    """Each listed file is in the study and the series that pydicom reads, and each is counted once."""
    done = run("list", FOLDER, "--instances", "--json")
    listed, found = 0, json.loads(done.stdout)
    for study in found["studies"]:
        assert study["series_count"] == len(study["series"])
        for one in study["series"]:
            for instance in one["instances"]:
                with warnings.catch_warnings():
                    warnings.simplefilter("ignore")
                    data = pydicom.dcmread(instance["file"], stop_before_pixels=True, force=True)
                keys = ("StudyInstanceUID", "SeriesInstanceUID", "SOPInstanceUID")
                uids = [str(data.get(key) or "") or None for key in keys]
                ours = [study["study"], one["series"], instance["instance"]]
                assert ours == uids, instance["file"]
                listed += 1
            assert one["image_count"] == len(one["instances"])
    left_out = done.stderr.count(": left out: ")
    assert found["left_out"] == left_out
    print(f"{listed} files listed, {left_out} left out")
    files = sum(1 for path in FOLDER.rglob("*") if path.is_file())
    directories = sum(1 for path in FOLDER.rglob("DICOMDIR*") if path.is_file())
    assert listed > 60 and files - directories <= listed + left_out <= files
