"""The paths that `arrange` gives to files by a pattern, and the patterns that it rejects."""
import json
import re

import pytest
from studies import counts, image, tree_of


@pytest.mark.parametrize("suffix", ["", ".dcm"])
def test_a_pattern(arrange, put, work, suffix):
    """Each element in braces is replaced by its value, and a run repeated changes nothing."""
    pattern = "{PatientName}/{StudyDate}_{0008,0060}/{SeriesNumber}/Image {InstanceNumber}" + suffix
    put({"in/a": image(), "in/b": image(number="2"), "in/c": image(modality="MR")})
    paths = {
        "DOE^JANE/20260101_CT/1/Image 1.dcm": "in/a",
        "DOE^JANE/20260101_CT/1/Image 2.dcm": "in/b",
        "DOE^JANE/20260101_MR/1/Image 1.dcm": "in/c",
    }
    status, out, err = arrange("--pattern", pattern, "--dry-run")
    assert (status, err) == (0, "") and not (work / "tree").exists()
    planned = {f"link\t{file}\ttree/{path}" for path, file in paths.items()}
    assert set(out.splitlines()[:-1]) == planned
    assert arrange("--pattern", pattern) == (0, counts(3), "")
    tree = tree_of(work / "tree")
    assert set(tree) == set(paths)
    assert all(tree[path].samefile(work / file) for path, file in paths.items())
    assert arrange("--pattern", pattern, "--copy") == (0, counts(0, 3, action="copied"), "")
    found = json.loads(arrange("--pattern", pattern, "--json")[1])
    assert found == {"linked": 0, "passed_over": 3, "renamed": 0, "left_out": 0}


@pytest.mark.parametrize(
    ("values", "pattern", "path"),
    [
        ({}, "{SOPInstanceUID}", "1.2.3.1.1"),
        ({"patient": None}, "{PatientID}_{Modality}", "UNKNOWN_CT"),
        ({"patient": "  "}, "{PatientID}_{Modality}", "__CT"),
        ({"patient": "../../x"}, "{PatientID}", "_._.._x"),
        ({"patient": ".."}, "a{PatientID}/{Modality}", "a_./CT"),
        ({"patient": "x" * 230}, "{PatientID}/{PatientID}{Modality}", "x" * 230 + "/_"),
        ({}, "a {Modality} /b- ", "a CT/b-"),
        ({}, "1/2/3/4/5/6/7/{PatientID} {PatientAge}", "1/2/3/4/5/6/7/P1 UNKNOWN"),
    ],
)
def test_names_of_a_pattern(arrange, put, work, values, pattern, path):
    put({"in/a": image(**values)})
    assert arrange("--pattern", pattern) == (0, counts(1), "")
    assert set(tree_of(work / "tree")) == {path + ".dcm"}


@pytest.mark.parametrize("option", ["", "--copy"])
def test_the_same_path_by_a_pattern(arrange, put, work, option):
    put({"in/a": image(), "in/b": image(number="2"), "in/c": image()})
    options = ["--pattern", "{PatientID}/x", *option.split()]
    action = "copied" if option else "linked"
    assert arrange(*options) == (0, counts(1, 1, 1, action=action), "")
    tree = tree_of(work / "tree")
    assert set(tree) == {"P1/x.dcm", "P1/x-2.dcm"}
    assert {path.read_bytes() for path in tree.values()} == {image(), image(number="2")}
    assert arrange(*options) == (0, counts(0, 3, action=action), "")


NAMES = "names that are not empty and begin with no dot, with '/' between them"
ELEMENT = "as 0010,0020 or PatientID, not"
TEXT = "an element of the data set whose value is text,"
LITERALS = "letters, digits, '_', '-', '.', ' ', '/' and elements in braces, not"


@pytest.mark.parametrize(
    ("pattern", "error"),
    [
        ("", NAMES),
        (".dcm", NAMES),
        ("/{PatientID}", NAMES),
        ("{PatientID}/", NAMES),
        ("{PatientID}//{Modality}", NAMES),
        ("../{PatientID}", NAMES),
        ("{PatientID}/..", NAMES),
        ("{PatientID}/.a", NAMES),
        ("a/b", "at least one element in braces, as {PatientID}"),
        ("/".join(["{PatientID}"] * 9), "8 names and 16 elements at most"),
        ("{PatientID}" * 17, "8 names and 16 elements at most"),
        ("{PatientID", "a } after each {"),
        ("{}", f"an element {ELEMENT} ''"),
        ("{patientid}", f"an element {ELEMENT} 'patientid'"),
        ("{PatientID/Modality}", f"an element {ELEMENT} 'PatientID/Modality'"),
        ("{Rows}", f"{TEXT} {ELEMENT} 'Rows'"),
        ("{PixelData}", f"{TEXT} {ELEMENT} 'PixelData'"),
        ("{0002,0010}", f"{TEXT} {ELEMENT} '0002,0010'"),
        ("PatientID}", f"{LITERALS} '}}'"),
        ("{PatientID}:", f"{LITERALS} ':'"),
        ("{PatientID}*", f"{LITERALS} '*'"),
        ("{PatientID}\\", f"{LITERALS} '\\'"),
        ("{PatientID}\n", f"{LITERALS} '\n'"),
        ("M\u00fcller/{PatientID}", f"{LITERALS} '\u00fc'"),
    ],
)
def test_a_rejected_pattern(expect, put, work, pattern, error):
    put({"in/a": image()})
    words = ["arrange", "in", "--to", "tree", "--pattern", pattern]
    expect(2, "", re.escape(f"error: --pattern takes {error}"), *words)
    assert not (work / "tree").exists()
