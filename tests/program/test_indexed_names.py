"""Which files of a folder `index` lists by their names and first bytes, and what it says of the others."""
import re

import pytest
from samples import IMAGE, changed

ONE = "records 4"


class TestOtherNames:
    """Images with other names than received files."""

    FILES = {
        "in/CT.1.2.3.dcm": IMAGE,
        "in/deeper/I0000001": changed(IMAGE, 208, b"2"),
        "in/A/B_1/IM1": changed(IMAGE, 208, b"3"),
        "in/README": b"text",
        "in/DRAFT": IMAGE,
    }
    REPORT = "dcmbox: in: 3 DICOM files are left out: they have other names than I0000001, .* --any-name\n"

    def test_they_are_reported(self, expect, put):
        put(self.FILES)
        errors = self.REPORT + "images 0 left out 3\nleft out: other names 3"
        expect(0, "records 0", errors, "index", "in", "--uid", "2.25.1")
        expect(1, "records 0", errors, "index", "in", "--uid", "2.25.1", "--strict")

    @pytest.mark.parametrize("options, text", [((), "it has another name than"), (("--any-name",), "it has a path that is")])
    def test_one_is_reported(self, run, put, options, text):
        put({"in/CT.1.2.3.dcm": IMAGE})
        first = run(*"index in --uid 2.25.1".split(), *options).stderr.splitlines()[0]
        assert first.startswith(f"dcmbox: in: 1 DICOM file is left out: {text} ")

    def test_with_a_received_file(self, expect, put, work):
        put({**self.FILES, "in/I0000001": IMAGE, "in/S0000001/I0000001": changed(IMAGE, 208, b"4")})
        errors = self.REPORT + "images 2 left out 3\nleft out: other names 3"
        expect(0, "records 5", errors, "index", "in", "--uid", "2.25.1")

    def test_any_name(self, expect, put, run):
        """Images whose paths are file IDs are indexed, in the order of paths."""
        put({**self.FILES, "in/I0000001": IMAGE})
        errors = (
            "dcmbox: in: 2 DICOM files are left out: they have paths that are no file IDs: .*\n"
            "images 2 left out 2\nleft out: other names 2"
        )
        expect(0, "records 5", errors, "index", "in", "--uid", "2.25.1", "--any-name")
        listed = run("checkdir", "in/DICOMDIR").stdout
        assert re.findall("IMAGE (.*)", listed) == ["A/B_1/IM1", "I0000001"]

    def test_a_disk_as_scanners_write_them(self, expect, put, run):
        names = [f"DICOM/PA1/ST1/SE{series}/IM{n:06}" for series in (1, 2) for n in range(3)]
        put({f"in/{name}": changed(IMAGE, 208, b"%d" % n) for n, name in enumerate(names)})
        expect(0, "records 9", "images 6 left out 0", *"index in --uid 2.25.1 --any-name".split())
        assert re.findall("IMAGE (.*)", run("checkdir", "in/DICOMDIR").stdout) == names


class TestDamagedFiles:
    """Files that can't be indexed, and files that are no DICOM files."""

    FILES = {
        "in/IM1": IMAGE,
        "in/IM2": b"",
        "in/IM3": IMAGE[:100],
        "in/IM4": IMAGE[292:],
        "in/README": b"text",
        "in/VIEWER": b"MZ" + bytes(200),
    }

    def test_any_name(self, expect, put, work):
        """An empty file, a cut one and one without a header are left out; what is surely something else is not told of."""
        put(self.FILES)
        output = "".join(f"skipped IM{n} fault 50\n" for n in (2, 3, 4)) + ONE
        errors = "images 1 left out 3\nleft out: fault 50 NotPart10 3"
        for status, options in ((0, []), (1, ["--strict"])):
            expect(status, output, errors, *"index in --uid 2.25.1 --any-name".split(), *options)
        assert (work / "in/DICOMDIR").stat().st_size == 784

    def test_others_are_ignored(self, expect, put):
        """With --ignore-others what has no letters DICM is counted, unless it is empty."""
        put(self.FILES)
        errors = "dcmbox: ignored 4\nimages 1 left out 1\nleft out: fault 50 NotPart10 1"
        arguments = "index in --uid 2.25.1 --any-name --ignore-others".split()
        expect(0, f"skipped IM2 fault 50\n{ONE}", errors, *arguments)
        expect(1, f"skipped IM2 fault 50\n{ONE}", errors, *arguments, "--strict")

    def test_received_files(self, expect, put):
        """Without --any-name files named like received ones are left out in each case, or ignored."""
        put({"in/I0000001": IMAGE, "in/I0000002": b"", "in/I0000003": b"text", "in/README": b"text"})
        output = f"skipped I0000002 fault 50\nskipped I0000003 fault 50\n{ONE}"
        errors = "images 1 left out 2\nleft out: fault 50 NotPart10 2"
        expect(0, output, errors, *"index in --uid 2.25.1".split())
        errors = "dcmbox: ignored 2\nimages 1 left out 1\nleft out: fault 50 NotPart10 1"
        expect(0, f"skipped I0000002 fault 50\n{ONE}", errors, *"index in --uid 2.25.1 --ignore-others".split())
