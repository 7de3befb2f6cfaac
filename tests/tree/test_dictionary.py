"""Tools keep the tables of the standard equal to Debian's python3-pydicom and libdcmtk-dev."""
import re

import pytest
from cases import cases
from trees import ROOT, change, copy, run

# Each tool with the files that it writes, and a text in each.
TOOLS = cases(
    (
        "storage classes",
        "storage-classes",
        {
            "crates/dictionary/src/storage_table.rt": "CTImageStorage",
            "crates/dictionary/specs/StorageClasses.antt": "CTImageStorage",
            "docs/CONFORMANCE.md": " CTImageStorage *",
        },
    ),
    (
        "transfer syntaxes",
        "transfer-syntaxes",
        {
            "crates/dictionary/src/transfer.rt": "RLELossless",
            "crates/dictionary/specs/Transfers.antt": "RLELossless",
            "crates/dictionary/proofs/TransferNames.antt": "RleLossless",
            "docs/CONFORMANCE.md": " RLELossless\n",
        },
    ),
    (
        "keywords",
        "keywords",
        {
            "crates/keywords/src/classes.rt": "CTImageStorage",
            "crates/keywords/src/syntaxes.rt": "RLELossless",
            "crates/keywords/src/elements/part_1.rt": "SOPInstanceUID",
            "crates/keywords/src/elements/repeaters.rt": "OverlayRows",
        },
    ),
)


@pytest.fixture
def tree(work):
    """A copy of the files that the tools read and write."""
    copy(work, "tools", "docs", "crates/dictionary", "crates/dictionary/proofs", "crates/keywords")
    return work


@pytest.mark.parametrize("tool", ["storage-classes", "transfer-syntaxes", "keywords"])
def test_tables_are_up_to_date(tool):
    status, output = run(ROOT, tool, "--check")
    assert status == 0, output


@pytest.mark.parametrize("tool, texts", TOOLS)
def test_a_change_by_hand_of_each_file_is_reported(tree, tool, texts):
    for file, old in texts.items():
        text = (tree / file).read_text()
        change(tree, [(file, old, f"X{old}")])
        status, output = run(tree, tool, "--check")
        assert status == 1 and re.findall(r"(crates\S+|docs\S+) ", output) == [file], output
        (tree / file).write_text(text)


@pytest.mark.parametrize(
    "tool, old, new, expected",
    cases(
        (
            "a class with another name in DCMTK",
            "storage-classes",
            '    "ImplantationPlanSRDocumentStorage": "ImplantationPlanSRStorage",\n',
            "",
            "implantationplansrdocumentstorage is not in both lists\n",
        ),
        (
            "a class that is retired in DCMTK alone",
            "storage-classes",
            'retired != "")\n        for uid',
            'keyword.endswith("Retired"))\n        for uid',
            "1.2.840.10008.5.1.4.1.1.9.1 waveformstorage is not in both lists\n",
        ),
        (
            "a class listed as one of another table",
            "storage-classes",
            '    "InventoryStorage",\n',
            '    "CTImageStorage",\n    "InventoryStorage",\n',
            "crates/dictionary/src/storage_table.rt differs\n",
        ),
        (
            "a syntax in pydicom alone",
            "transfer-syntaxes",
            'ONLY_IN_PYDICOM = {"1.2.840.10008.1.2.1.98"}',
            "ONLY_IN_PYDICOM = set()",
            "1.2.840.10008.1.2.1.98 is not in both lists\n",
        ),
        (
            "another version of pydicom",
            "keywords",
            'VERSION = "',
            'VERSION = "9.',
            "tools/keywords is for pydicom 9.",
        ),
    ),
)
def test_a_difference_of_the_lists_is_reported(tree, tool, old, new, expected):
    change(tree, [(f"tools/{tool}", old, new)])
    status, output = run(tree, tool, "--check")
    assert status == 1 and expected in output, output


@pytest.mark.parametrize("tool, texts", TOOLS)
def test_tables_are_regenerated(tree, tool, texts):
    change(tree, [(file, old, f"X{old}") for file, old in texts.items()])
    status, output = run(tree, tool)
    assert status == 0, output
    for file in texts:
        assert (tree / file).read_text() == (ROOT / file).read_text()
