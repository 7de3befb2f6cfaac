"""The links of the documents lead to existing files and headings."""
import re

import pytest
from cases import cases
from trees import ROOT, anchor, change

LINK = re.compile(r"\]\(([^)\s]+)\)")


def anchors(path):
    """Returns the anchors of the headings of a document."""
    return {anchor(heading) for heading in re.findall(r"^#+ (.*)$", path.read_text(), re.M)}


def links(tree):
    """Yields the links of the documents into the tree: location, document and target."""
    for path in sorted([*tree.glob("*.md"), *tree.glob("docs/*.md")]):
        for number, line in enumerate(path.read_text().splitlines(), 1):
            # (an indented line is literal text)
            for link in [] if line.startswith("    ") else LINK.findall(line):
                if "://" not in link:
                    yield f"{path.relative_to(tree)}:{number}", path, *link.split("#")


def to_no_file(tree):
    return [
        f"{location}: {name} does not exist"
        for location, path, name, *_ in links(tree)
        if not (path.parent / name).exists()
    ]


def to_no_heading(tree):
    return [
        f"{location}: {name or path.name} has no heading {heading[0]}"
        for location, path, name, *heading in links(tree)
        for target in [path.parent / name if name else path]
        if heading and target.exists() and heading[0] not in anchors(target)
    ]


def test_links_lead_to_files():
    assert to_no_file(ROOT) == []


def test_links_lead_to_headings():
    assert to_no_heading(ROOT) == []


@pytest.mark.parametrize("check", [to_no_file, to_no_heading])
def test_small_tree_has_no_fault(small_tree, check):
    assert check(small_tree) == []


@pytest.mark.parametrize(
    "check, file, old, new, expected",
    cases(
        (
            "a link to a missing document",
            to_no_file,
            "README.md",
            "docs/PROVED.md",
            "docs/CLAIMS.md",
            "README.md:7: docs/CLAIMS.md does not exist",
        ),
        (
            "a link to a missing heading",
            to_no_heading,
            "docs/PROVED.md",
            "## Tested",
            "## Tried",
            "README.md:7: docs/PROVED.md has no heading tested",
        ),
        (
            "a link to a missing heading of the same document",
            to_no_heading,
            "README.md",
            "docs/PROVED.md#tested",
            "#tested",
            "README.md:7: README.md has no heading tested",
        ),
    ),
)
def test_a_fault_is_reported(small_tree, check, file, old, new, expected):
    change(small_tree, [(file, old, new)])
    assert check(small_tree) == [expected]
