"""The manual page lists the events and fields of the log in JSON as the code has them."""
import re

import pytest
from cases import cases
from trees import ROOT

MANUAL, CODE, LINES = "man/dcmbox.1", "crates/journal/src/events.rt", "crates/journal/src/line.rt"
# An event's constant, name and text.
EVENT = re.compile(r'const (\w+): Event =\s*event!\(\w+ "([^"]+)"[^:]*:\s*"((?:[^"\\]|\\.)*)"\);', re.S)


def listed(manual):
    """Returns the events of the manual page, each with its fields."""
    part = re.search(r'^\.\\" events\n(.*?)^\.\\" end$', manual, re.M | re.S)[1]
    rows = re.findall(r"^\.TP\n\.B (.*)\n(.*)\.$", part, re.M)
    return {(event, fields.replace("\\-", "-")) for event, fields in rows}


def in_code(code):
    """Returns the events of the code, each with its fields; the text for a data set in quarantine is no line of the log."""
    rows = [(name, re.findall(r"\{([^}]+)\}", text)) for const, name, text in EVENT.findall(code) if const != "QUARANTINE_SHEET"]
    rows += [(name, ["error"]) for name in set(re.findall(r'\\"event\\":\\"([^\\]+)\\"', code))]
    return {(name, ", ".join(fields) or "no further fields") for name, fields in rows}


def differ(manual, code):
    """Returns the events that only one of the two has with these fields."""
    return {name for name, _ in listed(manual) ^ in_code(code)}


def given(source):
    """Yields each event that a source file reports with values in place, and their number."""
    source = re.sub(r'"(?:[^"\\]|\\.)*"', '""', source)
    for found in re.finditer(r"\b([A-Z][A-Z_]+),\s*&\[", source):
        depth, parts, part = 1, [], ""
        for letter in source[found.end() :]:
            depth += (letter in "([{") - (letter in ")]}")
            if depth == 0:
                break
            if depth == 1 and letter == ",":
                parts, part = [*parts, part], ""
            else:
                part += letter
        yield found[1], len([it for it in (*parts, part) if it.strip()])


@pytest.fixture(scope="module")
def code():
    return "\n".join((ROOT / path).read_text() for path in (CODE, LINES))


def test_the_manual_has_them(code):
    assert not differ((ROOT / MANUAL).read_text(), code)


@pytest.mark.parametrize(
    "old, new, found",
    cases(
        ("an unknown event", ".B lines left out\n", ".B lines lost\n", {"lines left out", "lines lost"}),
        ("an unknown field", "places.\n", "place.\n", {"places full", "peer full"}),
    ),
)
def test_a_difference_is_found(code, old, new, found):
    manual = (ROOT / MANUAL).read_text()
    assert old in manual and differ(manual.replace(old, new), code) == found


def test_each_field_is_given_a_value(code):
    fields = {const: len(re.findall(r"\{[^}]+\}", text)) for const, _, text in EVENT.findall(code)}
    sources = [path.read_text() for path in sorted((ROOT / "crates").glob("*/src/**/*.rt"))]
    found = [(const, count) for source in sources for const, count in given(source) if const in fields]
    assert [it for it in found if it[1] != fields[it[0]]] == []
    # (both are reported through a function)
    assert set(fields) - {const for const, _ in found} == {"CLASSES_REFUSED", "SYNTAXES_REFUSED"}
