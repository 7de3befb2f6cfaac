"""Text on a terminal: characters beyond ASCII are printed in UTF-8 if the locale says so."""
import contextlib
import os
import pty
import subprocess
import tty

import pytest
from box import PATIENCE
from peer import element
from samples import HEADER
from studies import image, padded

UTF_8 = {"LC_ALL": "C.UTF-8"}
# A letter, an escape sequence of a terminal, a control character of two bytes in UTF-8, and the percent sign.
TEXT = "M\u00fc\x1b[7m\u0085%"
SHOWN = "M\u00fc%1b[7m%c2%85%25"
MASKED = "M%c3%bc%1b[7m%c2%85%25"
PATH = "in/\u00e4\x1b\u0085"


@pytest.fixture
def on_terminal(program, work):
    """Returns a function that runs the program with these variables, and returns what a terminal as standard output gets."""

    def printed(*arguments, **variables):
        ours, theirs = pty.openpty()
        tty.setraw(theirs)
        done = subprocess.run(
            [program, *arguments],
            cwd=work,
            env=variables,
            stdin=subprocess.DEVNULL,
            stdout=theirs,
            stderr=subprocess.PIPE,
            timeout=PATIENCE,
        )
        os.close(theirs)
        text = b""
        with contextlib.suppress(OSError):  # a terminal whose other end is closed ends with EIO
            while piece := os.read(ours, 10_000):
                text += piece
        os.close(ours)
        assert (done.returncode, done.stderr) == (0, b"")
        return text.decode()

    return printed


def in_set(term, **texts):
    """Returns the first image with this Specific Character Set."""
    return HEADER + element((8, 5), "CS", padded(term, "CS")) + image(**texts)[len(HEADER) :]


@pytest.fixture
def folder(put):
    put({PATH: in_set("ISO_IR 192", name=TEXT.encode(), description="\u00e9".encode(), modality="\u00e9".encode())})


def lines(name, description, path):
    """Returns what `list` prints; the modality is no text of the character set."""
    study = f"20260101\tP1\t{name}\t%c3%a9\t1\t1\t1.2.3\t{name}\t%c3%a9"
    series = f"  1\t%c3%a9\t{description}\t1\t1.2.3.1\t{name}\t%c3%a9"
    return f"{study}\n{series}\n    1\t1.2.3.1.1\t{path}\t{name}\t%c3%a9\n"


LIST = ("list", "in", "--instances", "--columns", "PatientName,Modality")


def test_a_list(folder, on_terminal, run):
    assert on_terminal(*LIST, **UTF_8) == lines(SHOWN, "\u00e9", "in/\u00e4???")
    masked = lines(MASKED, "%c3%a9", "in/?????")
    assert on_terminal(*LIST) == run(*LIST, env=UTF_8).stdout == masked
    assert on_terminal(*LIST, "--json", **UTF_8) == run(*LIST, "--json", env=UTF_8).stdout


def test_a_tree(folder, on_terminal, run):
    arguments = ("arrange", "in", "--to", "tr\u00e9", "--dry-run")
    line = "link\tin/{}\ttr{}/P1/1.2.3/1.2.3.1/1.2.3.1.1.dcm\nlinked 1 passed over 0 renamed 0 left out 0\n"
    assert on_terminal(*arguments, **UTF_8) == line.format("\u00e4???", "\u00e9")
    assert on_terminal(*arguments) == run(*arguments, env=UTF_8).stdout == line.format("?????", "??")


def test_values(folder, on_terminal, run):
    """Values are in the character set of their data set, or of their item."""
    arguments = ("show", PATH, "--values", "--tag", "PatientName", "--tag", "Modality")
    shown = on_terminal(*arguments, **UTF_8)
    assert f"= {SHOWN}\n" in shown and "= %c3%a9\n" in shown
    masked = run(*arguments, env=UTF_8).stdout
    assert on_terminal(*arguments) == masked == shown.replace(SHOWN, MASKED)
    arguments = ("show", PATH, "--values", "--json")
    assert on_terminal(*arguments, **UTF_8) == run(*arguments).stdout


@pytest.mark.parametrize("term, text, shown", [
    ("ISO_IR 100", b"M\xfc\x9b", "M\u00fc%9b"),
    ("ISO_IR 144", b"\xb8\xd2", "\u0418\u0432"),
    ("ISO_IR 6", b"M\xfc", "M%fc"),
    ("ISO_IR 192", b"M\xfc", "M%fc"),
    ("GB18030", b"\xcd\xf5", "%cd%f5"),
    ("\\ISO 2022 IR 87", b"\x1b$B;3\x1b(B", "%1b$B;3%1b(B"),
])
def test_character_sets(put, on_terminal, term, text, shown):
    put({"in/a": in_set(term, name=text)})
    assert on_terminal("list", "in", **UTF_8).split("\t")[2] == shown
    assert f"= {shown}\n" in on_terminal("show", "in/a", "--values", **UTF_8)


@pytest.mark.parametrize("variables, is_utf_8", [
    ({"LANG": "de_DE.utf8"}, True),
    ({"LC_ALL": "", "LC_CTYPE": "C.UTF-8", "LANG": "C"}, True),
    ({"LC_ALL": "C", "LC_CTYPE": "C.UTF-8", "LANG": "C.UTF-8"}, False),
    ({"LC_CTYPE": "POSIX", "LANG": "C.UTF-8"}, False),
    ({"LC_ALL": "", "LC_CTYPE": "", "LANG": ""}, False),
    ({"LANG": "de_DE.ISO-8859-1"}, False),
])
def test_locales(folder, on_terminal, variables, is_utf_8):
    """The first that is not empty of LC_ALL, LC_CTYPE and LANG counts."""
    assert ("\u00fc" in on_terminal("list", "in", **variables)) == is_utf_8
