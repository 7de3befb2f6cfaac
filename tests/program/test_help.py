"""The help of each command; the manual page and the completion have the same options."""
import json
import os
import re
import subprocess

import pytest
from box import PATIENCE
from images import need
from peer import ROOT

MANUAL = ROOT / "man/dcmbox.1"
TABLES = json.loads((ROOT / "docs/tables.json").read_text())
COMMANDS = ["serve", "replay", "show", "check", "index", "checkdir", "list", "arrange", "send", "echo"]
OPTION = r"--[a-z-]+"
COMPLETION = '. "$0"; COMP_WORDS=(dcmbox "$1" --); COMP_CWORD=2; _dcmbox; echo "${COMPREPLY[@]}"'


@pytest.fixture(params=COMMANDS)
def command(request):
    return request.param


@pytest.fixture
def text(run, command):
    """The help of a command."""
    done = run(command, "--help")
    assert (done.returncode, done.stderr) == (0, "")
    return done.stdout


def without_example(text):
    return re.sub(r"^Example: .*$", "", text, flags=re.M)


def synopsis(command):
    """Returns the synopsis of a command in the manual page, without formatting."""
    lines = MANUAL.read_text().replace("\\-", "-").replace("\\~", " ").replace("\\c", "")
    body = re.search(rf'^\.SY "dcmbox {command}"(.*?)^\.YS', lines, re.M | re.S)[1]
    return " ".join(re.sub(r"^\.[A-Z]*", "", body, flags=re.M).split())


def test_one_example(text, command):
    assert len(re.findall(rf"^Example: dcmbox {command} ", text, re.M)) == 1


def test_the_options_in_the_manual(text, command):
    assert {*re.findall(OPTION, synopsis(command)), "--help"} == set(
        re.findall(OPTION, without_example(text))
    )


def test_the_options_in_the_completion(text, command):
    completion = ["bash", "-c", COMPLETION, ROOT / "packaging/dcmbox.bash", command]
    completed = subprocess.run(completion, capture_output=True, text=True, timeout=PATIENCE)
    assert set(completed.stdout.split()) == set(re.findall(OPTION, without_example(text)))


def test_the_names_of_the_values_in_the_manual(text, command):
    """Each value has its option, if any."""
    in_help = re.findall(rf"(?:{OPTION} )?<[^>]*>", without_example(text))
    in_manual = re.findall(rf"(?:{OPTION} )?\b[A-Z]+\b(?:[:=][A-Z]+\b)?", synopsis(command))
    assert set(in_manual) == {re.sub("[<>]", "", name) for name in in_help}


@pytest.mark.parametrize("row", TABLES["commands"], ids=lambda row: row["name"])
def test_help_is_what_the_documents_have(run, row):
    text = " ".join(run("help", row["name"]).stdout.split())
    for name in row["options"]:
        option = row.get("own", {}).get(name) or TABLES["options"][name]
        assert f"--{name}" in text and option["help"] in text


def test_the_manual_page_has_no_warnings():
    need("man")
    done = subprocess.run(
        ["man", "--warnings", "-E", "UTF-8", "-l", "-Tutf8", "-Z", MANUAL],
        env={**os.environ, "LC_ALL": "C.UTF-8", "MANROFFSEQ": "", "MANWIDTH": "80"},
        stdout=subprocess.DEVNULL,
        stderr=subprocess.PIPE,
        text=True,
        timeout=PATIENCE,
    )
    assert (done.returncode, done.stderr) == (0, "")
