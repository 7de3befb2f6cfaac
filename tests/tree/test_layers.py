"""What crates may cite of each other.

A crate may cite the definitions and contracts of the crates below it and the lemmas of their
module `Public`, and no other lemma. Each lemma of `Public` is the contract of a law.
`specs/machine` is private to its crate: no other crate names it, and no definition outside it
depends on it, so no public clause does. To make this checkable, no file names a crate's
definitions, proofs or machine as a whole. An association allocates no memory: its crates name no
allocator and nothing that needs one, except the devices over memory and over a folder. A file is
created by `File::create_new` and never opened to write what is there, perhaps through a link. A sender
removes files in one place.
"""
import re

import pytest
from cases import cases
from trees import NUMBER, ROOT, change

WHOLE = re.compile(
    r"use (Rattle\.)?[a-z0-9_]+((\.|::)(specs|proofs))?((\.|::)machine)?"
    r"( as [A-Za-z_]+|(\.|::)(\{|\*))"
)
LEMMA = re.compile(r"(?:Rattle\.(\w+)\.proofs\.|\b(\w+)::proofs::)([A-Za-z_]+)")
MACHINE = re.compile(r"Rattle\.([a-z0-9_]+)\.specs\.machine|\b([a-z0-9_]+)::specs::machine")
ALLOCATING = re.compile(
    r"\b(Alloc|AllocGlobal|Allocator|Global|alloc|Vec|String|Box|Rc|Arc|format!)"
)
# How a file might be opened to write it that is there already, as crates of tests do.
WRITING = re.compile(r"\bFile::(create|options)\b|\bOpenOptions::|\bfs::(write|copy)\b")
# The crates of an association, and their files that are devices.
ASSOCIATION = (
    "element dictionary sequence pdu acceptor negotiate dimse part10 folder_filing decisions engine"
).split()
DEVICES = (
    "memory_wire memory_filing drafts folder_calls folder_filing folder_writer given_names group groups "
    "listing locked_folder naming subfolders open_folder locations names names_synced numbers aside "
    "notes quarantine quarantine_names"
).split()
# An association refers to its settings, and with them to this list of its owner.
SETTING = re.compile(r"\bcallers: (Option<)?Vec<AeTitle>")


def crates(tree):
    return sorted(path.name for path in (tree / "crates").iterdir())


def lines(tree, crate, part="*", ends=(".antt", ".rt")):
    """Yields the lines of a crate's files, or of one part: file, location and text of each."""
    for folder in sorted((tree / "crates" / crate).glob(part)):
        # (`out` has kept results of checks)
        for path in [] if folder.name == "out" else sorted(folder.rglob("*")):
            if path.suffix in ends:
                name = path.relative_to(tree)
                for number, line in enumerate(path.read_text().splitlines(), 1):
                    yield name, f"{name}:{number}", line


def wholes(tree):
    """Returns the lines that name the definitions or the proofs of a crate as a whole."""
    return [
        f"{location}: {line}"
        for crate in crates(tree)
        for _, location, line in lines(tree, crate)
        if WHOLE.search(line) and re.search(r"Rattle\.|::(specs|proofs)", line)
    ]


def private_lemmas(tree):
    """Returns the lines that cite a lemma of another crate outside its module Public."""
    every = crates(tree)
    return [
        f"{location}: {found[0]}"
        for crate in every
        for _, location, line in lines(tree, crate)
        for found in LEMMA.finditer(line)
        if (found[1] or found[2]) in every and (found[1] or found[2]) != crate
        if found[3] != "Public"
    ]


def foreign_machines(tree):
    """Returns the lines that name the machine of another crate."""
    return [
        f"{location}: {line}"
        for crate in crates(tree)
        for _, location, line in lines(tree, crate)
        for found in MACHINE.finditer(line)
        if found[1] != crate and found[2] != "crate"
    ]


def definitions_on_machines(tree):
    """Returns the lines of definitions outside a machine that depend on it."""
    return [
        f"{location}: {line}"
        for crate in crates(tree)
        for name, location, line in lines(tree, crate, "specs", [".antt"])
        if "specs/machine/" not in str(name) and "specs.machine." in line
    ]


def lemmas_of_no_law(tree):
    """Returns the lemmas of modules Public that are not the contract of a law."""
    found = []
    for public in sorted((tree / "crates").glob("*/proofs/Public.antt")):
        answers = "\n".join(path.read_text() for path in public.parent.rglob("Answers.antt"))
        found += [
            f"{public.relative_to(tree)}: {lemma}"
            for lemma in re.findall(r"^pub (\S+) :", public.read_text(), re.M)
            if not re.search(
                rf"proofs\.Public\.\{{([^}}\n]* )?{re.escape(lemma)}[,}}]", answers
            )
        ]
    return found


def allocations(tree):
    """Returns the lines of an association's crates that name an allocator, or something that needs one."""
    return [
        f"{location}: {line}"
        for crate in ASSOCIATION
        for name, location, line in lines(tree, crate, "src", [".rt"])
        if ALLOCATING.search(line)
        if name.stem not in DEVICES and not line.lstrip(" ").startswith("//")
        if not SETTING.search(line)
    ]


def other_writes(tree):
    """Returns the lines of code that open a file to write it and may not create it."""
    return [
        f"{location}: {line}"
        for crate in crates(tree)
        for _, location, line in lines(tree, crate, "src", [".rt"])
        if WRITING.search(line) and crate != "fixtures" and not crate.endswith("_tests")
    ]


def removals(tree):
    """Returns the files of the sender's crates that remove a file, or make what removes files."""
    return [
        f"{name}: {found[0]}"
        for crate in ("sending", "send_command")
        for name, _, line in lines(tree, crate, "src", [".rt"])
        if (found := re.search(r"\bremove_file\(|\bRemovals::new\(", line))
    ]


def test_a_sender_removes_files_in_one_place():
    """Contracts say nothing of a call that removes a file, only of the one that records it.

    The first call removes a text that was just created and can't be written.
    """
    assert removals(ROOT) == [
        "crates/sending/src/removing.rt: remove_file(",
        "crates/sending/src/removing.rt: remove_file(",
        "crates/send_command/src/sender.rt: Removals::new(",
    ]


def test_no_file_names_a_crate_as_a_whole():
    assert wholes(ROOT) == []


def test_a_crate_cites_no_lemma_of_another_but_public_ones():
    assert private_lemmas(ROOT) == []


def test_a_crate_names_no_machine_of_another():
    assert foreign_machines(ROOT) == []


def test_no_definition_depends_on_the_machine():
    assert definitions_on_machines(ROOT) == []


def test_each_public_lemma_is_the_contract_of_a_law():
    assert lemmas_of_no_law(ROOT) == []


def test_an_association_names_no_allocator():
    assert allocations(ROOT) == []


def test_files_are_created_to_be_written():
    assert other_writes(ROOT) == []


CHECKS = [
    wholes,
    private_lemmas,
    foreign_machines,
    definitions_on_machines,
    lemmas_of_no_law,
    allocations,
    other_writes,
]


@pytest.mark.parametrize("check", CHECKS)
def test_small_tree_has_no_fault(small_tree, check):
    assert check(small_tree) == []


SMALL, GREAT = "crates/low/specs/Small.antt", "crates/high/specs/Great.antt"
TURNS = "crates/engine/specs/Turns.antt"
LOOP = "use Rattle.low.specs.machine.Loop.{Loop}\n"
TURNING = "use Rattle.engine.specs.machine.Turning.{Turning}\n"


@pytest.mark.parametrize(
    "check, file, old, new, expected",
    cases(
        (
            "a definition that depends on the machine",
            definitions_on_machines,
            SMALL,
            "use Rattle.std",
            f"{LOOP}use Rattle.std",
            f"{SMALL}:2: {LOOP}",
        ),
        (
            "a definition of engine that depends on the machine",
            definitions_on_machines,
            TURNS,
            "use Rattle.std",
            f"{TURNING}use Rattle.std",
            f"{TURNS}:2: {TURNING}",
        ),
        (
            "a definition that names the machine as a whole",
            wholes,
            SMALL,
            "use Rattle.std",
            "use Rattle.low.specs.machine as loops\nuse Rattle.std",
            f"{SMALL}:2: use Rattle.low.specs.machine as loops",
        ),
        (
            "the definitions of a crate by another name",
            wholes,
            GREAT,
            "use Rattle.low.specs.Small.{Small}",
            "use Rattle.low.specs as low",
            f"{GREAT}:2: use Rattle.low.specs as low",
        ),
        (
            "the proofs of a crate by another name",
            wholes,
            GREAT,
            "use Rattle.low",
            "use Rattle.low.proofs as lemmas\nuse Rattle.low",
            f"{GREAT}:2: use Rattle.low.proofs as lemmas",
        ),
        (
            "a crate by another name",
            wholes,
            GREAT,
            "use Rattle.low",
            "use Rattle.low as low\nuse Rattle.low",
            f"{GREAT}:2: use Rattle.low as low",
        ),
        (
            "all definitions of a crate, in its code",
            wholes,
            NUMBER,
            "pub struct",
            "use low::specs::*;\npub struct",
            f"{NUMBER}:3: use low::specs::*;",
        ),
        (
            "the machine of another crate",
            foreign_machines,
            GREAT,
            "use Rattle.low",
            f"{LOOP}use Rattle.low",
            f"{GREAT}:2: {LOOP}",
        ),
        (
            "the machine of another crate in addition to its own",
            foreign_machines,
            GREAT,
            "use Rattle.low",
            f"use Rattle.high.specs.machine.Turn.{{Turn}} {LOOP}use Rattle.low",
            f"{GREAT}:2: use Rattle.high.specs.machine.Turn.{{Turn}} {LOOP}",
        ),
        (
            "a lemma of another crate",
            private_lemmas,
            GREAT,
            "use Rattle.low",
            "use Rattle.low.proofs.Lemmas.{small}\nuse Rattle.low",
            f"{GREAT}:2: Rattle.low.proofs.Lemmas",
        ),
        (
            "a lemma of another crate, in code",
            private_lemmas,
            "crates/high/src/lib.rt",
            "pub use",
            "use low::proofs::Lemmas;\npub use",
            "crates/high/src/lib.rt:2: low::proofs::Lemmas",
        ),
        (
            "a file that is opened where it is",
            other_writes,
            NUMBER,
            "pub struct",
            "// File::create(rt, path)\npub struct",
            f"{NUMBER}:3: // File::create(rt, path)",
        ),
        (
            "a public lemma of no law",
            lemmas_of_no_law,
            "crates/low/proofs/laws/small/Answers.antt",
            "{small}",
            "{large}",
            "crates/low/proofs/Public.antt: small",
        ),
    ),
)
def test_a_fault_is_reported(small_tree, check, file, old, new, expected):
    change(small_tree, [(file, old, new)])
    assert check(small_tree) == [expected.rstrip("\n")]


CONSUMING = "crates/engine/src/association/consuming.rt"
WALKER = "crates/sequence/src/walker.rt"


@pytest.mark.parametrize(
    "file, old, new, expected",
    cases(
        (
            "a body that allocates once",
            CONSUMING,
            "        let mut at = 0;",
            "        let _ = Box::new(devices.alloc(), 0);\n        let mut at = 0;",
            "        let _ = Box::new(devices.alloc(), 0);",
        ),
        (
            "a walk that stores its input",
            WALKER,
            "\n}\n",
            "\n    kept: Vec<u8>,\n}\n",
            "    kept: Vec<u8>,",
        ),
    ),
)
def test_an_allocation_is_reported(copied_tree, file, old, new, expected):
    change(copied_tree, [(file, old, new)])
    (found,) = allocations(copied_tree)
    assert found.startswith(f"{file}:") and found.endswith(f": {expected}")
