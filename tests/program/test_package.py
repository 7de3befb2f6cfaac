"""The Debian package of the program: built, checked by lintian, installed into a fresh root, run, and removed."""
import datetime
import gzip
import os
import re
import shutil
import subprocess

import pytest
from images import TOOL_PATIENCE, call, need
from peer import ROOT
from ports import free_port
from samples import cases

FILES = [
    "usr/bin/dcmbox",
    "usr/share/man/man1/dcmbox.1.gz",
    "usr/share/bash-completion/completions/dcmbox",
    "lib/systemd/system/dcmbox.service",
    "lib/systemd/system/dcmbox@.service",
    "lib/systemd/system/dcmbox-send@.service",
    "lib/systemd/system/dcmbox-send@.timer",
    "etc/default/dcmbox",
    "usr/share/doc/dcmbox/copyright",
    "usr/share/doc/dcmbox/changelog.gz",
    "usr/share/doc/dcmbox/NEWS.gz",
    "usr/share/doc/dcmbox/CONFORMANCE.md",
    "usr/share/doc/dcmbox/PROFILE.md",
    "usr/share/doc/dcmbox/DEPLOY.md",
    "usr/share/doc/dcmbox/dcmbox.rules.yml",
]


@pytest.fixture(scope="session")
def package(program, shared):
    """The path of the package."""
    need("strip", "dpkg-deb")
    folder = shared("package")
    made = call(ROOT, ROOT / "packaging/make-deb", program, folder).stdout
    return folder / made.strip().rsplit("/")[-1]


@pytest.fixture(scope="session")
def version(program):
    return call(ROOT, program, "--version").stdout.split()[1]


@pytest.fixture
def tree(package, work):
    """The files of the package; the dpkg of a machine may omit some of them from its root."""
    call(work, "dpkg-deb", "--extract", package, "tree")
    return work / "tree"


class Root:
    """A root folder with only the state of dpkg and of the helpers of systemd's units.

    The C library is the machine's.
    """

    def __init__(self, path):
        self.path = path
        for folder in ("dpkg/info", "dpkg/updates", "dpkg/triggers", "systemd"):
            (path / "var/lib" / folder).mkdir(parents=True)
        for name in ("status", "available"):
            (path / "var/lib/dpkg" / name).touch()

    def dpkg(self, *arguments, **keywords):
        options = ("--force-depends", "--force-script-chrootless", "--log=/dev/null")
        return call(self.path, "dpkg", f"--root={self.path}", *options, *arguments, **keywords)

    def remaining(self):
        """Returns the paths in the root, except dpkg's own files."""
        own = self.path / "var/lib/dpkg"
        return {path for path in self.path.rglob("*") if not path.is_relative_to(own)}


@pytest.fixture
def root(work):
    return Root(work / "root")


def test_lintian_has_no_error(package, work):
    call(work, "lintian", "--allow-root", "--fail-on", "error", package)


@pytest.mark.parametrize("file", FILES)
def test_it_has(tree, file):
    assert (tree / file).stat().st_size > 0


def test_it_is_installed_into_a_fresh_root_and_removed_without_a_trace(root, package, version):
    before = root.remaining()
    root.dpkg("--install", package)
    message = call(root.path, root.path / "usr/bin/dcmbox", "--version").stdout
    assert message == f"dcmbox {version}\n"
    unit = (root.path / "lib/systemd/system/dcmbox.service").read_text()
    assert re.search("^ExecStart=/usr/bin/dcmbox serve ", unit, re.M)
    root.dpkg("--install", package)
    root.dpkg("--purge", "dcmbox")
    assert root.remaining() == before


def test_options_that_differ_are_kept_by_default(root, package):
    """As after `make install`. Without a terminal dpkg asks in vain; with --force-confold it does not ask."""
    text = (ROOT / "docs/DEPLOY.md").read_text()
    assert "`dpkg` asks; the default N keeps it, as does `dpkg --force-confold -i`" in text
    options = root.path / "etc/default/dcmbox"
    options.parent.mkdir(parents=True)
    options.write_text('DCMBOX_OPTIONS="--ae MINE"\n')
    asked = root.dpkg("--install", package, check=False)
    assert asked.returncode != 0 and "[default=N]" in asked.stdout + asked.stderr
    root.dpkg("--force-confold", "--install", package)
    assert options.read_text() == 'DCMBOX_OPTIONS="--ae MINE"\n'


def test_its_changelog_names_the_version_and_its_day(tree, version):
    released = re.search(
        rf"^## {re.escape(version)}, (.*)$", (ROOT / "CHANGELOG.md").read_text(), re.M
    )
    day = datetime.date.fromisoformat(released[1]).strftime("%a, %d %b %Y")
    changelog = gzip.open(tree / "usr/share/doc/dcmbox/changelog.gz", "rt").read()
    assert changelog.startswith(f"dcmbox ({version}) ")
    assert f" {day} " in changelog


def test_readme_names_its_c_library(package, work):
    depends = call(work, "dpkg-deb", "--field", package, "Depends").stdout
    readme = (ROOT / "README.md").read_text()
    assert re.findall(r"glibc ([\d.]+) or later", readme) == re.findall(r"libc6 \(>= ([\d.]+)\)", depends)


def test_an_unreleased_version_has_no_package(work):
    unreleased = work / "unreleased"
    unreleased.write_text("#!/bin/sh\necho dcmbox 9.9.9\n")
    unreleased.chmod(0o755)
    done = call(ROOT, ROOT / "packaging/make-deb", unreleased, work, check=False)
    assert done.returncode != 0
    assert "no heading '## 9.9.9, DATE'" in done.stderr


RELEASED = "DEFINITIONS.md DEFINITIONS_INDEX.md PROVED.md dcmbox dcmbox.1 dcmbox.bash dcmbox.proved".split()


def test_a_release_has_its_files_and_their_digests(program, version, work):
    shutil.copy(program, work / "dcmbox")
    (work / "dcmbox.proved").write_text("# toolchain\n")
    listed = call(ROOT, ROOT / "packaging/make-release", work / "dcmbox", work / "release").stdout.split()
    [package] = [it for it in listed if it.startswith(f"dcmbox_{version}_")]
    assert sorted(listed) == sorted(["SHA256SUMS", package, *RELEASED])
    checked = call(work / "release", "sha256sum", "-c", "SHA256SUMS").stdout.splitlines()
    assert {line.removesuffix(": OK") for line in checked} == {*listed} - {"SHA256SUMS"}


@pytest.mark.parametrize(
    "missing, expected",
    cases(
        ("the digests of its proof", "digests", "dcmbox.proved: 'make dcmbox' proves"),
        ("a new folder", "folder", "exists: a release gets"),
    ),
)
def test_a_release_is_not_made_without(program, work, missing, expected):
    shutil.copy(program, work / "dcmbox")
    folder = work / "release"
    if missing == "folder":
        folder.mkdir()
        (work / "dcmbox.proved").write_text("# toolchain\n")
    done = call(ROOT, ROOT / "packaging/make-release", work / "dcmbox", folder, check=False)
    assert done.returncode == 1 and expected in done.stderr and not list(folder.glob("*"))


def test_the_units_start_boxes(units, tree):
    """The units' command lines start boxes with the package's options, except for the port."""
    installed, port, other = units(tree), free_port(), free_port()
    installed.use_port(port)
    boxes = [
        installed.run("dcmbox.service", port),
        installed.run("dcmbox@.service", other, str(other)),
    ]
    assert [box.poll() for box in boxes] == [None, None]


@pytest.fixture
def asks(package, work):
    """Returns the commands that a maintainer script calls, except for the state of deb-systemd-helper.

    Fake commands note their arguments; /run is as under systemd.
    """
    need("unshare", "mount")
    call(work, "dpkg-deb", "--control", package, "control")
    (work / "noting").mkdir()
    for command in ("systemctl", "deb-systemd-helper", "deb-systemd-invoke"):
        noting = work / "noting" / command
        noting.write_text(f'#!/bin/sh\necho "{command} $*" >>{work}/asked.txt\n')
        noting.chmod(0o755)
    mounting = 'mount -t tmpfs none /run && mkdir -p /run/systemd/system && exec "$@"'

    def asked(script, *arguments):
        (work / "asked.txt").write_text("")
        subprocess.run(
            ["unshare", "--mount", "sh", "-c", mounting, "sh", f"control/{script}", *arguments],
            cwd=work,
            env={**os.environ, "PATH": f"{work}/noting:{os.environ['PATH']}"},
            check=True,
            timeout=TOOL_PATIENCE,
        )
        lines = (work / "asked.txt").read_text().splitlines()
        return [line for line in lines if not re.match("deb-systemd-helper [^p]", line)]

    return asked


RELOAD = "systemctl --system daemon-reload"
BOXES = "dcmbox.service dcmbox@*.service"
SENDERS = "dcmbox-send@*.timer dcmbox-send@*.service"


@pytest.mark.parametrize(
    "script, expected",
    cases(
        ("once installed it has its units read", "postinst configure", [RELOAD]),
        ("an upgrade lets boxes run", "prerm upgrade 9.9.9", []),
        ("a removal stops all", "prerm remove", [f"deb-systemd-invoke stop {SENDERS} {BOXES}"]),
        ("a removal has the units forgotten", "postrm remove", [RELOAD]),
        (
            "a purge forgets that they were enabled",
            "postrm purge",
            ["deb-systemd-helper purge dcmbox.service"],
        ),
    ),
)
def test_maintainer_script(asks, script, expected):
    arguments = script.split()
    assert asks(*arguments, *([""] if arguments[0] == "postinst" else [])) == expected


def test_an_upgrade_restarts_running_units(asks, version):
    expected = [RELOAD, f"deb-systemd-invoke try-restart {BOXES}"]
    assert asks("postinst", "configure", version) == expected
