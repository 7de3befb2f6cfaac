"""The texts of docs/DEPLOY.md and the start in README work as printed.

The systemd units' commands, HAProxy in front of several boxes, the sender to an archive, and TLS
by stunnel. Only ports, names of hosts and folders are replaced in the texts.
"""
import contextlib
import fcntl
import json
import os
import pathlib
import re
import shutil
import signal

import pytest
from box import PATIENCE, listeners, wait_for
from images import (
    call,
    digests,
    dumped,
    element_of,
    filed,
    has_all,
    identity,
    need,
    pixels,
    study,
)
from orthanc import Orthanc
from peer import (
    CT,
    ECHO,
    EXPLICIT,
    RELEASE,
    RELEASED,
    ROOT,
    STORES,
    STORES_ANSWER,
    Archive,
    Peer,
    element,
)
from ports import free_port
from units import as_user, settings

# Classes that senders omit by default.
RARE = [
    "SegmentationStorage",
    "VLWholeSlideMicroscopyImageStorage",
    "BreastTomosynthesisImageStorage",
]
# The restrictions of a box, by the names of systemd's review.
PROTECTED = {
    "NoNewPrivileges",
    "PrivateDevices",
    "PrivateTmp",
    "ProtectClock",
    "ProtectControlGroups",
    "ProtectHome",
    "ProtectHostname",
    "ProtectKernelLogs",
    "ProtectKernelModules",
    "ProtectKernelTunables",
    "ProtectProc",
    "ProtectSystem",
    "ProcSubset",
    "RestrictRealtime",
}
# The drop-ins of the document for the unit, by a line of each.
DROP_INS = {
    "user": "^DynamicUser=no$",
    "disk": "^RequiresMountsFor=/srv/dicom$",
    "port": "^AmbientCapabilities=CAP_NET_BIND_SERVICE$",
    "metrics": "^RuntimeDirectory=dcmbox dcmbox-metrics$",
}
TARGETS = ["multi-user", "network-online", "sysinit", "basic", "shutdown", "timers"]
# Settings of a box's unit that restrict it.
RESTRICTIONS = ["MemoryMax", "LimitCORE", "TasksMax", "CapabilityBoundingSet", "SystemCallFilter", *sorted(PROTECTED)]


def block(pattern, document="docs/DEPLOY.md"):
    """Returns the indented block of a document with a matching line."""
    blocks, text, gap = [], "", ""
    for line in (ROOT / document).read_text().splitlines() + ["."]:
        if line.startswith("    "):
            text, gap = f"{text}{gap}{line[4:]}\n", ""
        elif not line:
            gap += "\n"
        else:
            blocks, text, gap = [*blocks, text], "", ""
    found = [one for one in blocks if re.search(pattern, one, re.M)]
    assert len(found) == 1, f"{document} has {len(found)} blocks with {pattern}"
    return found[0]


def row(message):
    """Returns the advice of docs/DEPLOY.md for a line of the log."""
    rows = (ROOT / "docs/DEPLOY.md").read_text().splitlines()
    found = [line for line in rows if line.startswith("| ") and message in line.split(" | ")[0]]
    assert len(found) == 1, f"docs/DEPLOY.md has {len(found)} rows with {message}"
    return found[0].split(" | ")[1]


def sentence(pattern):
    """Returns the one match of a pattern in docs/DEPLOY.md, whose lines are joined."""
    (found,) = re.findall(pattern, re.sub(r"\s+", " ", (ROOT / "docs/DEPLOY.md").read_text()))
    return found


def replaced(text, names):
    """Replaces ports, names of hosts and folders in a text of docs/DEPLOY.md, which has to have each."""
    for old, new in names.items():
        assert old in text, f"{old} is not in\n{text}"
        text = text.replace(old, str(new))
    return text


@pytest.fixture(scope="session")
def images(shared):
    """Eight images, and an object of each class that senders omit."""
    work = shared("images")
    made = [dumped(work, f"image{n}", identity(instance=f"2.25.1.{n}")) for n in range(1, 9)]
    rare = [dumped(work, name, identity(name, f"2.25.1.9{n}")) for n, name in enumerate(RARE)]
    return made, rare


@pytest.fixture
def root(program, work, units):
    """A root folder with the program and its units."""
    path = work / "root"
    for folder in ("usr/bin", "bin", "etc/default"):
        (path / folder).mkdir(parents=True)
    shutil.copy(program, path / "usr/bin/dcmbox")
    for tool in ("sh", "mkdir"):
        shutil.copy(f"/bin/{tool}", path / "bin")
    shutil.copy(ROOT / "packaging/dcmbox.default", path / "etc/default/dcmbox")
    call(work, ROOT / "packaging/make-units", "/usr", path.relative_to(work) / "lib/systemd/system")
    return units(path)


@pytest.fixture
def single(root, port):
    """The folder of a box of dcmbox.service."""
    root.use_port(port)
    root.run("dcmbox.service", port)
    return root.root / "var/lib/dcmbox"


def is_answered(work, port):
    """Returns whether a box replies to an echo on a port."""
    arguments = ("echoscu", "-to", "10", "-ta", "10", "-td", "10", "-aec", "DCMBOX", "127.0.0.1", port)
    return call(work, *arguments, check=False).returncode == 0


def until_answered(work, port):
    wait_for(lambda: is_answered(work, port), f"a box answers an echo on port {port}")


def until_listened(port):
    wait_for(lambda: listeners(port), f"port {port} is listened on")


def verified(root, unit):
    """Returns systemd's output about a unit of a root folder and its drop-ins."""
    folder = root.root / "lib/systemd/system"
    for target in TARGETS:
        (folder / f"{target}.target").write_text(f"[Unit]\nDescription={target}\n")
    arguments = ("systemd-analyze", f"--root={root.root}", "--man=no", "verify", unit)
    done = call(folder, *arguments, check=False)
    return "".join(line for line in (done.stdout + done.stderr).splitlines() if "dcmbox" in line)


class TestUnits:
    """The units: systemd accepts them, and each starts a box."""

    @pytest.mark.parametrize(
        "unit",
        ["dcmbox.service", "dcmbox@11201.service", "dcmbox-send@pacs.service", "dcmbox-send@pacs.timer"],
    )
    def test_systemd_accepts(self, root, unit):
        """systemd-analyze reports nothing about the unit."""
        assert verified(root, unit) == ""

    def test_systemd_accepts_each_drop_in(self, root):
        """systemd-analyze reports nothing about a unit with all drop-ins."""
        folder = root.root / "lib/systemd/system/dcmbox.service.d"
        folder.mkdir()
        for name, pattern in DROP_INS.items():
            (folder / f"{name}.conf").write_text(block(pattern))
        assert verified(root, "dcmbox.service") == ""

    def test_units_of_make_install_hide_those_of_the_package(self, root, work):
        """The document removes them before it installs the package."""
        hiding = root.root / "usr/local/lib/systemd/system"
        call(work, ROOT / "packaging/make-units", "/usr/local", hiding.relative_to(work))
        assert "Command /usr/local/bin/dcmbox is not executable" in verified(root, "dcmbox.service")
        before, _, _ = block("^sudo dpkg -i ").partition("dpkg -i")
        assert "systemctl disable --now dcmbox && sudo make uninstall" in before
        call(ROOT, "make", "-s", "uninstall", f"DESTDIR={root.root}")
        assert verified(root, "dcmbox.service") == ""

    @pytest.mark.parametrize(
        "unit", ["dcmbox.service", "dcmbox@11201.service", "dcmbox-send@pacs.service"]
    )
    def test_restrictions_of_a_unit(self, root, unit):
        """systemd's review does not include the limit of core dumps, which have patients' data."""
        folder = root.root / "lib/systemd/system"
        verified(root, unit)
        arguments = ("systemd-analyze", "security", "--offline=yes", "--json=short", f"./{unit}")
        review = json.loads(call(folder, *arguments).stdout)
        assert {one["name"].rstrip("=") for one in review if one["set"]} >= PROTECTED
        assert settings(root.unit(re.sub("@.*", "@.service", unit)), "LimitCORE") == ["0"]

    def test_each_starts_a_box_over_a_folder_of_its_own(self, root, single, port, work):
        until_answered(work, port)
        ports = [free_port(), free_port()]
        for other in ports:
            root.run("dcmbox@.service", other, str(other))
            until_answered(work, other)
        assert single.is_dir()
        assert all(single.with_name(f"dcmbox-{other}").is_dir() for other in ports)

    def test_a_box_is_restarted_only_if_that_may_help(self, root, port):
        """A restart may help while another box has the folder, and does not help with a wrong option."""
        root.use_port(port)
        options = root.root / "etc/default/dcmbox"
        root.run("dcmbox.service", port)
        ended = [root.start("dcmbox.service").wait(PATIENCE)]
        options.write_text(f'{options.read_text()}DCMBOX_OPTIONS="--no-such-option"\n')
        ended.append(root.start("dcmbox.service").wait(PATIENCE))
        assert ended == [3, 2]
        unit = root.unit("dcmbox.service")
        assert settings(unit, "RestartPreventExitStatus") == ["2"]
        assert settings(unit, "StartLimitIntervalSec") == ["0"]
        assert settings(unit, "Restart") == ["always"]

    @pytest.mark.parametrize("unit", ["dcmbox.service", "dcmbox@.service"])
    def test_stopping_one_ends_it_in_good_order(self, root, port, unit):
        """The status is 0, and an open association has its line in the log."""
        root.use_port(port)
        instance = str(port) if "@" in unit else ""
        box = root.run(unit, port, instance)
        with Peer(port) as peer:
            peer.send(STORES[: -len(RELEASE)])
            answer = STORES_ANSWER[: -len(RELEASED)]
            assert peer.receive(len(answer)) == answer
            assert root.stop_one(unit, box, instance) == 0
        assert " aborted: the box stops contexts " in root.log(unit, instance).read_text()

    @pytest.mark.parametrize("unit", ["dcmbox.service", "dcmbox@.service"])
    def test_the_quarantine_is_made(self, root, users, port, work, unit):
        """The quarantine belongs to the box's user and group, and nobody else may enter it."""
        work.chmod(0o755)
        root.use_port(port)
        instance = f"-{port}" if "@" in unit else ""
        folder = root.root / f"var/lib/dcmbox{instance}/quarantine"
        options = root.root / "etc/default/dcmbox"
        options.write_text(f'{options.read_text()}DCMBOX_OPTIONS="--quarantine {folder}"\n')
        owner = users["dcmbox"][:2]
        root.run(unit, port, instance[1:], owner=owner)
        found = folder.stat()
        assert (found.st_uid, found.st_gid, found.st_mode & 0o777) == (*owner, 0o770)

    def test_the_exporter_reads_the_metrics_and_no_received_file(
        self, root, users, images, tool, to_box, port, work
    ):
        """With the drop-in the importer can still move received files."""
        work.chmod(0o755)
        metrics = root.root / "run/dcmbox-metrics/dcmbox.prom"
        assert sentence("`--metrics /run/dcmbox-metrics/dcmbox.prom` in `(.*?)`") == "DCMBOX_LISTEN"
        options = root.root / "etc/default/dcmbox"
        text = options.read_text()
        assert "--quarantine and --metrics, belongs in DCMBOX_LISTEN" in " ".join(text.split("\n# "))
        options.write_text(replaced(text, {'DCMBOX_LISTEN="': f'DCMBOX_LISTEN="--metrics {metrics} '}))
        root.use_port(port)
        dropped_in = block(DROP_INS["user"]) + block(DROP_INS["metrics"])
        owner = users["dcmbox"][:2]
        root.run("dcmbox.service", port, dropped_in=dropped_in, owner=owner)
        tool("storescu", *to_box, images[0][0])
        stranger = as_user((64003, 64003))
        wait_for(metrics.exists, "the metrics are written")
        call("/", *stranger, "cat", metrics)
        image = filed(root.root / "var/lib")[0]
        assert call("/", *stranger, "cat", image, check=False).returncode != 0
        user, group, *further = users["importer"]
        call("/", *as_user((user, group), *further), "rm", image)

    def test_an_instance_of_the_template_has_options_of_its_own(self, root, work):
        mine, other = free_port(), free_port()
        own = root.root / f"etc/default/dcmbox-{mine}"
        own.write_text('DCMBOX_OPTIONS="--ae MINE --all-storage"\n')
        for port in (mine, other):
            root.run("dcmbox@.service", port, str(port))
        to_mine = ("127.0.0.1", mine)
        call(work, "echoscu", "-aec", "MINE", *to_mine)
        assert call(work, "echoscu", "-aec", "DCMBOX", *to_mine, check=False).returncode != 0
        until_answered(work, other)


def rows_from_storescp():
    """Returns the rows of the table of storescp's options: the cells of each."""
    _, _, text = (ROOT / "docs/DEPLOY.md").read_text().partition("\n| `storescp` | Here |\n|---|---|\n")
    return [line.strip("| ").split(" | ") for line in text.partition("\n\n")[0].splitlines()]


class TestFromStorescp:
    """The table of storescp's options."""

    def test_it_has_those_that_are_in_use(self):
        named = {option for theirs, _ in rows_from_storescp() for option in re.findall("`(.*?)`", theirs)}
        assert named >= {*"-aet -od --fork +xa -td -xcr -su -fe -pm".split()}

    def test_it_names_options_that_exist(self, tool, run):
        """Each has those of storescp and of `serve`."""
        rows = rows_from_storescp()
        theirs = re.findall("`([-+].*?)`", " ".join(old for old, _ in rows))
        ours = re.findall(r"(--[\w-]+)", " ".join(new for _, new in rows))
        for options, text in (theirs, tool("storescp", "--help").stdout), (ours, run("help", "serve").stdout):
            assert options and [it for it in options if not re.search(rf"(?<!\S){re.escape(it)}\b", text)] == []

    @pytest.mark.parametrize("called, is_accepted", [((), False), (("--any-called",), True)])
    def test_another_called_title(self, serve, tool, port, called, is_accepted):
        serve(*called)
        done = tool("echoscu", "-aec", "OTHER", "127.0.0.1", port, check=False)
        assert (done.returncode == 0) == is_accepted


def test_a_signed_release(tool, work):
    """The commands of the document sign and check it; a changed file or list of digests is found."""
    key = work / "id_ed25519"
    tool("ssh-keygen", "-q", "-t", "ed25519", "-N", "", "-f", key)
    (work / "signers").write_text(f"NAME {key.with_suffix('.pub').read_text()}")
    (work / "dcmbox").write_text("program")
    (work / "SHA256SUMS").write_text(tool("sha256sum", "dcmbox").stdout)
    tool("sh", "-e", "-c", replaced(block("-Y sign "), {"~/.ssh/id_ed25519": key}))
    checked = lambda: tool("sh", "-e", "-c", block("-Y verify "), check=False).returncode == 0
    assert checked()
    (work / "dcmbox").write_text("another")
    assert not checked()
    (work / "SHA256SUMS").write_text(tool("sha256sum", "dcmbox").stdout)
    assert not checked()


def test_the_start_with_a_package(root, single, images, program, port, work):
    """The commands of README after `systemctl start`."""
    installed, commands = block("^sudo dpkg -i ", "README.md").strip().split("\n", 1)
    assert re.match(r"sudo dpkg -i dcmbox_\*\.deb && sudo systemctl start dcmbox +# ", installed)
    shutil.copy(images[0][0], work / "image.dcm")
    names = {"11112": port, "sudo dcmbox": program, "/var/lib/dcmbox": single}
    listed = call(work, "sh", "-e", "-c", replaced(commands, names)).stdout
    assert has_all(single, [work / "image.dcm"])
    assert element_of("0020,000d", work / "image.dcm") in listed


def test_the_trial_without_proof(program, spawn, tool, images, port, work):
    """The commands of README after `make unproved`."""
    (work / "dcmbox-unproved").symlink_to(program)
    shutil.copy(images[0][0], work / "image.dcm")
    serves, commands = block("^./dcmbox-unproved show ", "README.md").split(" &\n")
    spawn("sh", "-c", replaced(serves, {"11112": port, "&& ": "&& exec "}))
    until_listened(port)
    shown = tool("sh", "-e", "-c", replaced(commands, {"11112": port})).stdout
    assert f"instance {element_of('0008,0018', work / 'image.dcm')}\n" in shown


class TestAnotherDisk:
    """The folder of received files is on a disk of its own."""

    def test_a_box_of_a_user_files_there(self, small_disk, root, users, images, tool, to_box, port):
        """The lines of the document suffice; no file is stored in the folder of the unit."""
        disk = small_disk("disk", "-t", "tmpfs", "none")
        disk.parent.chmod(0o755)
        user, group = users["dcmbox"][:2]
        names = {"-o dcmbox -g dicom": f"-o {user} -g {group}", "/srv/dicom": disk, "sudo ": ""}
        tool("sh", "-e", "-c", replaced(block("^sudo install -d -o dcmbox "), names))
        options = root.root / "etc/default/dcmbox"
        folder = replaced("DCMBOX_FOLDER=/srv/dicom/received", {"/srv/dicom": disk})
        assert "`DCMBOX_FOLDER=/srv/dicom/received`" in (ROOT / "docs/DEPLOY.md").read_text()
        options.write_text(f"{options.read_text()}{folder}\n")
        root.use_port(port)
        root.run("dcmbox.service", port, owner=(user, group))
        tool("storescu", *to_box, *images[0])
        assert has_all(disk / "received", images[0])
        assert filed(root.root / "var/lib") == []


def test_haproxy_in_front_of_four_boxes(root, spawn, images, work):
    """Eight senders at once are served while two of four boxes are down, and while three are.

    Each image is filed once.
    """
    need("haproxy", "storescu")
    balancer, *ports = [free_port() for _ in range(5)]
    boxes = [root.run("dcmbox@.service", port, str(port)) for port in ports[:2]]
    names = {"bind :104": f"bind 127.0.0.1:{balancer}", "/dev/log": work / "haproxy.log"}
    names.update({f":1120{n}": f":{port}" for n, port in enumerate(ports, 1)})
    (work / "haproxy.cfg").write_text(replaced(block("^frontend dicom$"), names))
    call(work, "haproxy", "-c", "-f", "haproxy.cfg")
    spawn("haproxy", "-db", "-f", "haproxy.cfg", log="haproxy.txt")
    until_answered(work, balancer)

    for count in (8, 16):
        to_balancer = ("-aec", "DCMBOX", "127.0.0.1", balancer)
        senders = [spawn("storescu", *to_balancer, image) for image in images[0]]
        assert [sender.wait(PATIENCE) for sender in senders] == [0] * 8
        assert len(filed(root.root / "var/lib")) == count
        boxes[0].terminate()
        boxes[0].wait(PATIENCE)


@pytest.fixture
def users(work):
    """The users that the document's lines create and `importer`, in files of their own.

    Each has its number, that of its group, and those of its further groups.
    """
    need("groupadd", "useradd", "usermod", "setpriv")
    if os.getuid() != 0:
        pytest.skip("root alone can run as other users")
    (work / "users/etc").mkdir(parents=True)
    (work / "tools").mkdir()
    for name in ("passwd", "group", "shadow", "gshadow"):
        (work / "users/etc" / name).touch()
    # (a running unit has a dynamic user of the name)
    taken = f"case $* in *dcmbox) [ -e {work}/stopped ] || exit 9 ;; esac\n"
    for name, before in {"groupadd": "", "useradd": taken, "usermod": ""}.items():
        script = f'#!/bin/sh\n{before}exec {shutil.which(name)} --prefix {work}/users "$@"\n'
        (work / "tools" / name).write_text(script)
    stops = f'#!/bin/sh\n[ "$*" = "stop dcmbox" ] && touch {work}/stopped\n'
    (work / "tools/systemctl").write_text(stops)
    (work / "tools/sudo").write_text('#!/bin/sh\nexec "$@"\n')
    for path in (work / "tools").iterdir():
        path.chmod(0o755)
    lines = f"PATH={work}/tools:$PATH\nuseradd --system importer\n"
    call(work, "sh", "-e", "-c", lines + block("groupadd --system dicom"))

    def rows(name):
        return [line.split(":") for line in (work / "users/etc" / name).read_text().splitlines()]

    further = {name: [] for name, *_ in rows("passwd")}
    for _, _, group, members in rows("group"):
        for name in filter(None, members.split(",")):
            further[name].append(int(group))
    return {
        name: (int(user), int(group), *further[name])
        for name, _, user, group, *_ in rows("passwd")
    }


def images_in(box):
    """Returns the received files in the folder of a box."""
    return [path for path in filed(box) if path.parent.name != "refused"]


class TestImporter:
    """The unit of a sender removes what the archive accepted, and sets aside what it refuses for good."""

    @pytest.fixture
    def archive_port(self):
        return free_port()

    @pytest.fixture
    def dropped_in(self, users):
        """The drop-in for the user and the group of the box."""
        text = block(DROP_INS["user"])
        named = {users[name][0] for name in settings(text, "User")}
        assert named == {users["dcmbox"][0]} and settings(text, "Group") == ["dicom"]
        return text

    @pytest.fixture
    def box(self, root, users, port, work, dropped_in):
        """The folder of a box with the drop-in."""
        work.chmod(0o755)
        root.use_port(port)
        root.run("dcmbox.service", port, dropped_in=dropped_in, owner=users["dcmbox"][:2])
        return root.root / "var/lib/dcmbox"

    @pytest.fixture
    def imports(self, root, users, box, archive_port, dropped_in):
        """Runs the unit, and returns its status, its output and the number of images in the folder."""
        options = replaced(block("^DCMBOX_ARCHIVE="), {"archive.example:104": f"127.0.0.1:{archive_port}"})
        (root.root / "etc/default/dcmbox-send-pacs").write_text(options.strip().partition("\n")[0])
        name, log = "dcmbox-send@.service", root.log("dcmbox-send@.service", "pacs")

        def imported():
            before = len(log.read_text()) if log.exists() else 0
            keywords = {"dropped_in": dropped_in, "owner": users["dcmbox"][:2]}
            status = root.start(name, "pacs", **keywords).wait(PATIENCE)
            return status, log.read_text()[before:], len(images_in(box))

        return imported

    @pytest.fixture
    def received(self, tool, to_box, box, images):
        """Has the box receive eight images, in a folder that its group can write."""
        tool("storescu", *to_box, *images[0])
        assert (box / "S0000001").stat().st_mode & 0o777 == 0o770
        assert {path.stat().st_mode & 0o777 for path in filed(box)} == {0o660}

    def test_the_unit_has_the_user_and_the_folder_of_the_box(self, root):
        box, sender = (root.unit(f"dcmbox{name}.service") for name in ("", "-send@"))
        for name in ("DynamicUser", "UMask", "StateDirectoryMode", "Environment", *RESTRICTIONS):
            assert settings(sender, name) == (["256M"] if name == "MemoryMax" else settings(box, name))
        assert settings(sender, "User") == ["dcmbox"] == settings(sender, "StateDirectory")

    def test_images_that_the_archive_accepts(
        self, tool, to_box, box, received, imports, images, spawn, work, archive_port
    ):
        """The archive accepts also classes that senders omit, and a file outside the folders."""
        tool("storescu", "-R", *to_box, *images[1])
        (box / "S0000001/I0000001").rename(box / "I0000001")
        archive = work / "archive"
        archive.mkdir()
        need("storescp")
        spawn("storescp", "-aet", "ARCHIVE", "+xa", archive_port, cwd=archive)
        until_listened(archive_port)
        assert imports() == (0, "", 0)
        assert len(list(archive.iterdir())) == 11
        assert imports() == (0, "", 0)

    def test_one_association_has_all(self, received, imports, archive_port):
        with Archive(archive_port) as archive:
            assert imports() == (0, "", 0)
        assert archive.callers == ["DCMBOX"]

    @pytest.mark.parametrize("is_there", [False, True], ids=["down", "rejecting"])
    def test_images_remain_without_an_association(
        self, box, received, imports, spawn, archive_port, is_there
    ):
        if is_there:
            spawn("storescp", "--refuse", archive_port)
            until_listened(archive_port)
        for _ in range(2):
            status, output, count = imports()
            assert (status, count) == (1 if is_there else 3, 8)
            assert ("rejected" if is_there else "Connection refused") in output
        assert list((box / "refused").iterdir()) == []

    @pytest.mark.parametrize("status", [0xC000, 0x0122])
    def test_an_image_refused_for_good(self, box, received, imports, archive_port, status):
        """The image is moved away, with the reason in a text; accepted images are removed."""
        names = {element_of("0008,0018", path): path.relative_to(box) for path in filed(box)}
        name = names["2.25.1.3"]
        with Archive(archive_port, others={"2.25.1.3": status}):
            ended, output, count = imports()
            assert (ended, count) == (1, 0) and f"/{name}: refused with status {status:04X}" in output
            assert imports() == (0, "", 0)
        refused = box / "refused"
        assert element_of("0008,0018", refused / name.name) == "2.25.1.3"
        assert f"status: {status:04X}, " in (refused / f"{name.name}.txt").read_text()
        assert refused.stat().st_mode & 0o777 == 0o770

    @pytest.mark.parametrize("status", [0xA700, None])
    def test_an_image_refused_once(self, box, received, imports, archive_port, status):
        """The image remains until it is accepted."""
        with Archive(archive_port, others={"2.25.1.3": status}):
            assert imports()[::2] == (1, 1)
        with Archive(archive_port, 0xB007):
            assert imports()[::2] == (0, 0)
        assert list((box / "refused").iterdir()) == []

    def test_without_systemd(self, users, box, received, archive_port, work, program, root):
        """What the archive refuses for good has a line, and is not sent again."""
        need("flock", "setpriv")
        (work / "lock").touch()
        (work / "lock").chmod(0o666)
        refused = root.root / "srv/refused"
        refused.mkdir(parents=True)
        os.chown(refused, *users["dcmbox"][:2])
        refused.chmod(0o770)
        names = {
            "* * * * * ": "",
            "/run/lock/dcmbox-send": work / "lock",
            "/var/lib/dcmbox": box,
            "/srv/refused": refused,
            "archive.example:104": f"127.0.0.1:{archive_port}",
            "dcmbox send ": f"{program} send ",
        }
        command = replaced(block("dcmbox send /var"), names)
        user, group, *further = users["importer"]

        def sent():
            done = call("/", *as_user((user, group), *further), "sh", "-c", command, check=False)
            return done.stdout + done.stderr, len(filed(box))

        with Archive(archive_port, others={"2.25.1.3": 0xA700, "2.25.1.4": 0xC000}):
            output, count = sent()
            assert count == 1 and output.count("\n") == 2
            assert ": refused with status A700\n" in output and "; set aside\n" in output
        with Archive(archive_port):
            assert sent() == ("", 0)
        assert len(list(refused.iterdir())) == 2

    def test_compressed_images_in_orthanc(
        self, tool, to_box, box, imports, spawn, port, archive_port, work
    ):
        """Orthanc gets the images bit for bit."""
        need("Orthanc", "dcmcjpeg", "dcmcjpls", "dcmcrle")
        (work / "pixels").write_bytes(bytes(range(256)))
        for number, (by, proposal) in enumerate(
            [("dcmcjpeg +e1", "-xs"), ("dcmcjpls", "-xt"), ("dcmcrle", "-xr")]
        ):
            text = identity(instance=f"2.25.9.{number}") + study(number)
            native = dumped(work, "native", text + pixels("pixels", vr="OB"))
            tool(*by.split(), native, "encoded.dcm")
            tool("storescu", proposal, *to_box, "encoded.dcm")
        sent = [shutil.copy(path, work / path.name) for path in filed(box)]
        archive = Orthanc(work, port, spawn, archive_port)
        assert imports() == (0, "", 0)
        downloaded = archive.download(work)
        assert len(downloaded) == 3 and digests(downloaded) == digests(sent)


class TestTree:
    """A tree that members of a group can read and not write, and nobody else can read."""

    BOX, READER, STRANGER = (64001, 64001), (64002, 64010), (64003, 64003)

    def reads(self, user, path):
        return call("/", *as_user(user), "cat", path, check=False).returncode == 0

    @pytest.mark.parametrize("links", [True, False], ids=["links", "copies"])
    def test_who_reads_it(self, root, program, images, tool, to_box, port, work, links):
        """Members of the group can also read files received before, and copies without ACLs."""
        need("setfacl", "flock", "setpriv")
        if os.getuid() != 0:
            pytest.skip("root alone can run as other users")
        work.chmod(0o755)
        root.use_port(port)
        root.run("dcmbox.service", port, owner=self.BOX)
        folder, tree = root.root / "var/lib/dcmbox", work / "tree"
        group = self.READER[1]
        names = {"sudo ": "", "/srv/images": tree, "/var/lib/dcmbox": folder}
        lines = replaced(
            block("^sudo setfacl "),
            {"sudo groupadd --system readers\n": "", "-g readers": f"-g {group}", **names},
        )
        line = replaced(lines, {"g:readers:": f"g:{group}:"})
        if not links:
            line = re.sub("^setfacl .*\n", "", line, flags=re.M)
        tool("storescu", *to_box, images[0][0])
        tool("sh", "-e", "-c", line)
        tool("storescu", *to_box, *images[0][1:])
        del names["sudo "]
        names.update({"*/5 * * * * ": "", "/run/": f"{work}/", "dcmbox arr": f"{program} arr"})
        command = replaced(block("dcmbox arrange "), names)
        tool("sh", "-e", "-c", command if links else replaced(command, {" >": " --copy >"}))
        made = [path for path in tree.rglob("*") if path.is_file()]
        assert digests(made) == digests(images[0])
        assert {path.stat().st_nlink for path in made} == {2 if links else 1}
        assert all(self.reads(self.READER, path) for path in made)
        assert not any(self.reads(self.STRANGER, path) for path in made)
        write = (*as_user(self.READER), "sh", "-c", ': >>"$0"', made[0])
        assert call("/", *write, check=False).returncode != 0


class TestStandardError:
    """The behaviour of a box by the state of its standard error."""

    @pytest.fixture
    def pipe(self, work):
        """The reading end of a pipe of one page, named `pipe`."""
        os.mkfifo(work / "pipe")
        reader = os.open(work / "pipe", os.O_RDONLY | os.O_NONBLOCK)
        fcntl.fcntl(reader, fcntl.F_SETPIPE_SZ, 4096)
        yield reader
        os.close(reader)

    def test_a_pipe_that_nobody_reads_stops_it_until_it_is_read(self, serve, pipe):
        box = serve("--timeout", "30", before=["sh", "-c", 'exec "$@" 2>pipe', "sh"])

        def stops():
            """Returns whether the box does not reply; an association that stored something always has its line."""
            with box.connect() as peer:
                peer.send(STORES)
                return peer.is_silent(3)

        assert not stops()
        assert any(stops() for _ in range(100))
        assert b"listening on" in os.read(pipe, 1 << 16)
        wait_for(box.echoes, "it serves on")

    @pytest.mark.parametrize("to", ["&-", "/dev/full", "pipe"])
    def test_it_serves_on(self, serve, work, to):
        """The box keeps serving if standard error is closed, full, or a pipe whose reader has ended."""
        os.mkfifo(work / "pipe")
        reader = os.open(work / "pipe", os.O_RDONLY | os.O_NONBLOCK)
        box = serve("--timeout", "30", before=["sh", "-c", f'exec "$@" 2>{to}', "sh"])
        os.close(reader)
        assert all(box.answers(STORES, STORES_ANSWER) for _ in range(3))
        assert len(box.files()) == 6

    def test_a_limit_of_the_size_of_files_kills_it(self, serve):
        need("prlimit")
        box = serve("--timeout", "30", before=["prlimit", "--fsize=8192"])
        assert box.answers(STORES, STORES_ANSWER)
        with box.connect() as peer:
            peer.associate([(CT, EXPLICIT)])
            data = element((0x0010, 0x0010), "PN", b"A" * 10000)
            peer.send_store(1, CT, "2.25.1", data)
            assert box.ended() == -signal.SIGXFSZ


class TestNumbersAtTheirEnd:
    """The advice of docs/DEPLOY.md for a file of numbers at the last number."""

    @pytest.fixture
    def stores(self, serve, put):
        """Returns whether a box with an empty folder and the last number used up can store."""
        put({"numbers.txt": b"I9999999 S0000000\n"})

        def stored(*options):
            box = serve("--timeout", "30", "--numbers", "numbers.txt", *options)
            done = box.answers(STORES, STORES_ANSWER)
            box.stop()
            assert done or "is left: move the files and the file of numbers away" in box.log
            return done

        return stored

    def test_to_move_the_files_away_is_not_enough(self, stores, work):
        output = row("no number up to 9999999 is left") + row("few numbers are left")
        assert "remove the file of `--numbers`" in output and "`--per`" in output
        assert not stores()
        (work / "numbers.txt").unlink()
        assert stores()

    def test_folders_have_numbers_of_their_own(self, stores):
        assert stores("--per", "1000")


class TestOldFiles:
    """Old files are removed while a box runs."""

    def test_they_are_removed_and_nothing_else(self, root, images, tool, to_box, port):
        """A store that is in progress meanwhile is filed with the next number."""
        root.use_port(port)
        root.run("dcmbox.service", port)
        tool("storescu", *to_box, *images[0])
        before = filed(root.root)
        days = 86400 * 31
        for path in before[:5]:
            os.utime(path, (path.stat().st_mtime - days,) * 2)
        line = replaced(block("-mtime"), {"/var/lib": root.root / "var/lib", "0 3 * * * ": ""})
        with Peer(port) as peer:
            peer.send(STORES[:320])
            wait_for(lambda: [*root.root.rglob("DRAFT*")], "a store has started")
            tool("sh", "-e", "-c", line)
            assert filed(root.root) == before[5:]
            peer.send(STORES[320:])
            assert peer.receive(len(STORES_ANSWER)) == STORES_ANSWER
        names = [path.name for path in filed(root.root)]
        assert names == [f"I00000{number:02}" for number in range(6, 11)]

    def test_an_empty_folder_is_removed_and_made_again(self, root, images, tool, to_box, port):
        """A folder with files remains."""
        root.use_port(port)
        root.run("dcmbox.service", port)
        tool("storescu", *to_box, images[0][0])
        (path,) = filed(root.root)
        path.unlink()
        other = path.parents[1] / "others"
        other.mkdir()
        line = block("-empty")
        tool("sh", "-e", "-c", replaced(line, {"/var/lib": root.root / "var/lib", "30 3 * * * ": ""}))
        assert other.exists() and not path.parent.exists()
        tool("storescu", *to_box, images[0][1])
        assert [path.name for path in filed(root.root)] == ["I0000002"]


def test_port_104(root, work):
    """A user can use the port only with the drop-in."""
    need("unshare", "setpriv")
    if os.getuid() != 0:
        pytest.skip("root alone can run as other users")
    work.chmod(0o755)
    options = root.root / "etc/default/dcmbox"
    text = options.read_text()
    options.write_text(replaced(text, {"--port 11112 ": "--port 104 "}))
    keywords = {"owner": (64001, 64001), "before": ("unshare", "--net")}
    assert root.start("dcmbox.service", **keywords).wait(PATIENCE) == 3
    box = root.start("dcmbox.service", dropped_in=block(DROP_INS["port"]), **keywords)
    sockets = pathlib.Path(f"/proc/{box.pid}/net/tcp")
    wait_for(lambda: re.search(":0068 0+:0000 0A ", sockets.read_text()), "it listens on port 104")


SIGNALS = "SIGHUP SIGINT SIGQUIT SIGTERM SIGUSR1 SIGUSR2 SIGKILL".split()


def test_the_signals_that_end_a_box():
    named = sentence(r"Signals\*\*: (.*?) end a box at once, losing")
    assert re.findall(r"SIG\w+", named) == SIGNALS


@pytest.mark.parametrize("name", SIGNALS)
def test_a_signal_loses_a_line_and_no_file(serve, name):
    """Files whose success was reported are on the disk; the association has no line."""
    box = serve("--timeout", "30")
    with box.connect() as peer:
        peer.send(STORES[: -len(RELEASE)])
        answer = STORES_ANSWER[: -len(RELEASED)]
        assert peer.receive(len(answer)) == answer
        box.stop(getattr(signal, name))
    assert box.process.returncode == -getattr(signal, name)
    assert box.files() == ["I0000001", "I0000002"]
    assert " stored " not in box.log


def test_a_signal_that_a_box_ignores(serve):
    assert sentence(r"(SIG\w+) is ignored") == "SIGPIPE"
    box = serve("--timeout", "30")
    os.kill(box.pid, signal.SIGPIPE)
    assert box.echoes()


def test_an_importer_is_notified_of_names(serve, spawn, work):
    """Each name is created when the file is complete; only the draft is written and closed."""
    need("inotifywait")
    box = serve()
    spawn("inotifywait", "-m", "-e", "create,close_write", "--format", "%e %f", box.folder)
    output = work / "output.txt"
    wait_for(lambda: "Watches established" in output.read_text(), "it watches")
    assert box.answers(STORES, STORES_ANSWER)
    wait_for(lambda: "I0000002" in output.read_text(), "it sees the second file")
    events = [line for line in output.read_text().splitlines() if " I0" in line]
    assert events == ["CREATE I0000001", "CREATE I0000002"]


def test_storage_commitment_is_refused(serve):
    """The association continues with its storage classes."""
    with serve().connect() as peer:
        asked = [("1.2.840.10008.1.20.1", EXPLICIT), (CT, EXPLICIT)]
        assert [result for result, _ in peer.associate(asked)] == [3, 0]


class TestContainer:
    """A container of packaging/Dockerfile: its process 1 runs as nobody, over folders of this machine."""

    KEPT, RUN = ["/var/lib/dcmbox", "/var/lib/dcmbox-numbers"], "/run/dcmbox"
    IMAGE = (ROOT / "packaging/Dockerfile").read_text().replace("\\\n", "")

    def of(self, instruction):
        """Returns the value of an instruction of the image."""
        (found,) = re.findall(f"^{instruction} (.*)$", self.IMAGE, re.M)
        return found

    @pytest.fixture
    def here(self, work):
        """Replaces the folders of the image by some of nobody in the working folder."""
        need("unshare", "setpriv", "install")
        if os.getuid() != 0:
            pytest.skip("root alone can run as other users")
        assert json.loads(self.of("VOLUME")) == self.KEPT
        work.chmod(0o755)
        (made,) = [line for line in block("^docker run ").splitlines() if " install -d " in line]
        for folder in (*self.KEPT, self.RUN):
            call(work, "sh", "-c", replaced(made, {"sudo ": "", "/srv/received": f"{work}{folder}"}))
        return lambda text: re.sub(r"(/var/lib|/run)/dcmbox\b", rf"{work}\g<0>", text)

    @pytest.fixture
    def container(self, here, program, spawn, port, work):
        """A container that listens on the port."""
        assert self.of("USER") == "nobody" and self.of("EXPOSE") == "11112"
        (name,) = json.loads(self.of("ENTRYPOINT"))
        (work / "bin").mkdir()
        shutil.copy(program, work / "bin/dcmbox")
        (work / "bin" / name).write_text(here((ROOT / "packaging" / name).read_text()))
        (work / "bin" / name).chmod(0o755)
        command = [str(port) if it == "11112" else here(it) for it in json.loads(self.of("CMD"))]
        path = f"PATH={work}/bin:/usr/bin:/bin"
        namespace = ("unshare", "--pid", "--fork", "env", path)
        started = spawn(*namespace, *as_user((65534, 65534)), work / "bin" / name, *command)
        until_listened(port)
        yield started
        for first in self.children(started):
            os.kill(first, signal.SIGKILL)

    def children(self, process):
        """Returns the numbers of the processes that a process started, if it still runs."""
        path = pathlib.Path(f"/proc/{process.pid}/task/{process.pid}/children")
        return [int(number) for number in path.read_text().split()] if path.exists() else []

    def test_its_command(self, container, images, tool, to_box, work):
        """The container files compressed images, too, and keeps its numbers outside the folder.

        Both folders outlive the container.
        """
        (work / "pixels").write_bytes(bytes(512))
        text = identity(instance="2.25.1.99") + study(1) + pixels("pixels", bits=12)
        compressed = work / "compressed.dcm"
        tool("dcmcrle", dumped(work, "image", text), compressed)
        tool("storescu", "-xr", *to_box, compressed)
        tool("storescu", *to_box, *images[0])
        folder, numbers = (work / folder[1:] for folder in self.KEPT)
        assert digests(filed(folder)) == digests([compressed, *images[0]])
        assert (numbers / "NUMBERS").is_file()

    def test_the_signal_that_ends_it(self, container, port, work):
        """Each success is on the disk, the status is 0, and the open association has its line in the log."""
        with Peer(port) as peer:
            peer.send(STORES[: -len(RELEASE)])
            answer = STORES_ANSWER[: -len(RELEASED)]
            assert peer.receive(len(answer)) == answer
            (first,) = self.children(container)
            os.kill(first, getattr(signal, self.of("STOPSIGNAL")))
            assert container.wait(PATIENCE) == 0
        assert [path.name for path in filed(work / "var/lib/dcmbox")] == ["I0000001", "I0000002"]
        assert " aborted: the box stops contexts " in (work / "output.txt").read_text()

    def test_its_health(self, container, here, work):
        """A box that no longer replaces its metrics is not healthy."""
        command = here(self.of("HEALTHCHECK").partition(" CMD ")[2])
        healthy = lambda: call(work, "sh", "-c", command, check=False).returncode == 0
        metrics = work / "run/dcmbox/dcmbox.prom"
        wait_for(healthy, "it is healthy")
        os.utime(metrics, (metrics.stat().st_mtime - 200,) * 2)
        assert not healthy()


@pytest.fixture
def certificates(work):
    """Makes a key with its certificate for each name, in one file: NAME.pem."""
    need("openssl")

    def made(*names):
        for name in names:
            arguments = f"req -x509 -newkey rsa:2048 -nodes -days 2 -subj /CN={name}".split()
            call(work, "openssl", *arguments, "-keyout", f"{name}.key", "-out", f"{name}.crt")
            parts = [(work / f"{name}.{part}").read_text() for part in ("key", "crt")]
            (work / f"{name}.pem").write_text("".join(parts))

    return made


FOREGROUND = "foreground = yes\npid =\n"


@pytest.mark.parametrize("ends_it", ["stunnel", "haproxy"])
def test_tls(root, spawn, certificates, port, work, ends_it):
    """A scanner with a known certificate is accepted, and a stranger is not.

    With the document's options ten scanners at once have a slot.
    """
    need("stunnel4", "haproxy")
    options = root.root / "etc/default/dcmbox"
    options.write_text(options.read_text() + block("--per-peer 16"))
    root.use_port(port)
    root.run("dcmbox.service", port)
    certificates("box", "scanner", "stranger")
    tls = free_port()
    names = {
        "127.0.0.1:11112": f"127.0.0.1:{port}",
        f"/etc/{ends_it}/box.pem": work / "box.pem",
        f"/etc/{ends_it}/scanners.pem": work / "scanner.crt",
    }
    if ends_it == "stunnel":
        names["accept = 2762"] = f"accept = 127.0.0.1:{tls}"
        (work / "server.conf").write_text(FOREGROUND + replaced(block(r"^\[dicom-tls\]$"), names))
        spawn("stunnel4", "server.conf", log="server.txt")
    else:
        names["bind :2762"] = f"bind 127.0.0.1:{tls}"
        (work / "server.conf").write_text(replaced(block("^frontend dicom-tls$"), names))
        call(work, "haproxy", "-c", "-f", "server.conf")
        spawn("haproxy", "-db", "-f", "server.conf", log="server.txt")
    until_listened(tls)
    tunnels = {name: free_port() for name in ("scanner", "stranger")}
    for name, accepts in tunnels.items():
        client = f"[{name}]\nclient = yes\naccept = 127.0.0.1:{accepts}\n"
        client += f"connect = 127.0.0.1:{tls}\ncert = {work}/{name}.pem\n"
        (work / f"{name}.conf").write_text(FOREGROUND + client)
        spawn("stunnel4", f"{name}.conf", log=f"{name}.txt")
        until_listened(accepts)
    until_answered(work, tunnels["scanner"])
    assert not is_answered(work, tunnels["stranger"])
    with contextlib.ExitStack() as stack:
        scanners = [stack.enter_context(Peer(tunnels["scanner"])) for _ in range(10)]
        for scanner in scanners:
            assert scanner.associate([(CT, EXPLICIT)]) == [(0, EXPLICIT)]
