"""Runs the systemd units of a root folder as systemd would, with 16 MB of memory."""
import os
import re
import subprocess

from box import LITTLE, PATIENCE, listeners, prepare, wait_for


def in_root(root, command):
    """Returns the command with the folders of /var/lib and /run and the program in the root."""
    for folder in ("/var/lib", "/run/"):
        command = command.replace(folder, f"{root}{folder}")
    return f"{root}{command}"


def settings(unit, name, *default):
    """Returns the values of a setting in a unit, in order."""
    return re.findall(rf"^{name}=(.*)$", unit, re.M) or list(default)


def environment_files(unit):
    """Returns the paths of a unit's files of variables, also of optional ones."""
    return [path.lstrip("-") for path in settings(unit, "EnvironmentFile")]


def capabilities(unit, name):
    """Returns the capabilities that a setting grants, as setpriv writes them; an empty value removes all."""
    granted = []
    for value in settings(unit, name):
        granted = [*granted, *value.split()] if value else []
    return ",".join(["-all", *(one.lower().replace("cap_", "+") for one in granted)])


def as_user(owner, *groups, unit=""):
    """Returns the command that runs another as a user, a group and further groups, by their numbers.

    That command has the capabilities of a unit.
    """
    if not owner:
        return []
    user, group = owner
    further = ["--groups", ",".join(map(str, groups))] if groups else ["--clear-groups"]
    ambient = capabilities(unit, "AmbientCapabilities")
    return [
        *("setpriv", f"--reuid={user}", f"--regid={group}", *further),
        f"--bounding-set={capabilities(unit, 'CapabilityBoundingSet')}",
        *(f"--inh-caps={ambient}", f"--ambient-caps={ambient}"),
    ]


def linked(path):
    """Returns the folder to which a symbolic link leads, as with DynamicUser."""
    private = path.parent / "private" / path.name
    if not path.is_symlink():
        private.parent.mkdir(parents=True, exist_ok=True)
        path.symlink_to(private)
    return private


class Units:
    """The units of a root folder, and the processes of those that run."""

    def __init__(self, root):
        self.root, self.running = root, []

    def unit(self, name):
        return (self.root / "lib/systemd/system" / name).read_text()

    def use_port(self, port):
        """Replaces the port in the package's options."""
        path = self.root / "etc/default/dcmbox"
        options = path.read_text()
        assert "--port 11112 " in options
        path.write_text(options.replace("--port 11112 ", f"--port {port} "))

    def run(self, name, port, instance="", **keywords):
        """Runs a unit's command line with the root's options, and waits until it listens on the port."""
        process = self.start(name, instance, **keywords)

        def is_listening():
            assert process.poll() is None, self.log(name, instance).read_text()
            return listeners(port)

        wait_for(is_listening, f"{name} listens on port {port}")
        return process

    def log(self, name, instance=""):
        return self.root / f"{name}.{instance}.log"

    def start(self, name, instance="", dropped_in="", owner=None, before=()):
        """Runs a unit's command line with the root's options, after those of ExecStartPre.

        `dropped_in` is the text of a drop-in, `owner` the numbers of a user and a group, and
        `before` a command that runs it.
        """
        unit = (self.unit(name) + dropped_in).replace("%i", instance)
        for kind, base in (("StateDirectory", "var/lib"), ("RuntimeDirectory", "run")):
            mode = int(settings(unit, f"{kind}Mode", "0755")[-1], 8)
            for folder in " ".join(settings(unit, kind)).split():
                path = self.root / base / folder
                if kind == "StateDirectory" and settings(unit, "DynamicUser")[-1] == "yes":
                    path = linked(path)
                path.mkdir(parents=True, exist_ok=True)
                path.chmod(mode)
                if owner:
                    os.chown(path, *owner)
        files = [f'[ ! -e "$root{path}" ] || . "$root{path}"' for path in environment_files(unit)]
        command = in_root(self.root, settings(unit, "ExecStart")[-1])
        shell = [
            *settings(unit, "Environment"),
            *files,
            'case $DCMBOX_FOLDER in /var/lib/*) DCMBOX_FOLDER=$root$DCMBOX_FOLDER ;; esac',
            f'umask {settings(unit, "UMask")[-1]}',
            *(in_root(self.root, first) for first in settings(unit, "ExecStartPre")),
            f"exec {command}",
        ]
        with open(self.log(name, instance), "ab") as lines:
            process = subprocess.Popen(
                [*before, *as_user(owner, unit=unit), "sh", "-c", "\n".join(shell)],
                stdin=subprocess.DEVNULL,
                stderr=lines,
                env={
                    "root": str(self.root),
                    "DCMBOX_LISTEN": "",
                    "DCMBOX_OPTIONS": "",
                    "PATH": "/usr/bin:/bin",
                },
                preexec_fn=prepare(LITTLE),
            )
        self.running.append(process)
        return process

    def stop_one(self, name, process, instance=""):
        """Ends a unit's process by ExecStop, as `systemctl stop` does, and returns the status of the process."""
        command = in_root(self.root, settings(self.unit(name).replace("%i", instance), "ExecStop")[-1])
        stopping = subprocess.Popen(["sh", "-c", command], env={**os.environ, "MAINPID": str(process.pid)})
        status = process.wait(PATIENCE)
        assert stopping.wait(PATIENCE) == 0
        return status

    def stop(self):
        for process in self.running:
            process.terminate()
            process.wait(PATIENCE)
        self.running = []
