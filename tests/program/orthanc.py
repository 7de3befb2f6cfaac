"""The archive Orthanc."""
import json
import urllib.request

from box import wait_for
from ports import free_port


class Orthanc:
    """An archive, controlled over HTTP. It can send its files to a box."""

    def __init__(self, work, port, spawn, own_port=None):
        """`port` is that of the box; on `own_port` the archive receives DICOM."""
        self.url = f"http://127.0.0.1:{free_port()}"
        settings = {
            "StorageDirectory": str(work / "archive"),
            "IndexDirectory": str(work / "archive"),
            "HttpPort": int(self.url.rsplit(":")[-1]),
            "DicomPort": own_port or free_port(),
            "DicomAet": "ARCHIVE",
            "AuthenticationEnabled": False,
            "RemoteAccessAllowed": False,
            "OverwriteInstances": True,
            "Plugins": [],
            "DicomModalities": {"box": ["DCMBOX", "127.0.0.1", port]},
        }
        (work / "archive").mkdir()
        (work / "archive.json").write_text(json.dumps(settings))
        spawn("Orthanc", "archive.json", log="archive.txt")
        wait_for(self.is_up, "Orthanc replies")

    def get(self, path, data=None):
        with urllib.request.urlopen(f"{self.url}/{path}", data, timeout=120) as answer:
            return answer.read()

    def get_json(self, path, data=None):
        return json.loads(self.get(path, data))

    def is_up(self):
        try:
            return self.get_json("system")
        except OSError:
            return None

    def forward(self, path):
        """Imports a file, and sends it to the box; returns how many instances failed."""
        instance = self.get_json("instances", path.read_bytes())["ID"]
        return self.get_json("modalities/box/store", instance.encode())["FailedInstancesCount"]

    def download(self, folder):
        """Writes each file of the archive into a folder; returns their paths."""
        paths = []
        for name in self.get_json("instances"):
            paths.append(folder / f"{name}.dcm")
            paths[-1].write_bytes(self.get(f"instances/{name}/file"))
        return paths
