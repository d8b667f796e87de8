"""What pip calls to install this folder, without a network: it packs the package as a wheel."""
import base64
import hashlib
import os
import re
import zipfile
from typing import Any, Dict, Optional

FOLDER = os.path.dirname(os.path.abspath(__file__))
NAME = "foldgneiss"
METADATA = """\
Metadata-Version: 2.1
Name: foldgneiss
Version: {version}
Summary: Runs, requests and verdicts of the attested microcontroller Foldgneiss
License: MIT
Requires-Python: >=3.8
"""
WHEEL = """\
Wheel-Version: 1.0
Generator: foldgneiss
Root-Is-Purelib: true
Tag: py3-none-any
"""
ENTRY_POINTS = """\
[pytest11]
foldgneiss = foldgneiss.pytest_plugin
"""
MOMENT = (1980, 1, 1, 0, 0, 0)  # of each file: the same package gives the same bytes


def content(path: str) -> bytes:
    with open(os.path.join(FOLDER, path), "rb") as file:
        return file.read()


def row(name: str, data: bytes) -> str:
    """A file's line in the wheel's record."""
    digest = base64.urlsafe_b64encode(hashlib.sha256(data).digest()).rstrip(b"=").decode()
    return f"{name},sha256={digest},{len(data)}\n"


def build_wheel(wheel_directory: str, config_settings: Optional[Dict[str, Any]] = None,
                metadata_directory: Optional[str] = None) -> str:
    """The name of the wheel that is made in a folder (PEP 517)."""
    found = re.search(r'^__version__ = "(.*)"$', content(f"{NAME}/__init__.py").decode(), re.M)
    assert found
    version = found[1]
    info = f"{NAME}-{version}.dist-info"
    files = {f"{NAME}/{name}": content(f"{NAME}/{name}")
             for name in sorted(os.listdir(os.path.join(FOLDER, NAME)))
             if name.endswith((".py", ".typed"))}
    files[f"{info}/METADATA"] = METADATA.format(version=version).encode()
    files[f"{info}/WHEEL"] = WHEEL.encode()
    files[f"{info}/entry_points.txt"] = ENTRY_POINTS.encode()
    record = "".join(row(name, data) for name, data in files.items()) + f"{info}/RECORD,,\n"
    files[f"{info}/RECORD"] = record.encode()
    wheel = f"{NAME}-{version}-py3-none-any.whl"
    with zipfile.ZipFile(os.path.join(wheel_directory, wheel), "w") as archive:
        for name, data in files.items():
            archive.writestr(zipfile.ZipInfo(name, MOMENT), data)
    return wheel
