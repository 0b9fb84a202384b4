"""Packs the two modules of this folder for `pip install clients/python`. It stands in for a build tool, so that pip needs none,
and no network."""

import base64
import hashlib
import tarfile
import zipfile
from pathlib import Path
from typing import Any, Optional

NAME = "mal_clients"
VERSION = "1.0"
MODULES = ("mal.py", "mal_service.py")
INFO = f"{NAME}-{VERSION}.dist-info"
METADATA = f"""Metadata-Version: 2.1
Name: {NAME.replace("_", "-")}
Version: {VERSION}
Summary: A SAT service and a SAT solver, proved to give models and refutations
Requires-Python: >=3.9
"""
WHEEL = f"Wheel-Version: 1.0\nGenerator: {NAME}\nRoot-Is-Purelib: true\nTag: py3-none-any\n"

Settings = Optional["dict[str, Any]"]


def build_wheel(folder: str, settings: Settings = None, metadata: Optional[str] = None) -> str:
    """Writes the wheel into the folder; its name."""
    name = f"{NAME}-{VERSION}-py3-none-any.whl"
    contents = {module: Path(module).read_bytes() for module in MODULES}
    contents.update({f"{INFO}/METADATA": METADATA.encode(), f"{INFO}/WHEEL": WHEEL.encode()})
    rows = [f"{path},sha256={digest(content)},{len(content)}\n" for path, content in contents.items()]
    contents[f"{INFO}/RECORD"] = "".join([*rows, f"{INFO}/RECORD,,\n"]).encode()
    with zipfile.ZipFile(Path(folder) / name, "w", zipfile.ZIP_DEFLATED) as wheel:
        for path, content in contents.items():
            wheel.writestr(path, content)
    return name


def build_sdist(folder: str, settings: Settings = None) -> str:
    """Writes the sources into the folder, as an archive; its name."""
    front = f"{NAME}-{VERSION}"
    Path(folder, "PKG-INFO").write_text(METADATA)
    with tarfile.open(Path(folder) / f"{front}.tar.gz", "w:gz") as archive:
        archive.add(Path(folder, "PKG-INFO"), f"{front}/PKG-INFO")
        for file in (*MODULES, "packing.py", "pyproject.toml"):
            archive.add(file, f"{front}/{file}")
    Path(folder, "PKG-INFO").unlink()
    return f"{front}.tar.gz"


def digest(content: bytes) -> str:
    """The checksum of a file, as a wheel's record has it."""
    return base64.urlsafe_b64encode(hashlib.sha256(content).digest()).rstrip(b"=").decode()
