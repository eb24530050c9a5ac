"""Packs the module and its library for pip.

It is written out here so that installing needs nothing: no setuptools, no
network, no folder of half-made files (`build` is a script here, and setuptools
would want a folder of that name). pip finds it by pyproject.toml.
"""

from __future__ import annotations

import base64
import hashlib
import re
import zipfile
from pathlib import Path
from typing import Any, Dict, Optional

HERE = Path(__file__).resolve().parent
PACKED = "__init__.py", "py.typed", "libnoontrough.so"
#: Any Python 3, and the system that the engine's library is compiled for.
TAG = "py3-none-linux_x86_64"


def build_wheel(
    wheel_directory: str, config_settings: Optional[Dict[str, Any]] = None, metadata_directory: Optional[str] = None
) -> str:
    """Writes the wheel into that folder and gives its name, as pip asks for it (PEP 517)."""
    about = project()
    stem = f"{about['name']}-{about['version']}"
    files = {f"noontrough/{name}": packed(name) for name in PACKED}
    files[f"{stem}.dist-info/METADATA"] = metadata(about)
    files[f"{stem}.dist-info/WHEEL"] = f"Wheel-Version: 1.0\nRoot-Is-Purelib: false\nTag: {TAG}\n".encode("ascii")
    record = f"{stem}.dist-info/RECORD"
    sums = [f"{name},{digest(data)},{len(data)}\n" for name, data in files.items()]
    files[record] = "".join(sums + [f"{record},,\n"]).encode("ascii")
    wheel = f"{stem}-{TAG}.whl"
    with zipfile.ZipFile(Path(wheel_directory) / wheel, "w") as archive:
        for name, data in files.items():
            add(archive, name, data)
    return wheel


def build_sdist(sdist_directory: str, config_settings: Optional[Dict[str, Any]] = None) -> str:
    """There is none: the engine is proved and compiled in the repository."""
    raise NotImplementedError("noontrough is installed from its repository, as a wheel only")


def project() -> Dict[str, str]:
    """The lines of pyproject.toml that hold one text each; Python reads the form by itself only from 3.11 on."""
    return dict(re.findall(r'^([\w-]+) = "(.*)"$', (HERE / "pyproject.toml").read_text("utf-8"), re.MULTILINE))


def packed(name: str) -> bytes:
    """A file of the package."""
    path = HERE / "noontrough" / name
    if not path.is_file():
        raise FileNotFoundError(f"{path} is missing: run {HERE / 'build'} first")
    return path.read_bytes()


def metadata(about: Dict[str, str]) -> bytes:
    """What pip shows of the package."""
    lines = [
        "Metadata-Version: 2.1",
        f"Name: {about['name']}",
        f"Version: {about['version']}",
        f"Summary: {about['description']}",
        f"Requires-Python: {about['requires-python']}",
    ]
    return "".join(line + "\n" for line in lines).encode("utf-8")


def digest(data: bytes) -> str:
    """The sum of a file, as a wheel records it."""
    return "sha256=" + base64.urlsafe_b64encode(hashlib.sha256(data).digest()).decode("ascii").rstrip("=")


def add(archive: zipfile.ZipFile, name: str, data: bytes) -> None:
    """Adds a file that everyone may read, without the time, so that equal contents give equal wheels."""
    entry = zipfile.ZipInfo(name)
    entry.compress_type = zipfile.ZIP_DEFLATED
    entry.external_attr = 0o644 << 16
    archive.writestr(entry, data)
