"""Makes the wheel and the source archive of this package: a build backend (PEP 517 and 660) of Python alone.

A backend from elsewhere would have to be fetched or installed first, and Python brings none. So this one lets
`pip install ./clients/python` do its work without a network. It reads `pyproject.toml` beside it.
"""
from __future__ import annotations

import ast
import base64
import hashlib
import io
import os
import re
import tarfile
import zipfile
from typing import Any, Dict, Iterator, List, Optional, Tuple

HERE = os.path.dirname(os.path.abspath(__file__))
# The oldest date that a zip archive can have: two wheels of one source are the same bytes.
DATE = (1980, 1, 1, 0, 0, 0)
WHEEL = b"Wheel-Version: 1.0\nGenerator: wheels\nRoot-Is-Purelib: true\nTag: py3-none-any\n"
File = Tuple[str, bytes]


def build_wheel(wheel_directory: str, config_settings: Optional[Dict[str, Any]] = None,
        metadata_directory: Optional[str] = None) -> str:
    """Writes the wheel into a folder, and gives its file name."""
    return _wheel(wheel_directory, list(_files("src")))


def build_editable(wheel_directory: str, config_settings: Optional[Dict[str, Any]] = None,
        metadata_directory: Optional[str] = None) -> str:
    """Writes a wheel that leads Python to the sources here, and gives its file name."""
    return _wheel(wheel_directory, [(f"{_project()['name']}.pth", os.path.join(HERE, "src").encode() + b"\n")])


def build_sdist(sdist_directory: str, config_settings: Optional[Dict[str, Any]] = None) -> str:
    """Writes the archive of sources into a folder, and gives its file name."""
    project = _project()
    front = f"{project['name']}-{project['version']}"
    files = [(path, _read(path)) for path in ("pyproject.toml", "README.md", os.path.basename(__file__))]
    files += [(f"src/{path}", text) for path, text in _files("src")] + [("PKG-INFO", _metadata(project))]
    with tarfile.open(os.path.join(sdist_directory, f"{front}.tar.gz"), "w:gz", format=tarfile.PAX_FORMAT) as archive:
        for path, text in files:
            entry = tarfile.TarInfo(f"{front}/{path}")
            entry.size = len(text)
            archive.addfile(entry, io.BytesIO(text))
    return f"{front}.tar.gz"


def _wheel(folder: str, files: List[File]) -> str:
    project = _project()
    front = f"{project['name']}-{project['version']}"
    scripts = "".join(f"{name} = {place}\n" for name, place in project["scripts"].items())
    files += [
        (f"{front}.dist-info/METADATA", _metadata(project)),
        (f"{front}.dist-info/WHEEL", WHEEL),
        (f"{front}.dist-info/entry_points.txt", f"[console_scripts]\n{scripts}".encode()),
    ]
    record = f"{front}.dist-info/RECORD"
    listed = "".join(f"{path},sha256={_digest(text)},{len(text)}\n" for path, text in files) + f"{record},,\n"
    with zipfile.ZipFile(os.path.join(folder, f"{front}-py3-none-any.whl"), "w", zipfile.ZIP_DEFLATED) as archive:
        for path, text in [*files, (record, listed.encode())]:
            entry = zipfile.ZipInfo(path, DATE)
            entry.external_attr = 0o644 << 16
            archive.writestr(entry, text, zipfile.ZIP_DEFLATED)
    return f"{front}-py3-none-any.whl"


def _digest(text: bytes) -> str:
    return base64.urlsafe_b64encode(hashlib.sha256(text).digest()).rstrip(b"=").decode()


def _metadata(project: Dict[str, Any]) -> bytes:
    lines = ["Metadata-Version: 2.1", f"Name: {project['name']}", f"Version: {project['version']}",
        f"Summary: {project['description']}", f"Requires-Python: {project['requires-python']}",
        *(f"Requires-Dist: {each}" for each in project["dependencies"]),
        *(f"Classifier: {each}" for each in project["classifiers"]),
        "Description-Content-Type: text/markdown; charset=UTF-8", "", ""]
    return "\n".join(lines).encode() + _read(project["readme"])


def _project() -> Dict[str, Any]:
    """The table `project` of pyproject.toml with its scripts, and the version that the package says of itself."""
    tables = _tables(_read("pyproject.toml").decode())
    said = re.search(r'^__version__ = "([0-9.]+)"$', _read("src/bavgusen/__init__.py").decode(), re.MULTILINE)
    assert said, "the package says its version"
    return {**tables["project"], "version": said[1], "scripts": tables["project.scripts"]}


def _tables(text: str) -> Dict[str, Dict[str, Any]]:
    """The tables of a TOML file whose values are strings and lists of these, which Python writes alike.

    (Python reads TOML itself from 3.11 on.)
    """
    tables: Dict[str, Dict[str, Any]] = {}
    text = re.sub(r"^#.*\n", "", text, flags=re.MULTILINE)
    for name, body in re.findall(r"^\[([a-z.-]+)\]\n((?:(?!\[).*\n)*)", text, re.MULTILINE):
        values = re.findall(r"^([a-z-]+) = (\"[^\"\n]*\"|\[[^\]]*\])$", body, re.MULTILINE)
        tables[name] = {key: ast.literal_eval(value) for key, value in values}
    return tables


def _files(folder: str) -> Iterator[File]:
    """The files of a folder by their paths in it, in order, without what Python or a build keeps there."""
    top = os.path.join(HERE, folder)
    for path, folders, names in os.walk(top):
        folders[:] = sorted(each for each in folders if each != "__pycache__" and not each.endswith(".egg-info"))
        for name in sorted(names):
            yield os.path.relpath(os.path.join(path, name), top).replace(os.sep, "/"), _read(os.path.join(path, name))


def _read(path: str) -> bytes:
    with open(os.path.join(HERE, path), "rb") as file:
        return file.read()
