"""Builds the package gsnap: wheels and source archives, with the standard library alone (PEP 517, PEP 660).

A wheel has the modules and, in `gsnap/files`, copies of the files that `gsnap.data` lists, the program among them. In a clone
these are the repository's own files; a source archive brings them in `gsnap/files`. The same input gives the same bytes.

usage: python3 build_backend.py --list      prints each file of the package, with tabs between its path, its place and its mode

The installer of the repository copies what that prints.
"""
from __future__ import annotations

import base64
import gzip
import hashlib
import io
import re
import sys
import tarfile
import zipfile
from pathlib import Path

from gsnap import data

HERE = Path(__file__).resolve().parent
TAG = "py3-none-linux_x86_64"
# The package's own files: its modules, and the parts of the page.
OWN_FILES = ("*.py", "py.typed", "page/*.py", "page/*.html", "page/*.css", "page/*.js")
# The modules of a source archive that are no part of the package.
OWN = ("pyproject.toml", "build_backend.py")
OLDEST = (1980, 1, 1, 0, 0, 0)


def package_files() -> list[tuple[Path, str, int]]:
    """Returns each file of the package: its path, its place below the folder of packages, and its mode."""
    own = [path for pattern in OWN_FILES for path in sorted((HERE / "gsnap").glob(pattern))]
    found = [(path, f"gsnap/{path.relative_to(HERE / 'gsnap')}", 0o644) for path in own]
    for name, path in data.files().items():
        found.append((path, f"gsnap/files/{name}", 0o755 if name == "gsnap" else 0o644))
    return found


def metadata() -> str:
    """Returns the file METADATA of a wheel, which is the file PKG-INFO of a source archive too."""
    text = (HERE / "pyproject.toml").read_text(encoding="utf-8")
    project = dict(re.findall(r'(?m)^([a-z-]+) = "(.*)"$', text.partition("[project]")[2].partition("\n[")[0]))
    return (
        f"Metadata-Version: 2.1\nName: {project['name']}\nVersion: {data.version()}\n"
        f"Summary: {project['description']}\nRequires-Python: {project['requires-python']}\n"
    )


def write_wheel(folder: str, files: list[tuple[bytes, str, int]]) -> str:
    """Writes a wheel of these files, each its bytes, place and mode, to a folder, and returns its name."""
    stem = f"gsnap-{data.version()}"
    wheel = f"Wheel-Version: 1.0\nGenerator: build_backend\nRoot-Is-Purelib: false\nTag: {TAG}\n"
    files = [
        *files,
        (metadata().encode(), f"{stem}.dist-info/METADATA", 0o644),
        (wheel.encode(), f"{stem}.dist-info/WHEEL", 0o644),
    ]
    record = ""
    with zipfile.ZipFile(Path(folder, f"{stem}-{TAG}.whl"), "w", zipfile.ZIP_DEFLATED) as archive:
        for content, place, mode in files:
            write_member(archive, content, place, mode)
            digest = base64.urlsafe_b64encode(hashlib.sha256(content).digest()).decode().rstrip("=")
            record += f"{place},sha256={digest},{len(content)}\n"
        place = f"{stem}.dist-info/RECORD"
        write_member(archive, f"{record}{place},,\n".encode(), place, 0o644)
    return f"{stem}-{TAG}.whl"


def write_member(archive: zipfile.ZipFile, content: bytes, place: str, mode: int) -> None:
    """Writes one file of a wheel."""
    member = zipfile.ZipInfo(place, OLDEST)
    member.external_attr = (0o100000 | mode) << 16
    member.compress_type = zipfile.ZIP_DEFLATED
    archive.writestr(member, content)


def build_wheel(wheel_directory: str, config_settings: object = None, metadata_directory: str | None = None) -> str:
    """Writes the wheel, and returns its name."""
    return write_wheel(wheel_directory, [(path.read_bytes(), place, mode) for path, place, mode in package_files()])


def build_editable(wheel_directory: str, config_settings: object = None, metadata_directory: str | None = None) -> str:
    """Writes a wheel that has the package where it is now, and returns its name."""
    return write_wheel(wheel_directory, [(f"{HERE}\n".encode(), "gsnap.pth", 0o644)])


def build_sdist(sdist_directory: str, config_settings: object = None) -> str:
    """Writes the source archive, and returns its name."""
    stem = f"gsnap-{data.version()}"
    files = [(path.read_bytes(), place, mode) for path, place, mode in package_files()]
    files += [((HERE / name).read_bytes(), name, 0o644) for name in OWN]
    files.append((metadata().encode(), "PKG-INFO", 0o644))
    with open(Path(sdist_directory, f"{stem}.tar.gz"), "wb") as file, gzip.GzipFile("", "wb", fileobj=file, mtime=0) as packed:
        with tarfile.TarFile(fileobj=packed, mode="w", format=tarfile.PAX_FORMAT) as archive:
            for content, place, mode in sorted(files, key=lambda it: it[1]):
                member = tarfile.TarInfo(f"{stem}/{place}")
                member.size, member.mode = len(content), mode
                archive.addfile(member, io.BytesIO(content))
    return f"{stem}.tar.gz"


if __name__ == "__main__":
    if sys.argv[1:] != ["--list"]:
        sys.exit("usage: build_backend.py --list")
    for path, place, mode in package_files():
        print(path, place, f"{mode:o}", sep="\t")
