"""The package as it is installed: a wheel, a source archive, and pip in a new environment without a network."""
from __future__ import annotations

import base64
import hashlib
import os
import shutil
import subprocess
import sys
import tarfile
import zipfile
from pathlib import Path

import build_backend
import pytest

from gsnap import data

PACKAGE = Path(__file__).resolve().parents[1]
CLONE = PACKAGE.parent
PYTHONS = sorted({"/usr/bin/python3", shutil.which("python3") or "/usr/bin/python3"})
USE = """
import importlib.metadata, gsnap, gsnap.data, gsnap.page
with gsnap.Graph(3) as graph:
    graph.add_edge(0, 2)
    print(graph.commit(), list(map(int, graph.run(gsnap.distances(0)).distance)))
print(gsnap.data.program())
print(gsnap.__file__)
print(importlib.metadata.version("gsnap"))
print(len(gsnap.page.make_page(b"vertices 2\\n", [], "test", {}).html) > 10000)
"""


def run(folder: Path, *words: str | Path) -> str:
    """Runs a command in a folder that has nothing of the clone, without a network, and returns what it prints."""
    given = {"PATH": "/usr/bin:/bin", "HOME": str(folder), "PIP_NO_INDEX": "1", "PYTHONDONTWRITEBYTECODE": "1"}
    ran = subprocess.run(list(map(str, words)), cwd=folder, env=given, capture_output=True, text=True, check=False)
    assert ran.returncode == 0, ran.stdout + ran.stderr
    return ran.stdout


def test_pip_of_a_new_environment(tmp_path: Path) -> None:
    run(tmp_path, "/usr/bin/python3", "-m", "venv", "venv")
    inside = tmp_path / "venv/bin/python"
    for folder in ("setuptools", "pkg_resources", "wheel"):
        shutil.rmtree(next(tmp_path.glob("venv/lib/*/site-packages")) / folder, ignore_errors=True)
    run(tmp_path, inside, "-m", "pip", "install", "--no-build-isolation", PACKAGE)
    assert run(tmp_path, inside, "-c", USE).startswith("1 [0, -1, 1]\n")


@pytest.mark.parametrize("python", PYTHONS)
def test_pip_installs_it_and_takes_it_back(python: str, tmp_path: Path) -> None:
    run(tmp_path, python, "-m", "venv", "--without-pip", "venv")
    inside = tmp_path / "venv/bin/python"
    pip = (python, "-m", "pip", "--python", inside)
    run(tmp_path, *pip, "install", "--no-build-isolation", PACKAGE)
    said = run(tmp_path, inside, "-c", USE).splitlines()
    place = Path(said[2]).parent
    assert said[0] == "1 [0, -1, 1]"
    assert said[1] == str(place / "files/gsnap") and tmp_path in place.parents
    assert (place / "files/gsnap").read_bytes() == (CLONE / "release/gsnap").read_bytes()
    assert (place / "files/REFUSALS.md").read_bytes() == (CLONE / "docs/REFUSALS.md").read_bytes()
    assert {it.name for it in place.glob("*.py")} == {it.name for it in (PACKAGE / "gsnap").glob("*.py")} and (place / "py.typed").exists()
    assert said[3:] == [data.version(), "True"]
    run(tmp_path, *pip, "uninstall", "-y", "gsnap")
    assert not place.exists()


def test_pip_installs_it_where_it_is(tmp_path: Path) -> None:
    run(tmp_path, "/usr/bin/python3", "-m", "venv", "--without-pip", "venv")
    inside = tmp_path / "venv/bin/python"
    pip = ("/usr/bin/python3", "-m", "pip", "--python", inside)
    run(tmp_path, *pip, "install", "--no-build-isolation", "--editable", PACKAGE)
    said = run(tmp_path, inside, "-c", USE).splitlines()
    assert said == ["1 [0, -1, 1]", str(data.launched()), str(PACKAGE / "gsnap/__init__.py"), data.version(), "True"]


def test_wheel(tmp_path: Path) -> None:
    name = build_backend.build_wheel(str(tmp_path))
    assert name == f"gsnap-{data.version()}-py3-none-linux_x86_64.whl"
    (tmp_path / "again").mkdir()
    build_backend.build_wheel(str(tmp_path / "again"))
    assert (tmp_path / name).read_bytes() == (tmp_path / "again" / name).read_bytes()
    with zipfile.ZipFile(tmp_path / name) as archive:
        names = archive.namelist()
        assert [it.filename for it in archive.infolist() if it.external_attr >> 16 & 0o111] == ["gsnap/files/gsnap"]
        record = archive.read(f"gsnap-{data.version()}.dist-info/RECORD").decode().splitlines()
        assert [line.partition(",")[0] for line in record] == names
        for line in record[:-1]:
            place, digest, size = line.split(",")
            content = archive.read(place)
            wanted = base64.urlsafe_b64encode(hashlib.sha256(content).digest()).decode().rstrip("=")
            assert (digest, int(size)) == (f"sha256={wanted}", len(content)), place
    assert not [it for it in names if "/tests/" in it or "pycache" in it]


def test_source_archive_builds_the_same_wheel(tmp_path: Path) -> None:
    name = build_backend.build_sdist(str(tmp_path))
    with tarfile.open(tmp_path / name) as archive:
        archive.extractall(tmp_path)
    source = tmp_path / name.removesuffix(".tar.gz")
    assert (source / "PKG-INFO").read_text() == build_backend.metadata()
    build = "import sys; sys.path.insert(0, '.'); import build_backend; print(build_backend.build_wheel('..'))"
    subprocess.run([sys.executable, "-B", "-c", build], cwd=source, check=True, capture_output=True)
    wheel = build_backend.build_wheel(str(source))
    assert (tmp_path / wheel).read_bytes() == (source / wheel).read_bytes()


def test_the_package_has_no_cache_or_copy_in_the_clone() -> None:
    assert not (PACKAGE / "gsnap/files").exists()
    assert not list(PACKAGE.glob("*.egg-info")) and not (PACKAGE / "build").exists()
