"""Where the package finds its files and the program."""
from __future__ import annotations

from pathlib import Path

import pytest

from gsnap import data
from gsnap.errors import NoProgram

CLONE = Path(__file__).resolve().parents[2]


def stand_in(path: Path) -> Path:
    """Writes a program that does nothing."""
    path.write_text("#!/bin/sh\n")
    path.chmod(0o755)
    return path


def test_texts_are_those_of_the_clone() -> None:
    assert data.text_of("REFUSALS.md") == (CLONE / "docs/REFUSALS.md").read_text(encoding="utf-8")
    programs = [*(CLONE / "examples").glob("*.program"), *(CLONE / "examples/cookbook").glob("*.program")]
    assert len(programs) > 15
    for path in programs:
        assert data.text_of(path.name) == path.read_text(encoding="utf-8"), path


def test_an_unknown_text() -> None:
    with pytest.raises(FileNotFoundError, match="unheard_of.program"):
        data.text_of("unheard_of.program")


def test_version_is_that_of_the_release() -> None:
    assert f"program: gsnap {data.version()}\n" in (CLONE / "release/SOURCES").read_text()


def test_program_that_is_named(monkeypatch: pytest.MonkeyPatch, tmp_path: Path) -> None:
    monkeypatch.setenv("PATH", str(tmp_path / "bin"))
    (tmp_path / "bin").mkdir()
    on_path, named = stand_in(tmp_path / "bin" / "gsnap"), stand_in(tmp_path / "other")
    monkeypatch.setenv("GSNAP", str(named))
    assert data.program() == named
    monkeypatch.delenv("GSNAP")
    assert data.program() == on_path
    on_path.unlink()
    assert data.program() == data.own_program()
    assert data.own_program() in (CLONE / "release/gsnap", CLONE / "out/gsnap/gsnap")


def test_program_by_a_relative_name(monkeypatch: pytest.MonkeyPatch, tmp_path: Path) -> None:
    named = stand_in(tmp_path / "other")
    monkeypatch.chdir(tmp_path)
    monkeypatch.setenv("GSNAP", "./other")
    assert data.program() == named


def test_named_program_that_is_not_there(monkeypatch: pytest.MonkeyPatch, tmp_path: Path) -> None:
    cannot_run = tmp_path / "gsnap"
    cannot_run.write_text("")
    for name in (str(tmp_path / "lost"), "no-such-gsnap", str(cannot_run)):
        monkeypatch.setenv("GSNAP", name)
        with pytest.raises(NoProgram) as said:
            data.program()
        assert repr(name) in str(said.value)


def test_package_without_its_program(monkeypatch: pytest.MonkeyPatch, tmp_path: Path) -> None:
    cannot_run = tmp_path / "gsnap"
    cannot_run.write_text("")
    for found in ({}, {"gsnap": cannot_run}):
        monkeypatch.setattr(data, "files", lambda found=found: found)
        with pytest.raises(NoProgram, match="has no program gsnap"):
            data.own_program()
