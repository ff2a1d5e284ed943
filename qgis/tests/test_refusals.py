"""What is wrong is said in words, and nothing is left behind."""

import os
from collections.abc import Callable
from pathlib import Path
from typing import Any

import pytest
from conftest import best, processed
from layers import SQUARE, TOWNS, memory, small
from processing.core.ProcessingConfig import ProcessingConfig
from qgis.core import QgsProcessingException

BOWTIE = "Polygon ((0 0, 10 10, 10 0, 0 10, 0 0))"
CASES: list[tuple[str, Callable[[], dict[str, Any]], list[str]]] = [
    ("no such weight", lambda: {"WEIGHT": "peple"}, ["my points has no field peple", "it has people, name"]),
    ("text for a weight", lambda: {"WEIGHT": "name"}, ["The field name of my points", "the weight wants numbers"]),
    ("text for a reach", lambda: {"REACH_FIELD": "name"}, ["the reach wants numbers"]),
    ("no such name", lambda: {"NAME_FIELD": "Name"}, ["has no field Name for the name"]),
    ("two reaches", lambda: {"REACH": 5, "REACH_FIELD": "people"}, ["give one of them"]),
    (
        "a weight below 0",
        lambda: {"TOWNS": memory("Point", TOWNS, people=[1, 2, -3])},
        ["feature 3 of my points has the weight -3", "`mixed` takes both signs"],
    ),
    (
        "no town that counts",
        lambda: {"TOWNS": memory("Point", TOWNS[:1], people=[0])},
        ["my points has no town with a weight"],
    ),
    (
        "no reach of a town",
        lambda: {"TOWNS": memory("Point", TOWNS, people=[1, 2, 3], reach=[5, None, 7]), "REACH_FIELD": "reach"},
        ["feature 2 of my points has no reach"],
    ),
    (
        "areas for towns",
        lambda: {"TOWNS": memory("Polygon", [SQUARE], people=[1])},
        ["my polygons", "towns are points"],
    ),
    ("lines for a region", lambda: {"REGION": memory("LineString", ["LineString (0 0, 1 1)"])}, ["areas are polygons"]),
    (
        "a bowtie",
        lambda: {"REGION": memory("Polygon", [SQUARE, BOWTIE])},
        ["feature 2 of my polygons is invalid", "5, 5"],
    ),
    ("an empty area", lambda: {"FORBIDDEN": memory("Polygon", [SQUARE, None])}, ["feature 2 of my polygons is empty"]),
    ("no area at all", lambda: {"REGION": memory("Polygon", [])}, ["my polygons has no area"]),
    (
        "web Mercator",
        lambda: {"REGION": memory("Polygon", [SQUARE], "EPSG:3857")},
        ["my polygons is in web Mercator", "EPSG:326"],
    ),
    ("a layer that isn't there", lambda: {"REGION": "/nowhere.gpkg"}, ["/nowhere.gpkg"]),
]


@pytest.mark.parametrize("change, says", [case[1:] for case in CASES], ids=[case[0] for case in CASES])
def test_refusals(change: Callable[[], dict[str, Any]], says: list[str], tmp_path: Path) -> None:
    with pytest.raises(QgsProcessingException) as refused:
        best(small(FOLDER=str(tmp_path / "new" / "answer")) | change())
    text = str(refused.value)
    assert all(words in text for words in says), text
    assert "Traceback" not in text and ".gpkg" not in text.replace("/nowhere.gpkg", "")
    assert os.listdir(tmp_path) == []


def test_a_folder_with_an_answer_is_kept(tmp_path: Path) -> None:
    best(small(FOLDER=str(tmp_path)))
    before = sorted(tmp_path.rglob("*"))
    with pytest.raises(QgsProcessingException, match="has an answer already: name another folder"):
        best(small(FOLDER=str(tmp_path)))
    assert sorted(tmp_path.rglob("*")) == before


def test_a_folder_that_can_not_be_made() -> None:
    with pytest.raises(QgsProcessingException, match="/etc/passwd/a can't be made: Not a directory"):
        best(small(FOLDER="/etc/passwd/a"))


@pytest.mark.parametrize("setting, bsss", [("", None), ("/etc/passwd", None), ("", "/dev/null")])
def test_without_the_program(setting: str, bsss: str | None, monkeypatch: pytest.MonkeyPatch, tmp_path: Path) -> None:
    monkeypatch.setenv("PATH", "/nowhere")
    monkeypatch.delenv("BSSS")
    if bsss is not None:
        monkeypatch.setenv("BSSS", bsss)
    ProcessingConfig.setSettingValue("SITING_BSSS", setting)
    try:
        for name, given in (("siting:bestsite", small()), ("siting:audit", {"FOLDER": answered(tmp_path)})):
            with pytest.raises(QgsProcessingException) as refused:
                processed(name, given)
            assert "Settings > Options > Processing > Providers > Siting" in str(refused.value)
            assert (setting or bsss or "The program bsss isn't found. Build it") in str(refused.value)
    finally:
        ProcessingConfig.setSettingValue("SITING_BSSS", "")


def answered(folder: Path) -> str:
    """A folder that looks like an answer's."""
    (folder / "report.json").write_text("{}")
    return str(folder)


def test_the_setting_comes_first(monkeypatch: pytest.MonkeyPatch) -> None:
    program = os.environ["BSSS"]
    monkeypatch.setenv("BSSS", "/dev/null")
    ProcessingConfig.setSettingValue("SITING_BSSS", program)
    try:
        assert best(small())["WORD"] in ("within", "wider")
    finally:
        ProcessingConfig.setSettingValue("SITING_BSSS", "")


@pytest.mark.parametrize("name", ["siting:audit", "siting:comparesites"])
def test_a_folder_without_an_answer(name: str, tmp_path: Path) -> None:
    with pytest.raises(QgsProcessingException, match="is no folder of an answer: take one that Best site has written"):
        processed(name, {"FOLDER": str(tmp_path), "SITES": memory("Point", TOWNS), "COMPARED": "memory:"})
