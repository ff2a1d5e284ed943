"""A QGIS without a window, with the plugin of the zip in a fresh profile, and layers to try it on."""

import shutil
import subprocess
import sys
import tempfile
from collections.abc import Iterator
from pathlib import Path
from typing import Any

sys.path.insert(0, str(Path(__file__).resolve().parent.parent))
from fresh import HERE as QGIS
from fresh import ROOT, program, start

PROGRAM = program()
HOME = Path(tempfile.mkdtemp(prefix="siting-qgis-"))
APPLICATION, PLUGIN = start(HOME)

import processing
import pytest
from qgis.core import QgsFeatureRequest, QgsProcessingContext, QgsProcessingFeedback, QgsProject, QgsVectorLayer


class Told(QgsProcessingFeedback):
    """What an algorithm tells; it is canceled once `when` says so."""

    def __init__(self, when: Any = None) -> None:
        super().__init__(False)
        self.lines: list[str] = []
        self.steps: list[float] = []
        self.progressChanged.connect(self.steps.append)
        self.when = when

    def isCanceled(self) -> bool:
        if self.when is not None and not super().isCanceled() and self.when():
            self.cancel()
        return super().isCanceled()

    def pushInfo(self, info: str) -> None:
        self.lines.append(info)

    def pushWarning(self, warning: str) -> None:
        self.lines.append(f"warning: {warning}")

    def reportError(self, error: str, fatalError: bool = False) -> None:
        self.lines.append(f"error: {error}")

    def setProgressText(self, text: str) -> None:
        self.lines.append(f"progress: {text}")


@pytest.fixture(scope="session", autouse=True)
def home() -> Iterator[Path]:
    """The home of the fresh profile, which is taken away at the end."""
    yield HOME
    APPLICATION.exitQgis()
    shutil.rmtree(HOME, ignore_errors=True)


@pytest.fixture(scope="session")
def made(tmp_path_factory: pytest.TempPathFactory) -> Path:
    """Layers that `siting make` has made: towns, a district with bays, lakes and islands, forests."""
    folder = tmp_path_factory.mktemp("made")
    words = ["--seed", "5", "--towns", "40", "--vertices", "60", "--lakes", "2", "--forests", "2", "--package"]
    subprocess.run([ROOT / "siting" / "run", "make", *words, "--out", folder], check=True)
    return folder


@pytest.fixture
def layers(made: Path) -> dict[str, QgsVectorLayer]:
    """The same as QGIS has them."""
    return {name: opened(made, name) for name in ("towns", "district", "forests")}


def opened(folder: Path, name: str) -> QgsVectorLayer:
    """A layer of the made package."""
    layer = QgsVectorLayer(f"{folder}/layers.gpkg|layername={name}", name, "ogr")
    assert layer.isValid() and layer.crs().authid() == "EPSG:25832"
    return layer


def best(parameters: dict[str, Any], told: Told | None = None) -> dict[str, Any]:
    """Runs Best site."""
    return processed("siting:bestsite", parameters, told)


def processed(name: str, parameters: dict[str, Any], told: Told | None = None) -> dict[str, Any]:
    """Runs an algorithm; an error is raised as it is told."""
    context = QgsProcessingContext()
    context.setProject(QgsProject.instance())
    context.setInvalidGeometryCheck(QgsFeatureRequest.GeometryAbortOnInvalid)  # as the window has it
    return processing.run(name, parameters, context=context, feedback=told or Told())
