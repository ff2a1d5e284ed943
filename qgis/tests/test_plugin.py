"""The zip, the provider, a model, qgis_process, and how layers look once they are loaded."""

import json
import subprocess
from configparser import ConfigParser
from pathlib import Path
from zipfile import ZipFile

import processing
import pytest
from conftest import HOME, QGIS, ROOT, best
from layers import memory, small
from qgis.core import (
    QgsApplication,
    QgsProcessingContext,
    QgsProcessingFeedback,
    QgsProcessingModelAlgorithm,
    QgsProcessingModelChildAlgorithm,
    QgsProcessingModelChildParameterSource,
    QgsProcessingModelOutput,
    QgsProcessingModelParameter,
    QgsProcessingParameterFeatureSource,
    QgsProject,
    QgsVectorFileWriter,
)

PROCESS = "/usr/bin/qgis_process.bin"
WANTED = ("name", "description", "about", "version", "qgisMinimumVersion", "author", "email", "icon", "tags")


def test_the_zip_is_whole_and_always_the_same(tmp_path: Path) -> None:
    subprocess.run([QGIS / "package", tmp_path / "again.zip"], check=True, stdout=subprocess.DEVNULL)
    assert (tmp_path / "again.zip").read_bytes() == (HOME / "siting_qgis.zip").read_bytes()
    names = set(ZipFile(tmp_path / "again.zip").namelist())
    library = {
        f"siting_qgis/siting/{path.relative_to(ROOT / 'siting/siting')}"
        for path in (ROOT / "siting/siting").rglob("*.py")
    }
    assert library <= names and all(name.startswith("siting_qgis/") for name in names)
    assert not any("test" in name or "pyc" in name for name in names)
    metadata = ConfigParser()
    metadata.read_string(ZipFile(tmp_path / "again.zip").read("siting_qgis/metadata.txt").decode())
    said = metadata["general"]
    assert (
        all(said[name] for name in WANTED)
        and said.getboolean("experimental")
        and said.getboolean("hasProcessingProvider")
    )
    assert f"siting_qgis/{said['icon']}" in names


def test_the_provider_and_its_algorithms() -> None:
    provider = QgsApplication.processingRegistry().providerById("siting")
    found = {algorithm.id(): algorithm for algorithm in provider.algorithms()}
    assert set(found) == {"siting:bestsite", "siting:comparesites", "siting:audit"}
    assert {algorithm.group() for algorithm in found.values()} == {"Siting"}
    assert all(algorithm.shortHelpString() and not algorithm.icon().isNull() for algorithm in found.values())
    wanted = {
        "facility location",
        "weber",
        "geometric median",
        "minimax",
        "maximin",
        "k-means",
        "hub",
        "obnoxious",
        "siting",
    }
    assert wanted <= set(found["siting:bestsite"].tags())
    off = [p.name() for p in found["siting:bestsite"].destinationParameterDefinitions() if not p.createByDefault()]
    assert off == ["SQUARES", "PIECES"]


def test_in_a_model(tmp_path: Path) -> None:
    """Its layers and numbers are there for what comes after it: the site is moved by its own x."""
    model, source = QgsProcessingModelAlgorithm("m", "m"), QgsProcessingModelChildParameterSource
    for name in ("towns", "region"):
        model.addModelParameter(QgsProcessingParameterFeatureSource(name, name), QgsProcessingModelParameter(name))
    given = {"TOWNS": source.fromModelParameter("towns"), "REGION": source.fromModelParameter("region")}
    words = {"WEIGHT": "people", "WITHIN": 5, "MAPS": False, "FOLDER": str(tmp_path / "a")}
    given |= {name: source.fromStaticValue(value) for name, value in words.items()}
    moved = {name: source.fromChildOutput("site", of) for name, of in (("INPUT", "SITE"), ("DELTA_X", "X"))}
    output = QgsProcessingModelOutput("out", "out")
    output.setChildId("moved")
    output.setChildOutputName("OUTPUT")
    for name, algorithm, values in (("site", "siting:bestsite", given), ("moved", "native:translategeometry", moved)):
        child = QgsProcessingModelChildAlgorithm(algorithm)
        child.setChildId(name)
        for parameter, value in values.items():
            child.addParameterSources(parameter, [value])
        child.setModelOutputs({"out": output} if name == "moved" else {})
        model.addChildAlgorithm(child)
    layers = small()
    found = processing.run(model, {"towns": layers["TOWNS"], "region": layers["REGION"], "moved:out": "memory:"})
    (feature,) = found["moved:out"].getFeatures()
    report = json.loads((tmp_path / "a" / "answer" / "report.json").read_text())
    assert feature.geometry().asPoint().x() == 2 * float(report["site"]["x"]) > 0


def test_layers_are_styled_and_stacked(tmp_path: Path) -> None:
    project = QgsProject.instance()
    project.clear()
    given = small(FOLDER=str(tmp_path / "a"), SITE="memory:", NEAR_SETS="memory:", SQUARES="memory:", PIECES="memory:")
    context = QgsProcessingContext()
    context.setProject(project)
    found = processing.runAndLoadResults("siting:bestsite", given, context=context, feedback=QgsProcessingFeedback())
    drawn = {layer.name(): layer for layer in project.mapLayers().values()}
    assert set(drawn) == {"Site", "Near sets", "Squares", "Pieces"}
    kinds = {name: layer.renderer().type() for name, layer in drawn.items()}
    assert kinds == {
        "Site": "singleSymbol",
        "Near sets": "categorizedSymbol",
        "Squares": "graduatedSymbol",
        "Pieces": "categorizedSymbol",
    }
    assert drawn["Site"].renderer().symbol().symbolLayer(0).properties()["name"] == "star"
    assert drawn["Site"].labelsEnabled() and drawn["Site"].labeling().settings().fieldName == "label"
    greys = [category.symbol().color().lightness() for category in drawn["Near sets"].renderer().categories()]
    assert greys == sorted(greys, reverse=True) and len(set(greys)) == 5
    order = [node.name() for node in project.layerTreeRoot().children()]
    assert order == ["Site", "Pieces", "Near sets", "Squares"]
    assert found["WORD"] in ("within", "wider")
    project.clear()


@pytest.mark.skipif(not Path(PROCESS).exists(), reason="only with Debian's package qgis")
def test_qgis_process_in_a_fresh_profile(tmp_path: Path) -> None:
    """The plugin of the zip is found, enabled and run, and what is wrong is said there too."""
    files = {}
    for name, layer in (("towns", small()["TOWNS"]), ("region", small()["REGION"])):
        options = QgsVectorFileWriter.SaveVectorOptions()
        files[name] = str(tmp_path / f"{name}.gpkg")
        QgsVectorFileWriter.writeAsVectorFormatV3(layer, files[name], QgsProject.instance().transformContext(), options)
    assert "siting_qgis" in process("plugins", "enable", "siting_qgis").stdout
    assert "siting:bestsite" in process("list").stdout
    words = [f"TOWNS={files['towns']}", f"REGION={files['region']}", "WITHIN=5", "MAPS=false"]
    done = process(
        "run",
        "siting:bestsite",
        "--",
        *words,
        "WEIGHT=people",
        f"FOLDER={tmp_path / 'a'}",
        f"SITE={tmp_path / 's.geojson'}",
    )
    assert done.returncode == 0, done.stdout + done.stderr
    assert json.loads((tmp_path / "a" / "answer" / "report.json").read_text())["answer"] == "within"
    assert json.loads((tmp_path / "s.geojson").read_text())["crs"]["properties"]["name"].endswith("25832")
    wrong = process("run", "siting:bestsite", "--", *words, "WEIGHT=peple", f"FOLDER={tmp_path / 'b'}")
    assert "has no field peple" in wrong.stdout + wrong.stderr and not (tmp_path / "b").exists()


def process(*words: str) -> "subprocess.CompletedProcess[str]":
    """qgis_process in the fresh profile."""
    return subprocess.run([PROCESS, *words], capture_output=True, text=True, timeout=120)


def test_without_shapely_earcut_and_matplotlib(tmp_path: Path, monkeypatch: pytest.MonkeyPatch) -> None:
    """What QGIS lacks isn't needed: the same promise, by an audit."""
    for name in ("shapely", "mapbox_earcut", "scipy", "matplotlib", "contourpy", "distributed", "dask"):
        (tmp_path / f"{name}.py").write_text(f"raise ImportError('no {name}')\n")
    monkeypatch.setenv("PYTHONPATH", str(tmp_path))
    forest = memory("Polygon", ["Polygon ((200 200, 400 200, 400 400, 200 400, 200 200))"])
    hole = memory("Polygon", ["Polygon ((0 0, 1000 0, 1000 1000, 0 1000, 0 0), (600 600, 600 800, 900 700, 600 600))"])
    found = best(small(FOLDER=str(tmp_path / "a"), FORBIDDEN=forest, REGION=hole, KEEP_OFF=50, GROW=10))
    assert found["WORD"] in ("within", "wider")
    assert processing.run("siting:audit", {"FOLDER": str(tmp_path / "a")})["WORD"] == "holds"
