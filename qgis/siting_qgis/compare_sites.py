"""Compare sites: what one's own candidates cost, beside an answer."""

import csv
import tempfile
from pathlib import Path
from typing import Any

from qgis.core import (
    QgsCoordinateTransform,
    QgsFeature,
    QgsFeatureRequest,
    QgsFeatureSink,
    QgsField,
    QgsFields,
    QgsGeometry,
    QgsPointXY,
    QgsProcessing,
    QgsProcessingContext,
    QgsProcessingException,
    QgsProcessingFeedback,
    QgsProcessingOutputNumber,
    QgsProcessingParameterFeatureSink,
    QgsProcessingParameterFeatureSource,
    QgsProcessingParameterField,
    QgsProcessingParameterFile,
    QgsWkbTypes,
)
from qgis.PyQt.QtCore import QVariant

from .algorithm import SitingAlgorithm, answer_folder
from .inputs import AS_IT_STANDS, check_field, points_of
from .results import system_of
from .run import Canceled, refusal, run

HELP = """<p>Says what your own candidates cost, beside an answer that <i>Best site</i> has written: exactly, over the same \
layers.</p>
<p>Of each: whether it is permitted, and why not; its cost, rounded up; how much more that is than the bound and than \
the answer's cost, in per cent of the answer's; the nearest and the farthest town. No permitted place costs less than \
the bound, so a candidate that is 0.4 % above it is at most 0.4 % from the best.</p>
<p>Candidates may be in any reference system.</p>"""
COLUMNS = (  # a field, its type, and the column that siting writes
    ("site", QVariant.String, "site"),
    ("permitted", QVariant.String, "permitted"),
    ("why_not", QVariant.String, "why not"),
    ("cost", QVariant.Double, "cost"),
    ("above_bound_percent", QVariant.Double, "% above the bound"),
    ("above_answer_percent", QVariant.Double, "% above the answer"),
    ("nearest_town", QVariant.String, "nearest town"),
    ("nearest_metres", QVariant.Double, "its metres"),
    ("farthest_town", QVariant.String, "farthest town"),
    ("farthest_metres", QVariant.Double, "its metres away"),
    ("x", QVariant.String, "x"),
    ("y", QVariant.String, "y"),
)


class CompareSites(SitingAlgorithm):
    """The algorithm siting:comparesites."""

    NAME, TITLE, HELP = "comparesites", "Compare sites", HELP
    TAGS = ("candidates", "alternatives", "facility location", "cost", "siting", "suitability")

    def initAlgorithm(self, configuration: dict[str, Any] | None = None) -> None:
        folder = QgsProcessingParameterFile.Folder
        self.addParameter(QgsProcessingParameterFile("FOLDER", "Folder of an answer", folder))
        points = [QgsProcessing.TypeVectorPoint]
        self.addParameter(QgsProcessingParameterFeatureSource("SITES", "Candidates", points))
        names = QgsProcessingParameterField("NAME_FIELD", "Name of a candidate", None, "SITES", optional=True)
        self.addParameter(names)
        self.addParameter(
            QgsProcessingParameterFeatureSink("COMPARED", "Compared sites", QgsProcessing.TypeVectorPoint)
        )
        self.addOutput(QgsProcessingOutputNumber("COUNT", "How many candidates were compared"))
        self.addOutput(QgsProcessingOutputNumber("PERMITTED", "How many of them are permitted"))

    def processAlgorithm(
        self, parameters: dict[str, Any], context: QgsProcessingContext, feedback: QgsProcessingFeedback
    ) -> dict[str, Any]:
        answer = answer_folder(self.parameterAsString(parameters, "FOLDER", context))
        names, places = self.candidates(parameters, context, answer)
        with tempfile.TemporaryDirectory() as folder:
            table = Path(folder) / "sites.csv"
            sites = [f"--site={x!r},{y!r}" for x, y in places]
            try:
                ended = run(["compare", str(answer.resolve()), *sites, "--csv", str(table)], Path(folder), feedback)
            except Canceled:
                return {}
            if ended.status != 0 or not table.exists():
                raise QgsProcessingException(refusal(ended))
            feedback.pushInfo(ended.out)
            with open(table, newline="") as file:
                rows = list(csv.DictReader(file))
        rows = rows[-len(places) :]  # the first one is the answer's own
        for name, row in zip(names, rows):
            row["site"] = name or row["site"]
        place = self.write(parameters, context, answer, rows)
        return {"COMPARED": place, "COUNT": len(rows), "PERMITTED": sum(row["permitted"] == "yes" for row in rows)}

    def candidates(
        self, parameters: dict[str, Any], context: QgsProcessingContext, answer: Path
    ) -> tuple[list[str], list[tuple[float, float]]]:
        """The names of the candidates, and their places in the plane of the answer."""
        source = self.parameterAsSource(parameters, "SITES", context)
        if source is None:
            raise QgsProcessingException(self.invalidSourceError(parameters, "SITES"))
        field = self.parameterAsString(parameters, "NAME_FIELD", context)
        if field:
            check_field(source, field, False, "the name")
        change = QgsCoordinateTransform(source.sourceCrs(), system_of(answer), context.transformContext())
        names, places = [], []
        for feature in source.getFeatures(QgsFeatureRequest(), AS_IT_STANDS):
            for part in points_of(feature.geometry()):
                if part.isNull() or part.type() != QgsWkbTypes.PointGeometry:
                    raise QgsProcessingException(f"Feature {feature.id()} of {source.sourceName()} is no point")
                part.transform(change)
                places.append((part.asPoint().x(), part.asPoint().y()))
                names.append(str(feature[field]) if field else str(feature.id()))
        if not places:
            raise QgsProcessingException(f"{source.sourceName()} has no candidates")
        return names, places

    def write(
        self, parameters: dict[str, Any], context: QgsProcessingContext, answer: Path, rows: list[dict[str, str]]
    ) -> str:
        """The rows as points in the plane of the answer."""
        fields = QgsFields()
        for name, kind, _ in COLUMNS:
            fields.append(QgsField(name, kind))
        sink, place = self.parameterAsSink(
            parameters, "COMPARED", context, fields, QgsWkbTypes.Point, system_of(answer)
        )
        if sink is None:
            raise QgsProcessingException(self.invalidSinkError(parameters, "COMPARED"))
        for row in rows:
            feature = QgsFeature(fields)
            feature.setAttributes([value_of(row[column], kind) for _, kind, column in COLUMNS])
            feature.setGeometry(QgsGeometry.fromPointXY(QgsPointXY(float(row["x"]), float(row["y"]))))
            sink.addFeature(feature, QgsFeatureSink.FastInsert)
        return str(place)


def value_of(text: str, kind: QVariant.Type) -> str | float | None:
    """A cell of the table, as its field has it."""
    if kind == QVariant.String:
        return text
    return float(text) if text else None
