"""From the folder of an answer to layers in QGIS."""

import sqlite3
from collections.abc import Callable
from pathlib import Path
from typing import Any

from qgis.core import (
    QgsCoordinateReferenceSystem,
    QgsFeature,
    QgsFeatureSink,
    QgsField,
    QgsFields,
    QgsGeometry,
    QgsProcessingAlgorithm,
    QgsProcessingContext,
    QgsProcessingFeedback,
    QgsVectorLayer,
    QgsWkbTypes,
)
from qgis.PyQt.QtCore import QVariant

from .styling import Styled

NAMES = {"square_metres": "square_metres_at_most"}  # of fields: the areas are clipped, and the number isn't
SINKS = (  # a sink, the layer of siting.gpkg that it has, and the style there
    ("NEAR_SETS", "near_sets", "near sets"),
    ("PIECES", "pieces", "pieces"),
    ("SITE", "site", "site"),
    ("SQUARES", "squares", "bounds"),
)


def write_sinks(
    algorithm: QgsProcessingAlgorithm,
    parameters: dict[str, Any],
    context: QgsProcessingContext,
    feedback: QgsProcessingFeedback,
    answer: Path,
    figures: dict[str, Any],
) -> dict[str, str]:
    """Writes those layers of siting.gpkg that are asked for, and says where they are, by the sinks' names."""
    package, found = answer / "siting.gpkg", {}
    for sink_name, table, style in SINKS:
        source = table_of(package, table)
        fields = QgsFields()
        for field in source.fields().toList()[1:]:  # behind the number of the feature
            fields.append(QgsField(NAMES.get(field.name(), field.name()), field.type()))
        more = additions(table, figures)
        for name in more:
            fields.append(QgsField(name, QVariant.String))
        kind = QgsWkbTypes.Point if table == "site" else QgsWkbTypes.MultiPolygon
        sink, place = algorithm.parameterAsSink(parameters, sink_name, context, fields, kind, source.crs())
        if sink is None:
            continue
        change = clip_of(package) if table == "near_sets" else None
        for feature in source.getFeatures():
            new = QgsFeature(fields)
            new.setAttributes([*feature.attributes()[1:], *more.values()])
            new.setGeometry(change(feature.geometry()) if change else feature.geometry())
            sink.addFeature(new, QgsFeatureSink.FastInsert)
        del sink
        found[sink_name] = place
        if context.willLoadLayerOnCompletion(place):
            styled = Styled(style_of(package, table, style), table, str(answer))
            styled.wait(context.layerToLoadOnCompletionDetails(place))
    return found


def table_of(package: Path, table: str) -> QgsVectorLayer:
    """A layer of the package."""
    return QgsVectorLayer(f"{package}|layername={table}", table, "ogr")


def system_of(answer: Path) -> QgsCoordinateReferenceSystem:
    """The reference system of an answer's plane."""
    return table_of(answer / "siting.gpkg", "towns").crs()


def style_of(package: Path, table: str, name: str) -> str:
    """A style of the package, as QGIS's XML."""
    connection = sqlite3.connect(f"file:{package}?mode=ro", uri=True)
    try:
        words = "SELECT styleQML FROM layer_styles WHERE f_table_name = ? AND styleName = ?"
        return str(connection.execute(words, (table, name)).fetchone()[0])
    finally:
        connection.close()


def additions(table: str, figures: dict[str, Any]) -> dict[str, str]:
    """What the site's layer has beside: its coordinates as they read back to the very doubles, and what is said of it."""
    if table != "site":
        return {}
    site, gap = figures["site"] or {"x": "", "y": ""}, figures["gap_percent"]
    words = "" if gap is None else f"at most {rounded_up(gap)} % from the best"
    return {"x": site["x"], "y": site["y"], "answer": figures["answer"], "label": words}


def rounded_up(value: float) -> str:
    """A number with four decimals, not less than it is."""
    near = round(value, 4)
    return f"{near if near >= value else near + 1e-4:.4f}"


def clip_of(package: Path) -> Callable[[QgsGeometry], QgsGeometry]:
    """Takes away from an area what isn't permitted, by QGIS: for reading, the package has what is proved."""
    barred = QgsGeometry.unaryUnion(
        [feature.geometry() for feature in table_of(package, "not_permitted").getFeatures()]
    )

    def clipped(area: QgsGeometry) -> QgsGeometry:
        left = area.difference(barred) if not barred.isNull() else area
        left.convertGeometryCollectionToSubclass(QgsWkbTypes.PolygonGeometry)
        left.convertToMultiType()
        return left if not left.isNull() else area

    return clipped
