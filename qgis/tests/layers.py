"""Small layers in memory."""

from typing import Any

from qgis.core import QgsFeature, QgsField, QgsGeometry, QgsVectorLayer
from qgis.PyQt.QtCore import QVariant

SQUARE = "Polygon ((0 0, 1000 0, 1000 1000, 0 1000, 0 0))"
TOWNS = ["Point (100.5 100)", "Point (900 150)", "Point (450 1900.25)"]


def memory(kind: str, shapes: list[str | None], crs: str = "EPSG:25832", **fields: list[Any]) -> QgsVectorLayer:
    """A layer in memory, of shapes as text, and fields of whole numbers, decimals or text."""
    kinds = {int: QVariant.Int, float: QVariant.Double, str: QVariant.String}
    layer = QgsVectorLayer(f"{kind}?crs={crs}", f"my {kind.lower()}s", "memory")
    sorts = {name: type(next(value for value in values if value is not None)) for name, values in fields.items()}
    layer.dataProvider().addAttributes([QgsField(name, kinds[sort]) for name, sort in sorts.items()])
    layer.updateFields()
    features = []
    for at, shape in enumerate(shapes):
        feature = QgsFeature(layer.fields())
        feature.setAttributes([QVariant() if values[at] is None else values[at] for values in fields.values()])
        if shape is not None:
            feature.setGeometry(QgsGeometry.fromWkt(shape))
        features.append(feature)
    layer.dataProvider().addFeatures(features)
    assert layer.featureCount() == len(shapes)
    return layer


def small(**more: Any) -> dict[str, Any]:
    """Three towns and a square, quickly answered."""
    towns = memory("Point", TOWNS, people=[10, 20, 5], name=["A", "B", "C"])
    given = {"TOWNS": towns, "WEIGHT": "people", "REGION": memory("Polygon", [SQUARE]), "MAPS": False, "WITHIN": 5}
    return given | {"FOLDER": "TEMPORARY_OUTPUT"} | more
