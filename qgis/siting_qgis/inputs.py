"""Layers as QGIS has them, written for the library: selected features only, where that is asked; the fields that are
needed. Coordinates and numbers stay the very doubles."""

import re
from collections.abc import Iterator, Sequence
from dataclasses import dataclass, field
from pathlib import Path

from qgis.core import (
    QgsFeature,
    QgsFeatureRequest,
    QgsFeatureSink,
    QgsField,
    QgsFields,
    QgsGeometry,
    QgsProcessingContext,
    QgsProcessingException,
    QgsProcessingFeatureSource,
    QgsProcessingFeedback,
    QgsVectorFileWriter,
    QgsWkbTypes,
)

AS_IT_STANDS = QgsProcessingFeatureSource.FlagSkipGeometryValidityChecks  # the library says what is invalid, and where


@dataclass
class Layer:
    """A layer that was written, its name in QGIS, and the identifier there of each of its features."""

    path: Path
    name: str
    ids: list[int] = field(default_factory=list)

    def in_words(self, text: str) -> str:
        """A sentence of the library in which the layer has its own name, and features their identifiers."""

        def renamed(match: "re.Match[str]") -> str:
            at = int(match[1]) - 1
            return f"feature {self.ids[at]} of {self.name}" if at < len(self.ids) else match[0]

        names = "|".join(re.escape(str(name)) for name in (self.path, Path(self.path.parent.name) / self.path.name))
        text = re.sub(rf"row (\d+) of (?:{names})", renamed, text)
        text = re.sub(rf"(?:{names}): feature (\d+)", renamed, text)
        return re.sub(names, lambda match: self.name, text)


def check_field(source: QgsProcessingFeatureSource, name: str, numbers: bool, what: str) -> QgsField:
    """The field of this name; refuses one that isn't there, or that has no numbers where these are needed."""
    at = source.fields().indexFromName(name)
    if at < 0:
        there = ", ".join(source.fields().names()) or "none"
        raise QgsProcessingException(f"{source.sourceName()} has no field {name} for {what}; it has {there}")
    found = source.fields().at(at)
    if numbers and not found.isNumeric():
        raise QgsProcessingException(
            f"The field {name} of {source.sourceName()} has {found.typeName()}, and {what} wants numbers: "
            "take another field, or make one by the field calculator"
        )
    return found


def write_layer(
    source: QgsProcessingFeatureSource,
    path: Path,
    fields: Sequence[QgsField],
    context: QgsProcessingContext,
    feedback: QgsProcessingFeedback,
) -> Layer:
    """Writes the features with these fields into a GeoPackage: each point of a multipoint is a town of its own, and
    arcs become straight edges, of which the promise speaks then."""
    wanted = QgsFields()
    for one in fields:
        if wanted.indexFromName(one.name()) < 0:
            wanted.append(one)
    options = QgsVectorFileWriter.SaveVectorOptions()
    options.driverName, options.layerName = "GPKG", path.stem
    options.layerOptions = ["FID=siting_row", "GEOMETRY_NAME=siting_place", "SPATIAL_INDEX=NO"]
    system, changes = source.sourceCrs(), context.transformContext()
    writer = QgsVectorFileWriter.create(str(path), wanted, QgsWkbTypes.Unknown, system, changes, options)
    if writer.hasError() != QgsVectorFileWriter.NoError:
        raise QgsProcessingException(f"{source.sourceName()} can't be written: {writer.errorMessage()}")
    layer, copies, arcs = Layer(path, source.sourceName()), 0, 0
    names = [one.name() for one in wanted]
    request = QgsFeatureRequest().setSubsetOfAttributes(names, source.fields())
    for feature in source.getFeatures(request, AS_IT_STANDS):
        if feedback.isCanceled():
            break
        geometry = feature.geometry()
        if QgsWkbTypes.isCurvedType(geometry.wkbType()):
            geometry.convertToStraightSegment()
            arcs += 1
        for number, part in enumerate(points_of(geometry)):
            new = QgsFeature(wanted)
            new.setAttributes([feature[name] for name in names])
            if not part.isNull():
                new.setGeometry(part)
            if not writer.addFeature(new, QgsFeatureSink.FastInsert):
                raise QgsProcessingException(f"{source.sourceName()} can't be written: {writer.errorMessage()}")
            layer.ids.append(feature.id())
            copies += number > 0
    fault = writer.errorMessage()
    del writer  # closes the file
    if fault:
        raise QgsProcessingException(f"{source.sourceName()} can't be written: {fault}")
    path.chmod(0o444)  # so that no one who looks at it changes its digest
    if copies:
        feedback.pushWarning(f"{layer.name} has features of several points: each point counts, with the whole weight")
    if arcs:
        feedback.pushWarning(
            f"{layer.name} has arcs, of {arcs} features: they were made straight, and the answer is for those edges"
        )
    return layer


def points_of(geometry: QgsGeometry) -> Iterator[QgsGeometry]:
    """The points of a multipoint; another geometry as it is."""
    if geometry.isMultipart() and QgsWkbTypes.geometryType(geometry.wkbType()) == QgsWkbTypes.PointGeometry:
        parts = [part for part in geometry.asGeometryCollection() if not part.isEmpty()]
        yield from parts or [QgsGeometry()]
    else:
        yield geometry
