"""How the layers of an answer look: the styles of siting.gpkg, and what is written at the site."""

from qgis.core import (
    QgsLayerTreeLayer,
    QgsPalLayerSettings,
    QgsProcessingContext,
    QgsProcessingFeedback,
    QgsProcessingLayerPostProcessorInterface,
    QgsProject,
    QgsTextBufferSettings,
    QgsTextFormat,
    QgsVectorLayer,
    QgsVectorLayerSimpleLabeling,
)
from qgis.PyQt.QtXml import QDomDocument

TITLES = {"near_sets": "Near sets", "pieces": "Pieces", "site": "Site", "squares": "Squares"}
PLACE = "siting/place"  # a layer's property: its answer, and which of its layers it is
ORDER = ("site", "pieces", "near_sets", "squares")  # from above


class Styled(QgsProcessingLayerPostProcessorInterface):
    """Gives a layer its style once it is loaded, and its place among the others of its answer."""

    waiting: list["Styled"] = []  # QGIS keeps no reference to them

    def __init__(self, style: str, table: str, answer: str):
        super().__init__()
        self.style, self.table, self.answer = style, table, answer

    def wait(self, details: QgsProcessingContext.LayerDetails) -> None:
        """Waits until the layer of these details is loaded."""
        self.waiting.append(self)
        details.name = TITLES[self.table]
        details.setPostProcessor(self)

    def postProcessLayer(
        self, layer: QgsVectorLayer, context: QgsProcessingContext, feedback: QgsProcessingFeedback
    ) -> None:
        document = QDomDocument()
        document.setContent(self.style)
        layer.importNamedStyle(document)
        layer.setCustomProperty(PLACE, f"{self.answer}|{self.table}")
        if self.table == "site":
            write_at(layer, "label")
        layer.triggerRepaint()
        above = [f"{self.answer}|{table}" for table in ORDER[: ORDER.index(self.table)]]
        put_below(layer, above)
        self.waiting.remove(self)


def write_at(layer: QgsVectorLayer, field: str) -> None:
    """Labels the features by a field."""
    text, halo = QgsTextFormat(), QgsTextBufferSettings()
    halo.setEnabled(True)
    halo.setSize(1)
    text.setBuffer(halo)
    text.setSize(10)
    settings = QgsPalLayerSettings()
    settings.fieldName, settings.placement, settings.dist = field, QgsPalLayerSettings.AroundPoint, 3
    settings.setFormat(text)
    layer.setLabeling(QgsVectorLayerSimpleLabeling(settings))
    layer.setLabelsEnabled(True)


def put_below(layer: QgsVectorLayer, above: list[str]) -> None:
    """Moves a layer, which was put on top, below those whose places belong above it."""
    node = QgsProject.instance().layerTreeRoot().findLayer(layer.id())
    if node is None:
        return
    parent, last = node.parent(), -1
    for at, other in enumerate(parent.children()):
        if isinstance(other, QgsLayerTreeLayer) and other.layer() is not None:
            last = at if other.layer().customProperty(PLACE) in above else last
    if last > parent.children().index(node):
        parent.insertChildNode(last + 1, node.clone())
        parent.removeChildNode(node)
