"""Run by QGIS's window, for `pictures`: opens the example's layers and the dialog, runs it, and takes the pictures."""

import os
import traceback
from pathlib import Path

import processing
from qgis.core import QgsProject, QgsVectorLayer
from qgis.PyQt.QtCore import QEventLoop, QSize, QTimer
from qgis.PyQt.QtGui import QColor
from qgis.PyQt.QtWidgets import QDockWidget, QWidget
from qgis.utils import iface

EXAMPLE = Path(os.environ["SITING_ROOT"]) / "examples" / "district"
PICTURES = Path(os.environ["SITING_PICTURES"])
TOWNS = f"file://{EXAMPLE}/towns.csv?delimiter=,&xField=x&yField=y&crs=EPSG:25832&detectTypes=yes"


def wait(milliseconds: int) -> None:
    """Lets the window work."""
    loop = QEventLoop()
    QTimer.singleShot(milliseconds, loop.quit)
    loop.exec_()


def opened() -> dict[str, QgsVectorLayer]:
    """The example's layers, drawn quietly."""
    layers = {
        "District": QgsVectorLayer(str(EXAMPLE / "district.geojson"), "District", "ogr"),
        "Forests": QgsVectorLayer(str(EXAMPLE / "forests.geojson"), "Forests", "ogr"),
        "Towns": QgsVectorLayer(TOWNS, "Towns", "delimitedtext"),
    }
    looks = {"District": ("area", "#f4f1e6"), "Forests": ("area", "#9bb89b"), "Towns": ("point", "#444444")}
    for name, layer in layers.items():
        assert layer.isValid(), name
        kind, colour = looks[name]
        symbol = layer.renderer().symbol()
        symbol.setColor(QColor(colour))
        if kind == "point":
            symbol.setSize(1.2)
        QgsProject.instance().addMapLayer(layer)
    return layers


def keep(widget: QWidget, name: str) -> None:
    """A picture of a part of the window."""
    widget.grab().save(str(PICTURES / name))


def take() -> None:
    window, layers = iface.mainWindow(), opened()
    window.resize(QSize(1060, 760))
    iface.mapCanvas().setExtent(layers["District"].extent())
    given = {"TOWNS": layers["Towns"], "WEIGHT": "people", "NAME_FIELD": "name", "REGION": layers["District"]}
    given |= {"FORBIDDEN": layers["Forests"], "FOLDER": str(PICTURES / "answer")}
    dialog = processing.createAlgorithmDialog("siting:bestsite", given)
    dialog.resize(QSize(860, 780))
    dialog.show()
    wait(3000)
    keep(dialog, "qgis-dialog.png")
    dialog.runButton().click()
    while not QgsProject.instance().mapLayersByName("Site"):
        wait(200)
    wait(1000)
    dialog.close()
    for dock in window.findChildren(QDockWidget):
        dock.setVisible(dock.objectName() == "Layers")
    root = QgsProject.instance().layerTreeRoot()
    for name in ("Forests", "Towns"):
        node = root.findLayer(layers[name].id())
        root.insertChildNode(1, node.clone())
        root.removeChildNode(node)
    iface.layerTreeView().expandAllNodes()
    iface.mapCanvas().setExtent(layers["District"].extent())
    iface.mapCanvas().refresh()
    wait(4000)
    keep(window, "qgis-map.png")


def work() -> None:
    try:
        take()
    except Exception:
        traceback.print_exc()
    QgsProject.instance().setDirty(False)
    os._exit(0)


QTimer.singleShot(3000, work)
