"""Siting in QGIS: algorithms for the Processing toolbox."""

from typing import Any


def classFactory(iface: Any) -> Any:
    """What QGIS calls when it loads the plugin."""
    from .plugin import SitingPlugin

    return SitingPlugin()
