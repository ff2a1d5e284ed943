"""The plugin: it only brings the provider."""

from qgis.core import QgsApplication

from .provider import SitingProvider


class SitingPlugin:
    """Adds the provider to the Processing toolbox, and takes it away again."""

    def __init__(self) -> None:
        self.provider: SitingProvider | None = None

    def initProcessing(self) -> None:
        """Also called by qgis_process, which has no window."""
        self.provider = SitingProvider()
        QgsApplication.processingRegistry().addProvider(self.provider)

    def initGui(self) -> None:
        self.initProcessing()

    def unload(self) -> None:
        QgsApplication.processingRegistry().removeProvider(self.provider)
