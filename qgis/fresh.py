"""A fresh profile of QGIS with the plugin of the zip, and a QGIS in it that has no window."""

import os
import shutil
import subprocess
import sys
from pathlib import Path
from typing import Any

HERE = Path(__file__).resolve().parent
ROOT = HERE.parent
BUILT = ROOT / "crates" / "bsss" / "out" / "bsss"
PLUGIN = "siting_qgis"


def program() -> str:
    """$BSSS, or the repository's program."""
    return os.environ.get("BSSS") or str(BUILT)


def profile(home: Path) -> Path:
    """Makes the profile in this home, and says where its plugins are."""
    plugins = home / ".local/share/QGIS/QGIS3/profiles/default/python/plugins"
    plugins.mkdir(parents=True)
    archive = home / f"{PLUGIN}.zip"
    subprocess.run([HERE / "package", archive], check=True, stdout=subprocess.DEVNULL)
    shutil.unpack_archive(archive, plugins)
    return plugins


def start(home: Path) -> tuple[Any, Any]:
    """QGIS and the plugin, in this process."""
    os.environ |= {"HOME": str(home), "XDG_RUNTIME_DIR": str(home), "QT_QPA_PLATFORM": "offscreen", "BSSS": program()}
    sys.path[:0] = ["/usr/share/qgis/python/plugins", str(profile(home))]
    from processing.core.Processing import Processing
    from qgis.core import QgsApplication

    application = QgsApplication([], False)
    application.initQgis()
    Processing.initialize()
    from siting_qgis import classFactory

    plugin = classFactory(None)
    plugin.initProcessing()
    return application, plugin
