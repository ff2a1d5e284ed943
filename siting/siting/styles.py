"""Styles for QGIS, as its layers' files have them: symbols, one for all, by a number's value or by its range."""

from collections.abc import Sequence
from xml.sax.saxutils import quoteattr

OFF = "nullSymbol"  # draws nothing
HEAD = "<!DOCTYPE qgis PUBLIC 'http://mrcc.com/qgis.dtd' 'SYSTEM'>\n"
OUTLINE = {"outline_color": "0,0,0,255", "outline_style": "solid", "outline_width": "0.2", "outline_width_unit": "MM"}


def grey(share: float) -> str:
    """A colour between black, 0, and white, 1."""
    value = round(255 * share)
    return f"{value},{value},{value},255"


def marker(shape: str, millimetres: float, fill: str) -> str:
    """A symbol of points."""
    size = {"size": f"{millimetres:g}", "size_unit": "MM"}
    return symbol("marker", "SimpleMarker", {"name": shape, "color": fill, **size, **OUTLINE})


def area(fill: str, outline: str = "no", brush: str = "solid") -> str:
    """A symbol of areas; the outline is drawn or not: solid or no."""
    return symbol("fill", "SimpleFill", {"color": fill, "style": brush, **OUTLINE, "outline_style": outline})


def symbol(kind: str, layer: str, words: dict[str, str]) -> str:
    """A symbol of one layer, its words in both forms that QGIS reads; its name is put in where it is used."""
    new = "".join(f'<Option type="QString" name="{name}" value="{value}"/>' for name, value in words.items())
    old = "".join(f'<prop k="{name}" v="{value}"/>' for name, value in words.items())
    inner = f'<layer class="{layer}" enabled="1" locked="0" pass="0"><Option type="Map">{new}</Option>{old}</layer>'
    return f'<symbol type="{kind}" name="%s" alpha="1" clip_to_extent="1" force_rhr="0">{inner}</symbol>'


def document(renderer: str, words: str, inner: str, symbols: Sequence[str]) -> str:
    """A style with one renderer."""
    named = "".join(text % number for number, text in enumerate(symbols))
    drawn = f"<symbols>{named}</symbols>" if symbols else ""
    start = f'<renderer-v2 type="{renderer}" forceraster="0" symbollevels="0" enableorderby="0"{words}>'
    return f'{HEAD}<qgis version="3.22" styleCategories="Symbology">{start}{inner}{drawn}</renderer-v2></qgis>\n'


def single(text: str) -> str:
    """One symbol for all."""
    return document("singleSymbol", "", "", [text])


def nothing() -> str:
    """Nothing is drawn."""
    return document(OFF, "", "", [])


def by_value(column: str, entries: Sequence[tuple[object, str, str]]) -> str:
    """Values of a column, their labels and symbols."""
    inner = "".join(
        f'<category render="true" value="{value}" label={quoteattr(label)} symbol="{number}"/>'
        for number, (value, label, _) in enumerate(entries)
    )
    symbols = [text for *_, text in entries]
    return document("categorizedSymbol", f' attr="{column}"', f"<categories>{inner}</categories>", symbols)


def by_range(column: str, entries: Sequence[tuple[float, float, str, str]]) -> str:
    """Ranges of a column, their labels and symbols."""
    inner = "".join(
        f'<range render="true" lower="{low:.6f}" upper="{high:.6f}" label={quoteattr(label)} symbol="{number}"/>'
        for number, (low, high, label, _) in enumerate(entries)
    )
    words = f' attr="{column}" graduatedMethod="GraduatedColor"'
    return document("graduatedSymbol", words, f"<ranges>{inner}</ranges>", [text for *_, text in entries])
