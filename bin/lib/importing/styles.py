"""How QGIS draws the layers of a GeoPackage that says so: a default style for each, with labels."""
from __future__ import annotations

from xml.sax.saxutils import quoteattr

HEAD = '<!DOCTYPE qgis PUBLIC "http://mrcc.com/qgis.dtd" "SYSTEM">\n'
FILL = {'color': '246,243,231,255', 'outline_color': '40,40,40,255', 'outline_width': '0.2'}
LINE = {'line_color': '40,40,40,255', 'line_width': '0.26'}
DOT = {'name': 'circle', 'color': '255,255,255,255', 'size': '1'}
# Number, label and area; a label that is the number stands once.
PARCEL_LABEL = (r"number || '\n' || if(label = to_string(number), '', label || '\n') || "
                "format_number(area_m2, 2) || ' m²'")
FAR = 5000  # Points are drawn at scales from 1 to 5000 on.


def symbol(kind: str, layer: str, properties: dict[str, str]) -> str:
    """A symbol of one layer."""
    inner = ''.join(f'<prop k={quoteattr(key)} v={quoteattr(value)}/>' for key, value in properties.items())
    return f'<symbol name="0" type="{kind}" alpha="1"><layer class="{layer}">{inner}</layer></symbol>'


def style(expression: str, size: int, is_labelled: bool, drawn: str, far: int = 0) -> str:
    """A layer's style: its symbol, the expression of its labels, which are shown or can be switched on, and the
    scale from which on it is drawn, where there is one."""
    text = (f'<text-style fieldName={quoteattr(expression)} isExpression="1" fontSize="{size}" fontSizeUnit="Point" '
            'textColor="0,0,0,255"/>')
    return (f'{HEAD}<qgis version="3.22" styleCategories="Symbology|Labeling|Rendering" minScale="{far}" '
            f'maxScale="0" hasScaleBasedVisibilityFlag="{int(far > 0)}" labelsEnabled="{int(is_labelled)}">'
            '<renderer-v2 type="singleSymbol" symbollevels="0" enableorderby="0">'
            f'<symbols>{drawn}</symbols></renderer-v2>'
            f'<labeling type="simple"><settings calloutType="simple">{text}</settings></labeling></qgis>')


STYLES = {
    'parcels': style(PARCEL_LABEL, 8, True, symbol('fill', 'SimpleFill', FILL)),
    'strings': style('format_number(length_m, 2)', 6, False, symbol('line', 'SimpleLine', LINE)),
    'points': style('number', 6, False, symbol('marker', 'SimpleMarker', DOT), FAR),
}
