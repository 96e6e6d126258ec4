"""Puts a page together: one HTML file of the template, its style and script, Debian's Leaflet, and the data."""
from __future__ import annotations

import base64
import hashlib
import html
import json
import os
import re

from lib.boxes import Missing

HERE = os.path.dirname(os.path.realpath(__file__))
PACKAGE = 'libjs-leaflet'
LEAFLET = '/usr/share/javascript/leaflet'
COPYRIGHT = f'/usr/share/doc/{PACKAGE}/copyright'
SCRIPTS = ('plan.js', 'search.js', 'draw.js', 'panel.js', 'page.js')
SLOT = re.compile(r'\{\{(\w+)\}\}')
SOURCE_MAP = re.compile(r'/[/*][#@] ?sourceMappingURL=[^\n]*')
RULE_OF_A_PICTURE = re.compile(r'[^{}]*\{[^{}]*url\([^{}]*\}')
NO_SCRIPT = re.compile(r'</script|<!--', re.I)  # What would end a script early, or hide a part of it.


def text_of(path: str) -> str:
    """The text of a file, its lines ended by line feeds alone."""
    with open(path, encoding='utf-8') as file:
        return file.read()


def part(name: str) -> str:
    """The text of one of the page's own files."""
    return text_of(os.path.join(HERE, name))


def leaflet(folder: str = LEAFLET, copyright_file: str = COPYRIGHT) -> tuple[str, str, str]:
    """Leaflet's script, its style without the rules that ask for pictures, and its licence. Raises Missing."""
    try:
        script, style = (text_of(os.path.join(folder, name)) for name in ('leaflet.min.js', 'leaflet.css'))
        told = text_of(copyright_file)
    except OSError as error:
        raise Missing(PACKAGE) from error
    wanted = ('Files: *\n', 'License: BSD-2-clause\n')
    licence = '\n\n'.join(it for it in told.split('\n\n') if it.startswith(wanted))
    return SOURCE_MAP.sub('', script), RULE_OF_A_PICTURE.sub('', SOURCE_MAP.sub('', style)), licence


def sum_of(text: str) -> str:
    """The source of a Content-Security-Policy that allows this script or style alone."""
    return "'sha256-" + base64.b64encode(hashlib.sha256(text.encode()).digest()).decode() + "'"


def json_of(data: object) -> str:
    """The data as JSON in ASCII, in which nothing can end the element that it stands in."""
    return json.dumps(data, separators=(',', ':')).replace('<', '\\u003c')


def policy_of(scripts: list[str], styles: list[str]) -> str:
    """A Content-Security-Policy that allows these and nothing else, so that a page can't ask for anything."""
    return '; '.join(["default-src 'none'", f"script-src {' '.join(map(sum_of, scripts))}",
                      f"style-src {' '.join(map(sum_of, styles))}", "base-uri 'none'", "form-action 'none'"])


def page(title: str, data: object) -> str:
    """The page. Raises Missing where Leaflet isn't there."""
    library, library_style, licence = leaflet()
    script = "'use strict';\n" + '\n'.join(map(part, SCRIPTS))
    style = part('page.css')
    assert not NO_SCRIPT.search(library + script)
    slots = {'title': html.escape(title), 'policy': html.escape(policy_of([library, script], [library_style, style]),
                                                                quote=False),
             'library_style': library_style, 'style': style, 'library': library, 'script': script,
             'data': json_of(data), 'licence': html.escape(licence)}
    return SLOT.sub(lambda found: slots[found[1]], part('page.html'))
