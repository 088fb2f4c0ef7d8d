"""A page about an archive: one file of HTML without scripts, fonts or pictures from elsewhere."""

from __future__ import annotations

import html
import re
from collections import Counter
from collections.abc import Iterable

from ._layout import Bar, Layout, layout_of
from .archiving import Row
from .errors import BY_NAME

MOST_PICTURES = 200
MOST_BARS = 24
WIDTH, LINE, LEFT = 640, 18, 160

NOT_TEXT = re.compile("[\x00-\x1f\x7f-\x9f\ud800-\udfff\ufffe\uffff]")

STYLE = """
body { font-family: sans-serif; margin: 2em; color: #222; background: #fff; }
table { border-collapse: collapse; } td, th { text-align: left; vertical-align: top; padding: 0.2em 0.8em 0.2em 0; }
.number { text-align: right; } .path { font-family: monospace; } svg { margin: 0.5em 0 1.5em; }
text { font: 11px sans-serif; fill: #222; } .header { fill: #888; } .fixed { fill: #4477aa; } .record { fill: #66aa77; }
.fault { fill: #cc3311; } .end { stroke: #cc3311; stroke-dasharray: 3 2; }
"""


def shown(words: str) -> str:
    """Words as they can stand in HTML: a byte that isn't text, or a control character, by its number."""
    return html.escape(NOT_TEXT.sub(lambda sign: f"\\x{ord(sign[0]) & 0xFF:02x}", words), quote=True)


def _bar(name: str, begin: int, end: int, style: str, place: int, scale: float) -> str:
    y = place * LINE
    x, wide = LEFT + begin * scale, max((end - begin) * scale, 1.0)
    label = name if len(name) <= 24 else name[:23] + "…"
    return (
        f'<g><title>{shown(name)}: bytes {begin} to {end}</title><text x="0" y="{y + 13}">{shown(label)}</text>'
        f'<rect class="{style}" x="{x:.1f}" y="{y + 3}" width="{wide:.1f}" height="{LINE - 6}"/></g>'
    )


def _few(bars: list[Bar], field: int) -> list[Bar]:
    """The bar of the fault and those around it."""
    at = next((k for k, bar in enumerate(bars) if bar.field == field), 0)
    low = max(0, min(at - MOST_BARS // 2, len(bars) - MOST_BARS))
    return bars[low : low + MOST_BARS]


def picture(layout: Layout, field: int) -> str:
    """The header, the variables and the file's end as bars; the variable of the fault is marked."""
    bars = _few(layout.bars, field)
    far = max([layout.length, layout.header, *(bar.end for bar in bars)])
    scale = (WIDTH - LEFT - 10) / far
    parts = [_bar("header", 0, layout.header, "header", 0, scale)]
    for place, bar in enumerate(bars, 1):
        style = "fault" if bar.field == field else "record" if bar.is_record else "fixed"
        parts.append(_bar(bar.name, bar.begin, bar.end, style, place, scale))
    low, end = (len(bars) + 1) * LINE, LEFT + layout.length * scale
    parts.append(f'<line class="end" x1="{end:.1f}" y1="0" x2="{end:.1f}" y2="{low}"/>')
    left = len(layout.bars) - len(bars)
    words = f"the file ends at {layout.length}" + (f"; {left} more variables" if left else "")
    parts.append(f'<text x="{LEFT}" y="{low + 14}">{words}</text>')
    size = f'width="{WIDTH}" height="{low + 20}"'
    return f'<svg xmlns="http://www.w3.org/2000/svg" role="img" {size}>{"".join(parts)}</svg>'


def _failed(row: Row, limit: int, has_picture: bool) -> str:
    layout = layout_of(row.path, limit) if row.status == 1 and has_picture else None
    words = BY_NAME[row.fault].words if row.fault else row.words
    drawn = picture(layout, row.offset or 0) if layout else ""
    return (
        f'<tr><td class="path">{shown(row.path)}</td><td>{shown(row.verdict)}</td>'
        f"<td>{shown(words)}{drawn}</td></tr>"
    )


def _counted(title: str, pairs: Iterable[tuple[str, int]]) -> str:
    lines = "".join(f'<tr><td>{shown(name)}</td><td class="number">{count}</td></tr>' for name, count in pairs)
    return f'<table><tr><th>{title}</th><th class="number">files</th></tr>{lines}</table>'


def page(root: str, rows: list[Row], limit: int) -> str:
    """The page. Pictures of at most 200 files are drawn; the page says so if there are more."""
    words = {0: "pass", 1: "have a fault", 3: "can't be read"}
    counts = Counter(row.status for row in rows)
    faults = Counter(row.fault for row in rows if row.fault)
    failed = [row for row in rows if row.status]
    pictures = [row for row in failed if row.status == 1][:MOST_PICTURES]
    drawn = {id(row) for row in pictures}
    parts = [_counted("Of all", [(words[status], counts[status]) for status in words] + [("all", len(rows))])]
    if faults:
        parts.append("<h2>Faults</h2>" + _counted("fault", faults.most_common()))
    if failed:
        lines = "".join(_failed(row, limit, id(row) in drawn) for row in failed)
        parts.append(f"<h2>Files</h2><table><tr><th>file</th><th>verdict</th><th>words</th></tr>{lines}</table>")
    if counts[1] > len(pictures):
        parts.append(f"<p>Pictures are drawn for the first {len(pictures)} files with a fault only.</p>")
    title = f"ncc archive {shown(root)}"
    return (
        f'<!DOCTYPE html>\n<html lang="en"><head><meta charset="utf-8"/><title>{title}</title><style>{STYLE}</style>'
        f"</head><body><h1>{title}</h1>{''.join(parts)}</body></html>\n"
    )
