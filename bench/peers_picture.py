"""Draws the table of peers.py as docs/peers.svg."""

from __future__ import annotations

import re
from html import escape

from document import ROOT

PICTURE = ROOT / "docs/peers.svg"
WIDTH, LEFT, RIGHT, TOP = 900, 190, 60, 76
BAR, GAP = 16, 14
# The colours of the jobs are those of the other pictures' parts.
STYLE = re.search(r"  <style>.*?</style>", (ROOT / "docs/from_json_to_bytes.svg").read_text(), re.DOTALL)
COLOURS = {"encode": "core", "decode": "data", "normalise": "display"}


def bar(job: str, y: int, time: str, scale: float) -> list[str]:
    width = max(1, round(float(time) * scale))
    return [
        f'  <rect class="{COLOURS[job]}" x="{LEFT}" y="{y}" width="{width}" height="{BAR - 2}"/>',
        f'  <text class="small" x="{LEFT + width + 6}" y="{y + 11}">{time}</text>',
    ]


def key() -> list[str]:
    """What the colours mean."""
    lines = []
    for at, job in enumerate(COLOURS):
        x = LEFT + 110 * at
        lines.append(f'  <rect class="{COLOURS[job]}" x="{x}" y="44" width="14" height="14"/>')
        lines.append(f'  <text x="{x + 20}" y="56">{job}</text>')
    return lines


def spoken(name: str, times: list[tuple[str, str]]) -> str:
    return f"{name}: {', '.join(f'{job} {time}' for job, time in times)}".replace("`", "")


def picture(rows: list[list[str]]) -> str:
    """The picture of the table's rows: a name, and then microseconds and MB/s of each job."""
    assert STYLE
    scale = (WIDTH - LEFT - RIGHT) / max(float(cell) for row in rows for cell in row[1::2] if cell)
    lines, said, y = key(), [], TOP
    for name, *cells in rows:
        times = [(job, time) for job, time in zip(COLOURS, cells[::2]) if time]
        said.append(spoken(name, times))
        middle, shown = y + BAR * len(times) // 2 + 3, escape(name.replace("`", ""))
        lines.append(f'  <text class="title" x="{LEFT - 12}" y="{middle}" text-anchor="end">{shown}</text>')
        for job, time in times:
            lines += bar(job, y, time, scale)
            y += BAR
        y += GAP
    title = "Processor time of an Aptos transaction, in microseconds"
    head = f"""\
<svg xmlns="http://www.w3.org/2000/svg" viewBox="0 0 {WIDTH} {y}" width="{WIDTH}" height="{y}" role="img" \
aria-labelledby="title desc">
  <title id="title">{title}</title>
  <desc id="desc">{escape("; ".join(said))}.</desc>
{STYLE[0]}
  <rect class="back" width="{WIDTH}" height="{y}" rx="8"/>
  <text class="title" x="{LEFT}" y="28">{title} (shorter is better)</text>
"""
    return head + "\n".join(lines) + "\n</svg>\n"
