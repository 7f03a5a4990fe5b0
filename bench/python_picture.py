"""Draws packets per second through Python as bars, in SVG."""

from xml.sax.saxutils import escape

ROW, LEFT, UNIT = 22, 210, 420


def draw(path, rows):
    """Draws rows, each with a name, whether it is of this package, and how many packets it takes per processor second."""
    most, height = max(rate for _, _, rate in rows), ROW * len(rows) + 48
    parts = [
        f'<svg xmlns="http://www.w3.org/2000/svg" width="{LEFT + UNIT + 120}" height="{height}" font-family="sans-serif" font-size="13">',
        f'<rect width="{LEFT + UNIT + 120}" height="{height}" fill="white"/>',
        '<text x="10" y="22" font-size="15">Million packets a second of the processor, Pcap, mixed sizes</text>',
    ]
    for k, (name, is_ours, rate) in enumerate(rows):
        top, bar = 38 + k * ROW, rate / most * UNIT
        colour = "#3b7dd8" if is_ours else "#999999"
        parts.append(f'<text x="{LEFT - 8}" y="{top + 13}" text-anchor="end">{escape(name)}</text>')
        parts.append(f'<rect x="{LEFT}" y="{top}" width="{bar:.1f}" height="{ROW - 6}" fill="{colour}"/>')
        parts.append(f'<text x="{LEFT + bar + 6:.1f}" y="{top + 13}">{rate / 1e6:.2f}</text>')
    with open(path, "w") as out:
        out.write("\n".join(parts + ["</svg>", ""]))
