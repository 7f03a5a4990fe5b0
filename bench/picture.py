"""Draws ratios as bars, in SVG."""

from xml.sax.saxutils import escape

ROW, LEFT, UNIT = 22, 250, 320


def draw(path, title, rows):
    """Draws rows, each with a name and a ratio. The line at 1.00 is the Rust crate."""
    width, height = LEFT + UNIT + 160, ROW * len(rows) + 60
    parts = [
        f'<svg xmlns="http://www.w3.org/2000/svg" width="{width}" height="{height}" font-family="sans-serif" font-size="13">',
        f'<rect width="{width}" height="{height}" fill="white"/>',
        f'<text x="10" y="22" font-size="15">{escape(title)}</text>',
    ]
    for k, (name, ratio) in enumerate(rows):
        top = 38 + k * ROW
        colour = "#3b7dd8" if ratio <= 1 else "#d8743b"
        bar = min(ratio, 1.3) * UNIT
        parts.append(f'<text x="{LEFT - 8}" y="{top + 13}" text-anchor="end">{escape(name)}</text>')
        parts.append(f'<rect x="{LEFT}" y="{top}" width="{bar:.1f}" height="{ROW - 6}" fill="{colour}"/>')
        parts.append(f'<text x="{LEFT + bar + 6:.1f}" y="{top + 13}">{ratio:.2f}</text>')
    one = LEFT + UNIT
    parts.append(f'<line x1="{one}" y1="32" x2="{one}" y2="{height - 18}" stroke="#444" stroke-dasharray="4 3"/>')
    parts.append(f'<text x="{one}" y="{height - 5}" text-anchor="middle">Rust crate</text>')
    with open(path, "w") as out:
        out.write("\n".join(parts + ["</svg>", ""]))
