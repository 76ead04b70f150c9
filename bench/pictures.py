"""The two pictures of bench/compare, as SVG."""
from math import ceil, floor, log10
from xml.sax.saxutils import escape

COLOURS = {"ours": "#c00", "ours, run": "#f80", "lrs": "#222", "mplrs": "#888", "cddlib": "#158", "Normaliz": "#2a2", "PPL": "#90c"}


def head(width, height, title, subtitle):
    return [
        f'<svg xmlns="http://www.w3.org/2000/svg" width="{width}" height="{height}" font-family="sans-serif" font-size="12" fill="#222">',
        '<rect width="100%" height="100%" fill="#fff"/>',
        f'<text x="20" y="26" font-size="15">{escape(title)}</text>',
        f'<text x="20" y="44" fill="#666">{escape(subtitle)}</text>',
    ]


def legend(names, x, y):
    parts = []
    for name in names:
        parts.append(f'<circle cx="{x}" cy="{y - 4}" r="4.5" fill="{COLOURS[name]}"/>')
        parts.append(f'<text x="{x + 9}" y="{y}">{escape(name)}</text>')
        x += 24 + 8 * len(name)
    return parts


def ratio_picture(ratios, names, day):
    """A row for each input, a dot for each program; a circle where it was stopped at the limit, so that it takes longer."""
    line, top, left, right, width = 20, 84, 210, 30, 900
    bottom = top + line * len(ratios)
    found = [log10(ratio) for row in ratios.values() for ratio, _ in row.values()] or [0]
    low, high = floor(min(found + [0])), max(ceil(max(found)), 1)
    at = lambda ratio: left + (width - left - right) * (log10(ratio) - low) / (high - low)
    parts = head(width, bottom + 54, "Time of each program over that of lrs",
                 f"wall time, by input, {day}; left of the line is faster; a circle is a program that was stopped")
    parts += legend(names, left, 66)
    for power in range(low, high + 1):
        x = at(10 ** power)
        parts.append(f'<path d="M{x:.1f} {top}V{bottom}" stroke="{"#222" if power == 0 else "#ddd"}"/>')
        parts.append(f'<text x="{x:.1f}" y="{bottom + 18}" text-anchor="middle" fill="#666">{10.0 ** power:g}</text>')
    parts.append(f'<text x="{at(1):.1f}" y="{bottom + 36}" text-anchor="middle">as fast as lrs</text>')
    for i, (title, row) in enumerate(ratios.items()):
        y = top + line * i + line / 2
        parts.append(f'<text x="{left - 12}" y="{y + 4}" text-anchor="end">{escape(title)}</text>')
        parts.append(f'<path d="M{left} {y}H{width - right}" stroke="#eee"/>')
        for name in [name for name in names if name in row]:
            ratio, how = row[name]
            paint = f'fill="{COLOURS[name]}"' if how == "done" else f'fill="#fff" stroke="{COLOURS[name]}" stroke-width="2"'
            parts.append(f'<circle cx="{at(ratio):.1f}" cy="{y}" r="4.5" {paint}/>')
    return "\n".join([*parts, "</svg>", ""])


def growth_picture(curves, names, day):
    """A panel for each family, and in it a line for each program; both axes are logarithmic."""
    side, top, left, gap, height = 260, 96, 60, 60, 300
    width = left + (side + gap) * len(curves)
    times = [seconds for lines in curves.values() for line in lines.values() for _, seconds in line] or [1]
    low, high = floor(log10(min(times))), max(ceil(log10(max(times))), floor(log10(min(times))) + 1)
    down = lambda seconds: top + height * (high - log10(seconds)) / (high - low)
    parts = head(width, top + height + 50, "Time against size", f"seconds of wall time, {day}; a line ends where its program was stopped or stopped itself")
    parts += legend(names, left, 66)
    for i, (family, lines) in enumerate(curves.items()):
        x0 = left + (side + gap) * i
        sizes = sorted({size for line in lines.values() for size, _ in line}) or [1]
        least, most = log10(sizes[0]), log10(sizes[-1])
        across = lambda size: x0 + side * ((log10(size) - least) / (most - least) if most > least else 0.5)
        parts.append(f'<text x="{x0}" y="{top - 8}">{escape(family)}</text>')
        for power in range(low, high + 1):
            y = down(10.0 ** power)
            parts.append(f'<path d="M{x0} {y:.1f}H{x0 + side}" stroke="#ddd"/>')
            parts.append(f'<text x="{x0 - 6}" y="{y + 4:.1f}" text-anchor="end" fill="#666">{10.0 ** power:g}</text>')
        for size in sizes:
            parts.append(f'<text x="{across(size):.1f}" y="{top + height + 18}" text-anchor="middle" fill="#666">{size}</text>')
        for name in [name for name in names if lines.get(name)]:
            points = " ".join(f"{across(size):.1f},{down(seconds):.1f}" for size, seconds in lines[name])
            parts.append(f'<polyline points="{points}" fill="none" stroke="{COLOURS[name]}" stroke-width="2"/>')
            for point in points.split():
                x, y = point.split(",")
                parts.append(f'<circle cx="{x}" cy="{y}" r="3" fill="{COLOURS[name]}"/>')
    return "\n".join([*parts, "</svg>", ""])
