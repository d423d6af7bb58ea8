"""The two plots of bench/run, as SVG that is read without colour: bars by command, and lines by size."""
import math
from xml.sax.saxutils import escape

WIDTH = 860
# How the kinds of bars are filled, in their order.
FILLS = ("#333333", "url(#stripes)", "#ffffff")
STRIPES = """<pattern id="stripes" width="4" height="4" patternUnits="userSpaceOnUse" patternTransform="rotate(45)">
<rect width="4" height="4" fill="#ffffff"/><rect width="1.6" height="4" fill="#333333"/></pattern>"""
# The points of a line, as corners around a place and what is in them, and the dashes between, in their order.
MARKERS = (
    (((-4, -4), (4, -4), (4, 4), (-4, 4)), "#000000"),
    (((0, -5), (5, 4), (-5, 4)), "#000000"),
    (((0, -6), (6, 0), (0, 6), (-6, 0)), "#000000"),
    (((0, 5), (5, -4), (-5, -4)), "#000000"),
    (((-4, -4), (4, -4), (4, 4), (-4, 4)), "#ffffff"),
    (((0, -5), (5, 4), (-5, 4)), "#ffffff"),
)
DASHES = ("none", "9 4", "2 3", "12 3 2 3", "5 2", "1 4")


def document(height, title, note, body):
    """The whole plot: a white page, the title, a note below it, and what is drawn."""
    return "\n".join([
        f'<svg xmlns="http://www.w3.org/2000/svg" width="{WIDTH}" height="{height}" viewBox="0 0 {WIDTH} {height}" '
        f'role="img" font-family="sans-serif" font-size="12" fill="#000000">',
        f"<title>{escape(title)}</title>",
        f"<defs>{STRIPES}</defs>",
        f'<rect width="{WIDTH}" height="{height}" fill="#ffffff"/>',
        text(20, 28, title, size=17, weight="bold"),
        text(20, 47, note),
        *body,
        "</svg>\n",
    ])


def text(x, y, words, anchor="start", size=12, weight="normal", turn=0):
    turned = f' transform="rotate({turn} {x:.1f} {y:.1f})"' if turn else ""
    return (f'<text x="{x:.1f}" y="{y:.1f}" text-anchor="{anchor}" font-size="{size}" font-weight="{weight}"{turned}>'
            f"{escape(words)}</text>")


def rule(x1, y1, x2, y2, stroke="#bbbbbb", width=1.0, dashes="none"):
    return (f'<line x1="{x1:.1f}" y1="{y1:.1f}" x2="{x2:.1f}" y2="{y2:.1f}" stroke="{stroke}" stroke-width="{width}" '
            f'stroke-dasharray="{dashes}"/>')


def box(x, y, width, height, fill):
    return (f'<rect x="{x:.1f}" y="{y:.1f}" width="{width:.1f}" height="{height:.1f}" fill="{fill}" stroke="#000000" '
            f'stroke-width="0.8"/>')


def step(largest, most):
    """The least of 1, 2 and 5 times a power of ten by which at most so many steps reach the largest value."""
    power = 10.0 ** math.floor(math.log10(largest / most))
    return next(power * part for part in (1, 2, 5, 10) if power * part * most >= largest)


def bars(title, note, axis, kinds, rows):
    """Lying bars: each row has a name and a value for each kind, or None where it has none."""
    left, right, top, bar, gap = 150, 50, 96, 10, 9
    bottom = top + len(rows) * (len(kinds) * bar + gap)
    largest = max(value for _, values in rows for value in values if value is not None)
    every = step(largest, 10)
    scale = (WIDTH - left - right) / (math.ceil(largest / every) * every)
    body, x = [], left
    for kind, fill in zip(kinds, FILLS):
        body += [box(x, 62, 22, 11, fill), text(x + 28, 72, kind)]
        x += 210
    for number in range(math.ceil(largest / every) + 1):
        x = left + number * every * scale
        body += [rule(x, top - 6, x, bottom), text(x, bottom + 17, f"{number * every:.10g}", anchor="middle")]
    body.append(text((left + WIDTH - right) / 2, bottom + 38, axis, anchor="middle"))
    for place, (name, values) in enumerate(rows):
        y = top + place * (len(kinds) * bar + gap)
        body.append(text(left - 8, y + len(kinds) * bar / 2 + 4, name, anchor="end"))
        for number, (value, fill) in enumerate(zip(values, FILLS)):
            if value is not None:
                body.append(box(left, y + number * bar, value * scale, bar, fill))
                body.append(text(left + value * scale + 4, y + number * bar + 8.5, f"{value:.2f}", size=9))
    body.append(rule(left, top - 6, left, bottom, stroke="#000000"))
    return document(bottom + 52, title, note, body)


def spread(heights, apart):
    """The heights, lowest number first, moved so that each is at least so far below the one before."""
    moved = []
    for height in heights:
        moved.append(max(height, moved[-1] + apart) if moved else height)
    return moved


def curve(points, marker, dashes):
    """A line through the points, with its marker at each."""
    corners, fill = marker
    path = " ".join(f"{x:.1f},{y:.1f}" for x, y in points)
    drawn = [f'<polyline points="{path}" fill="none" stroke="#000000" stroke-width="1.3" stroke-dasharray="{dashes}"/>']
    for x, y in points:
        around = " ".join(f"{x + right:.1f},{y + down:.1f}" for right, down in corners)
        drawn.append(f'<polygon points="{around}" fill="{fill}" stroke="#000000"/>')
    return drawn


def duration(seconds):
    return f"{seconds:.4g} s" if seconds >= 1 else f"{seconds * 1000:.4g} ms"


def ladder(low, high):
    """The values of 1, 2 and 5 times powers of ten from the last one at or below low to the first at or past high."""
    powers = range(math.floor(math.log10(low)), math.ceil(math.log10(high)) + 1)
    values = [part * 10.0 ** power for power in powers for part in (1, 2, 5)]
    first = max(value for value in values if value <= low)
    last = min(value for value in values if value >= high)
    return [value for value in values if first <= value <= last]


def lines(title, note, axes, sizes, series):
    """Times by size as lines over two logarithmic axes. Sizes are names by size; each of the series has a name and points,
    and the name stands behind the last of these."""
    left, right, top, bottom = 74, 120, 72, 470
    width, height = WIDTH - left - right, bottom - top
    times = ladder(*(pick(y for _, points in series for _, y in points) for pick in (min, max)))

    def across(size):
        return left + width * math.log(size / min(sizes)) / math.log(max(sizes) / min(sizes))

    def up(seconds):
        return bottom - height * math.log(seconds / times[0]) / math.log(times[-1] / times[0])

    body = []
    for size, name in sizes.items():
        body += [rule(across(size), top, across(size), bottom), text(across(size), bottom + 18, name, anchor="middle")]
    for value in times:
        body.append(rule(left, up(value), left + width, up(value)))
        body.append(text(left - 8, up(value) + 4, duration(value), anchor="end"))
    body.append(text(left + width / 2, bottom + 42, axes[0], anchor="middle"))
    body.append(text(18, top + height / 2, axes[1], anchor="middle", turn=-90))
    ends = []
    for (name, points), marker, dashes in zip(series, MARKERS, DASHES):
        places = [(across(size), up(seconds)) for size, seconds in points]
        body += curve(places, marker, dashes)
        ends.append((*places[-1], name))
    ends.sort(key=lambda end: end[1])
    for (x, y, name), lower in zip(ends, spread([y for _, y, _ in ends], 15)):
        body.append(rule(x + 8, y, x + 24, lower, stroke="#000000", width=0.6))
        body.append(text(x + 28, lower + 4, name))
    body.append(rule(left, bottom, left + width, bottom, stroke="#000000"))
    body.append(rule(left, top, left, bottom, stroke="#000000"))
    return document(bottom + 56, title, note, body)
