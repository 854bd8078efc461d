"""The requests of a simulation as a picture, in SVG: how many ended in each part of the time, and
how long each took."""

WIDTH, HEIGHT, LEFT, GAP = 760, 150, 60, 46
COLOURS = {"served": "#0b3d91", "cancelled": "#d95f02"}
PARTS = 60


def kind_of(request):
    return "served" if request.status == 0 else "cancelled"


def words(x, y, told, more=""):
    return f'<text x="{x:.0f}" y="{y:.0f}" {more}>{told}</text>'


def frame(top, told, most, unit):
    """The frame of a diagram, its title, and the ends of its scale."""
    yield f'<rect x="{LEFT}" y="{top}" width="{WIDTH}" height="{HEIGHT}" fill="none" stroke="#999"/>'
    yield words(LEFT, top - 6, told, 'font-weight="bold"')
    yield words(LEFT - 5, top + 9, f"{most:.0f} {unit}", 'text-anchor="end"')
    yield words(LEFT - 5, top + HEIGHT, "0", 'text-anchor="end"')


def throughput(requests, end, top):
    """Bars: the requests that ended in each part of the time, the cancelled ones above."""
    counts = [dict.fromkeys(COLOURS, 0) for _ in range(PARTS)]
    for it in requests:
        counts[min(PARTS - 1, int(it.ended / end * PARTS))][kind_of(it)] += 1
    most = max(sum(part.values()) for part in counts) or 1
    yield from frame(top, "Requests that ended, by time", most, "")
    wide = WIDTH / PARTS
    for number, part in enumerate(counts):
        low = top + HEIGHT
        for kind, count in part.items():
            high = count / most * HEIGHT
            low -= high
            yield (f'<rect x="{LEFT + number * wide + 1:.1f}" y="{low:.1f}" width="{wide - 2:.1f}" '
                   f'height="{high:.1f}" fill="{COLOURS[kind]}"/>')


def latencies(requests, end, top):
    """Points: how long each request took, by the time at which it ended."""
    most = max(it.ended - it.came for it in requests)
    yield from frame(top, "How long each took", most / 1000, "ms")
    for it in requests:
        x = LEFT + it.ended / end * WIDTH
        y = top + HEIGHT - (it.ended - it.came) / most * HEIGHT
        yield f'<circle cx="{x:.1f}" cy="{y:.1f}" r="1.6" fill="{COLOURS[kind_of(it)]}"/>'


def write_picture(path, requests, end):
    """Writes the picture of requests that have ended, over `end` microseconds."""
    ended = [it for it in requests if it.status is not None]
    below = 2 * (HEIGHT + GAP) + 8
    lines = [*throughput(ended, end, GAP), *latencies(ended, end, HEIGHT + 2 * GAP)]
    lines.append(words(LEFT, below + 20, f"0 to {end / 1e6:.2f} s"))
    for number, (kind, colour) in enumerate(COLOURS.items()):
        x = LEFT + 160 + 110 * number
        lines.append(f'<rect x="{x}" y="{below + 11}" width="10" height="10" fill="{colour}"/>')
        lines.append(words(x + 15, below + 20, kind))
    head = (f'<svg xmlns="http://www.w3.org/2000/svg" width="{WIDTH + LEFT + 20}" '
            f'height="{below + 34}" font-family="sans-serif" font-size="11">')
    white = '<rect width="100%" height="100%" fill="white"/>'
    with open(path, "w", encoding="utf-8") as out:
        out.write("\n".join([head, white, *lines, "</svg>", ""]))
