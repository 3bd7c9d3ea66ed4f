"""The curve as an SVG picture: records that stay usable against how many fail."""

WIDTH, HEIGHT = 640, 300
LEFT, RIGHT, TOP, BOTTOM = 56, 16, 16, 48


def steps(low, high, most):
    """Round numbers from low to high for an axis, at most so many steps."""
    size = next(s * 10 ** e for e in range(9) for s in (1, 2, 5) if (high - low) <= most * s * 10 ** e)
    return range(-(-low // size) * size, high + 1, size)


def place(value, low, high, start, end):
    """Where a value stands between two ends, to a tenth."""
    return round(start + (end - start) * (value - low) / max(1, high - low), 1)


def curve_picture(curve, failing, records, unit):
    """A point for each number of failures, each with its two numbers as its title."""
    points = [(int(k), int(f)) for k, f in curve]
    low, high, top = points[0][0], points[-1][0], int(records)
    across = lambda k: place(k, low, high, LEFT + 12, WIDTH - RIGHT - 12)
    up = lambda f: place(f, 0, top, HEIGHT - BOTTOM, TOP)
    lines = [f'<svg viewBox="0 0 {WIDTH} {HEIGHT}" role="img" font-family="sans-serif" font-size="11">',
             f"<title>Usable records for each number of failed {unit}s</title>"]
    for f in steps(0, top, 6):
        lines.append(f'<line x1="{LEFT}" y1="{up(f)}" x2="{WIDTH - RIGHT}" y2="{up(f)}" stroke="#ddd"/>')
        lines.append(f'<text x="{LEFT - 8}" y="{up(f) + 4}" text-anchor="end" fill="#444">{f}</text>')
    for k in steps(low, high, 12):
        lines.append(f'<text x="{across(k)}" y="{HEIGHT - BOTTOM + 18}" text-anchor="middle" fill="#444">{k}</text>')
    lines.append(f'<text x="{(LEFT + WIDTH - RIGHT) / 2}" y="{HEIGHT - 10}" text-anchor="middle" fill="#1a1a1a">{unit}s failed</text>')
    lines.append(f'<text x="16" y="{(TOP + HEIGHT - BOTTOM) / 2}" text-anchor="middle" fill="#1a1a1a" '
                 f'transform="rotate(-90 16 {(TOP + HEIGHT - BOTTOM) / 2})">usable records</text>')
    joined = " ".join(f"{across(k)},{up(f)}" for k, f in points)
    lines.append(f'<polyline points="{joined}" fill="none" stroke="#1f4e79" stroke-width="1.5"/>')
    size = 3 if len(points) <= 60 else 1.5
    for k, f in points:
        lines.append(f'<circle class="point" cx="{across(k)}" cy="{up(f)}" r="{size}" fill="#1f4e79"><title>{k} {f}</title></circle>')
    chosen = dict(points)[int(failing)]
    lines.append(f'<circle cx="{across(int(failing))}" cy="{up(chosen)}" r="8" fill="none" stroke="#b03a2e" stroke-width="2"/>')
    lines.append("</svg>")
    return "\n".join(lines)
