"""The curve of a training: as CSV, and as a picture with matplotlib, or without it as a small SVG."""

import csv
import io
import math
from dataclasses import astuple, dataclass, fields
from importlib.util import find_spec

HEADING = "A linear value, trained by self-play, against random choices"
ACROSS, UP = "battles of self-play", "share of battles won"


@dataclass(frozen=True)
class Point:
    """How many test battles were won after a number of battles of self-play, with Wilson's interval of the share."""

    battles: int
    steps: int
    tested: int
    won: int
    tied: int
    share: float
    low: float
    high: float


def interval(won, count, z=1.959963984540054):
    """Wilson's interval of a share, for 95 % or another number of standard deviations."""
    p = won / count
    middle, half = p + z * z / (2 * count), z * math.sqrt(p * (1 - p) / count + z * z / (4 * count * count))
    return (middle - half) / (1 + z * z / count), (middle + half) / (1 + z * z / count)


def point(battles, steps, tested, won, tied):
    low, high = interval(won, tested)
    return Point(battles, steps, tested, won, tied, *(round(it, 4) for it in (won / tested, low, high)))


def as_csv(points):
    """The points as CSV, with a header line."""
    text = io.StringIO()
    writer = csv.writer(text, lineterminator="\n")
    writer.writerow(it.name for it in fields(Point))
    writer.writerows(map(astuple, points))
    return text.getvalue()


def draw(points, folder, by_matplotlib=find_spec("matplotlib") is not None):
    """Writes the picture to a folder, and returns its path."""
    if not by_matplotlib:
        path = folder / "curve.svg"
        path.write_text(as_svg(points))
        return path
    import matplotlib

    matplotlib.use("Agg")
    import matplotlib.pyplot as plt

    figure, axes = plt.subplots(figsize=(8, 4.5), layout="constrained")
    battles = [it.battles for it in points]
    axes.fill_between(battles, [it.low for it in points], [it.high for it in points], alpha=0.25, label="95 % interval")
    axes.plot(battles, [it.share for it in points], marker=".")
    axes.axhline(0.5, color="gray", linestyle=":", label="as good as random")
    axes.set(title=HEADING, xlabel=ACROSS, ylabel=UP, ylim=(0, 1.02), xlim=(0, None))
    axes.legend(loc="lower right")
    path = folder / "curve.png"
    figure.savefig(path, dpi=120)
    plt.close(figure)
    return path


def as_svg(points, width=640, height=360, edge=48):
    """The curve with its interval as SVG."""
    most = max(points[-1].battles, 1)

    def at(battles, share):
        return f"{edge + battles / most * (width - 2 * edge):.1f},{height - edge - share * (height - 2 * edge):.1f}"

    band = [at(it.battles, it.high) for it in points] + [at(it.battles, it.low) for it in reversed(points)]
    rows = [
        f'<svg xmlns="http://www.w3.org/2000/svg" width="{width}" height="{height}" font-family="sans-serif" font-size="12">'
    ]
    rows += [
        '<rect width="100%" height="100%" fill="white"/>',
        f'<text x="{width / 2}" y="24" text-anchor="middle">{HEADING}</text>',
    ]
    for share in (0, 0.25, 0.5, 0.75, 1):
        (x, y), (end, _) = (at(battles, share).split(",") for battles in (0, most))
        rows.append(f'<line x1="{x}" y1="{y}" x2="{end}" y2="{y}" stroke="#ccc"/>')
        rows.append(f'<text x="{float(x) - 6}" y="{float(y) + 4}" text-anchor="end">{share:.0%}</text>')
    for battles in (0, most // 2, most):
        x, y = at(battles, 0).split(",")
        rows.append(f'<text x="{x}" y="{float(y) + 18}" text-anchor="middle">{battles}</text>')
    rows.append(
        f'<text x="{width / 2}" y="{height - 8}" text-anchor="middle">{ACROSS} ({UP}, with its 95 % interval)</text>'
    )
    rows.append(f'<polygon points="{" ".join(band)}" fill="#1f77b4" fill-opacity="0.25"/>')
    rows.append(
        f'<polyline points="{" ".join(at(it.battles, it.share) for it in points)}" fill="none" stroke="#1f77b4" stroke-width="2"/>'
    )
    return "\n".join([*rows, "</svg>", ""])
