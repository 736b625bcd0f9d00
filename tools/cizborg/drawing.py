"""What the drawing tools share: their colours, and how a picture is written."""
from __future__ import annotations

import colorsys
from typing import Any

from . import pythons
from .files import written_whole
from .statuses import Status, Stop

COLOURS = ("#0072b2", "#e69f00", "#009e73", "#cc79a7", "#56b4e9", "#d55e00", "#f0e442", "#8c6bb1", "#7f7f7f", "#a6761d")
MARKERS = ("o", "s", "^", "D", "v", "P", "X", "*", "<", ">")
ENDINGS = (".svg", ".png", ".pdf")
# hues that are this far from each other come nowhere near one that was taken before, for long
GOLDEN = 0.618034


def colour(place: int) -> str:
    """A colour for a place in a list: the first ones are told apart by all eyes, and all of 64 differ in hue or in lightness."""
    if place < len(COLOURS):
        return COLOURS[place]
    light = (0.36, 0.56, 0.74)[place % 3]
    red, green, blue = colorsys.hls_to_rgb(place * GOLDEN % 1, light, 0.7)
    return f"#{round(255 * red):02x}{round(255 * green):02x}{round(255 * blue):02x}"


def want(path: str) -> None:
    """What a tool asks for before any work where it will draw: an ending that a picture has, and a Python with matplotlib."""
    if not path.endswith(ENDINGS):
        raise Stop(f"{path} isn't the name of a picture: it has to end in {', '.join(ENDINGS)}", Status.WORDS)
    pythons.need("matplotlib")


def plotting() -> Any:
    """matplotlib's pyplot, set to write the same bytes for the same picture."""
    import matplotlib

    matplotlib.use("svg")
    matplotlib.rcParams.update({"svg.hashsalt": "cizborg", "font.size": 9, "hatch.linewidth": 0.8, "axes.spines.top": False, "axes.spines.right": False})
    matplotlib.rcParams.update({"path.simplify": False, "axes.formatter.useoffset": False, "axes.formatter.limits": (-12, 12)})
    from matplotlib import pyplot

    return pyplot


def save(figure: Any, path: str) -> None:
    """Writes a picture."""
    with written_whole(path) as name:
        figure.savefig(name, bbox_inches="tight", dpi=150, metadata={"Date": None} if path.endswith(".svg") else None)
