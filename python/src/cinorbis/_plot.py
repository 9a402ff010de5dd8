"""Telegrams and rod positions over a capture, drawn by matplotlib."""

from typing import Any, Callable, Optional, Sequence

import matplotlib

from ._rods import Rod
from ._telegrams import Telegram

matplotlib.use("Agg")
matplotlib.rcParams["svg.hashsalt"] = "cinorbis"  # the same picture each time

from matplotlib import pyplot  # noqa: E402


def _side(height: float, _: object = None) -> str:
    towards = "to port" if height < 0 else "to starboard"
    return f"{abs(height):g} {towards}" if height else "0"


def _drawn(
    groups: Sequence[tuple[str, list[tuple[int, float]]]],
    lost: list[int],
    path: str,
    label: str,
    finish: Callable[[Any], None],
) -> None:
    """Points by record, in groups that the key names; those refused stand at the lower edge."""
    figure, axes = pyplot.subplots(figsize=(9, 4.5), layout="constrained")
    many = sum(len(points) for _, points in groups) + len(lost) > 2000
    for name, points in groups:
        axes.plot(*zip(*points), ".", ms=4, label=name, rasterized=many)
    if lost:
        edge, name = axes.get_xaxis_transform(), f"refused ({len(lost)})"
        style = {"color": "black", "transform": edge, "label": name, "rasterized": many}
        axes.plot(lost, [0.02] * len(lost), "|", **style)
    finish(axes)
    axes.set_xlabel("record")
    axes.set_ylabel(label)
    if groups or lost:
        axes.legend(fontsize="small", loc="upper left", bbox_to_anchor=(1.01, 1))
    try:
        figure.savefig(path, metadata={"Date": None} if path.endswith(".svg") else None)
    finally:
        pyplot.close(figure)


def tilts(points: list[tuple[int, Optional[Telegram]]], path: str) -> None:
    """Starboard is up, port down (docs/RULES.md, §11); the axis says so in words."""
    groups = []
    for cylinder in range(8):
        here = [(w, one) for w, one in points if one and one.cylinder == cylinder]
        heights = [(w, -one.tilt if one.to == "port" else one.tilt) for w, one in here]
        if here:
            groups.append((f"cylinder {cylinder}", heights))

    def finish(axes: Any) -> None:
        axes.axhline(0, color="grey", linewidth=0.5)
        axes.yaxis.set_major_formatter(_side)

    lost = [w for w, one in points if one is None]
    _drawn(groups, lost, path, "tilt in degrees", finish)


def rods(points: list[tuple[int, Optional[Rod]]], path: str) -> None:
    """Positions as parts of the whole way, so that words of any length share the axis."""
    groups = []
    for m in range(1, 9):
        here = [(w, 100 * one.position / (2**m - 1)) for w, one in points if one and one.m == m]
        if here:
            groups.append((f"0 to {2**m - 1}", here))

    def finish(axes: Any) -> None:
        axes.set_ylim(-5, 105)
        axes.yaxis.set_major_formatter(lambda part, _: f"{part:g} %" if 0 <= part <= 100 else "")

    lost = [w for w, one in points if one is None]
    _drawn(groups, lost, path, "rod position", finish)
