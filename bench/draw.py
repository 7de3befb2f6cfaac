"""Draws the results of the benchmark as SVG: one figure of ratios to the baseline, and one of growth."""
import pathlib

import matplotlib

matplotlib.use("svg")
import matplotlib.pyplot as plot

# The same numbers give the same bytes; text stays text.
matplotlib.rcParams.update({"svg.hashsalt": "bench", "svg.fonttype": "none", "font.size": 9})
WITHOUT_DATE = {"Date": None, "Creator": None}


def saved(figure, path):
    """Writes a figure into a folder, which is made if missing."""
    pathlib.Path(path).parent.mkdir(parents=True, exist_ok=True)
    figure.tight_layout()
    figure.savefig(path, metadata=WITHOUT_DATE)
    plot.close(figure)


def ratios(path, titles, names, ratio_of):
    """Draws wall and CPU time of each server for each corpus as ratios to the baseline's, by `ratio_of(title, name, which)`:
    `which` is 0 for wall time and 1 for CPU time."""
    figure, sides = plot.subplots(1, 2, figsize=(10, 0.8 + 0.7 * len(titles)), sharey=True)
    width = 0.8 / len(names)
    for which, (side, what) in enumerate(zip(sides, ("Wall time", "CPU time"))):
        for index, name in enumerate(names):
            rows = [row + (index - (len(names) - 1) / 2) * width for row in range(len(titles))]
            side.barh(rows, [ratio_of(title, name, which) for title in titles], height=width, label=name)
        side.set_xscale("log")
        side.set_xlim(left=0.5)
        side.set_xlabel(f"{what}, relative to the baseline")
        side.axvline(1, color="black", linewidth=0.8)
        side.xaxis.set_major_formatter(matplotlib.ticker.FormatStrFormatter("%g"))
    sides[0].set_yticks(range(len(titles)), titles)
    sides[0].invert_yaxis()
    sides[1].legend(loc="upper right")
    saved(figure, path)


def growth(path, sizes, counts):
    """Draws CPU seconds by the megabytes of one object, and by the number of small stores: lists of pairs."""
    figure, sides = plot.subplots(1, 2, figsize=(10, 3))
    for side, points, what in zip(sides, (sizes, counts), ("MB of one object", "stores of 1 KiB")):
        side.plot([0, *(x for x, _ in points)], [0, *(y for _, y in points)], marker="o")
        side.set_xlabel(what)
        side.set_ylabel("Processor seconds")
        side.set_ylim(bottom=0)
        side.set_xlim(left=0)
    saved(figure, path)
