"""The figures, with matplotlib, without a display."""

from bisect import bisect_right
from collections import defaultdict
from pathlib import Path

import matplotlib

matplotlib.use("Agg")
# The same data make the same SVG bytes.
matplotlib.rcParams["svg.hashsalt"] = "tiny_tera"

from matplotlib import pyplot  # noqa: E402
from matplotlib.ticker import MaxNLocator, StrMethodFormatter  # noqa: E402

FORMATS = ("png", "svg")
DOTS_PER_INCH = 120
LETTERS_OF_AN_INCH = 20  # In the lines under a figure.
COLOURS = ("#0072b2", "#d55e00", "#009e73", "#cc79a7", "#56b4e9", "#e69f00", "#8c510a", "#7f7f7f")
MARKERS = ("o", "s", "^", "D", "v", "P")
PLAIN = StrMethodFormatter("{x:g}")  # As 0.01, and not as a power of ten.
KINDS = ("uniform", "bursty", "diagonal", "log-diagonal", "hot-spot", "unbalanced", "trace")  # The order of the parts.
PARTS_OF_A_ROW = 3
BARS = "bars: 95 per cent intervals of the mean over the seeds, by Student's t; hollow: queues still grow"
WITHOUT_ROUNDS = ("fifo", "ideal")
WINDOWS = 200  # Slots are averaged over so many windows.
STRETCHES = 4000  # Of an axis, of which each is a tenth as broad as a dot.
NAMES = {"u": "unicast", "m": "multicast"}
ROOM_FOR_LEGEND = 1.3  # Above the highest point.
MOST_NAMED = 32  # So many queues stand below the axis by name.
AS_IT_IS = {"parse_math": False}  # Of texts with names of files, in which a $ is a letter.


def save(figure, folder, name, told):
    """Writes NAME.png and NAME.svg in a folder, which is made where it is missing, and prints their names.

    What `told` says of where the figure comes from stands under it and in the files' descriptions.
    """
    under = told.text(int(figure.get_figwidth() * LETTERS_OF_AN_INCH))
    figure.supxlabel(under, x=0.01, horizontalalignment="left", fontsize=6, **AS_IT_IS)
    Path(folder).mkdir(parents=True, exist_ok=True)
    for form in FORMATS:
        file = Path(folder) / f"{name}.{form}"
        stamp = {"Date": None} if form == "svg" else {}
        stamp["Description"] = "\n".join(told.lines())
        figure.savefig(file, format=form, dpi=DOTS_PER_INCH, metadata=stamp)
        print(file)
    pyplot.close(figure)


def _one(title, across, up):
    figure, axes = pyplot.subplots(figsize=(7, 4.5), layout="constrained")
    axes.set_title(title, **AS_IT_IS)
    axes.set_xlabel(across)
    axes.set_ylabel(up)
    axes.grid(alpha=0.3)
    return figure, axes


def _plain_log(axes):
    if axes.dataLim.y1 > 0:  # Else nothing is drawn.
        axes.set_yscale("log")
        axes.yaxis.set_major_formatter(PLAIN)


def waits_figure(title, counts):
    """For each level, the share of services before which the queue had waited at least so many slots."""
    figure, axes = _one(title, "wait of a unicast queue (slots)", "share of cells served after at least this wait")
    for level, count in enumerate(counts):
        if count:
            axes.step(*_at_least(count), where="pre", color=COLOURS[level], label=f"level {level}")
    return _shares(figure, axes)


def delays_figure(title, counts):
    """For each level and kind, the share of packets that had at least this delay, at each of their outputs."""
    figure, axes = _one(title, "delay of a packet (slots from arrival to departure)", "share of packets with at least this delay")
    for (level, kind), count in counts.items():
        style = {"color": COLOURS[level], "linestyle": "-" if kind == "u" else "--"}
        axes.step(*_at_least(count), where="pre", label=f"level {level}, {NAMES[kind]}", **style)
    return _shares(figure, axes)


def distribution_figure(runs):
    """For each simulation the share of cells with at least each delay, with both axes logarithmic. The title has what is the
    same in all."""
    said = [_said(run.words) for run in runs]
    common = [parts[0] for parts in zip(*said) if len(set(parts)) == 1]
    title = ", ".join(part for part in common if part)
    figure, axes = _one(title, "delay of a cell (slots)", "share of cells with at least this delay")
    for number, (run, parts) in enumerate(zip(runs, said)):
        delays, shares, left = [], [], run.departed
        for delay, cells in run.count_rows:
            delays.append(delay)
            shares.append(left / run.departed)
            left -= cells
        label = ", ".join(part for part in parts if part and part not in common) or parts[0]
        axes.step(delays, shares, where="pre", color=COLOURS[number % len(COLOURS)], label=label)
    _plain_log(axes)
    axes.set_xscale("log")
    axes.xaxis.set_major_formatter(PLAIN)
    axes.legend(fontsize=8)
    return figure


def _said(words):
    """What is said of a simulation by its words, in parts, of which one may be empty."""
    weight = f" {float(words.weight):g}" if words.weight else ""
    return (
        _line_name(words.scheduler, words.rounds), f"{words.pattern}{weight} traffic", f"bursts of {words.burst}" if words.burst > 1 else "",
        f"load {float(words.load):g}", "1 port" if words.ports == 1 else f"{words.ports} ports", f"{words.slots:,} slots", f"seed {words.seed}",
    )


def _shares(figure, axes):
    _plain_log(axes)
    axes.set_xlim(left=0)
    axes.xaxis.set_major_locator(MaxNLocator(integer=True))
    if axes.lines:
        axes.legend()
    return figure


def queues_figure(title, queues):
    """The peak of each queue, the deepest first; a cross marks each that dropped a packet."""
    figure, axes = _one(title, "queue, the deepest first", "greatest number of cells in the queue")
    ordered = sorted(queues, key=lambda queue: -queue.peak)
    for level, is_multicast in sorted({(queue.level, queue.output is None) for queue in queues}):
        places = [place for place, queue in enumerate(ordered) if (queue.level, queue.output is None) == (level, is_multicast)]
        style = {"color": COLOURS[level], "hatch": "//" if is_multicast else None, "edgecolor": "white"}
        name = f"level {level}, {NAMES['m' if is_multicast else 'u']}"
        axes.bar(places, [ordered[place].peak for place in places], label=name, **style)
    dropping = [place for place, queue in enumerate(ordered) if queue.dropped]
    if dropping:
        peaks = [ordered[place].peak for place in dropping]
        axes.plot(dropping, peaks, "x", color="black", label="dropped packets")
    if len(ordered) <= MOST_NAMED:
        axes.set_xticks(range(len(ordered)), labels=[queue.name for queue in ordered], rotation=60)
    axes.yaxis.set_major_locator(MaxNLocator(integer=True))
    axes.legend()
    return figure


def _at_least(count):
    """The waits from 0 on, and the share of values that are at least each of them."""
    total, left = sum(count.values()), sum(count.values())
    waits, shares = [], []
    for wait in range(max(count) + 1):
        waits.append(wait)
        shares.append(left / total)
        left -= count[wait]
    return waits, shares


def waiting_figure(title, waiting):
    """The cells in all queues after each slot."""
    figure, axes = _one(title, "slot", "waiting cells (all inputs)")
    axes.plot(range(len(waiting)), waiting, color=COLOURS[0], linewidth=1)
    axes.set_xlim(0, max(1, len(waiting) - 1))
    axes.set_ylim(bottom=0)
    return figure


def fill_figure(title, fill):
    """The packets and the cells in one queue in each slot; a cross marks each slot that dropped a packet."""
    figure, axes = _one(title, "slot", "in the queue, before the slot serves it")
    # The line behind is broader, since they are the same where packets have one cell.
    lines = (("cells", fill.cells, 2.5), ("packets", fill.packets, 1))
    style = "steps-mid" if isinstance(fill.slots, range) else "steps-post"
    for colour, (name, counts, width) in zip(COLOURS, lines):
        if counts is not None:
            label = f"{name}, at most {max(counts)} (slot {fill.slots[counts.index(max(counts))]})"
            axes.plot(fill.slots, counts, color=colour, linewidth=width, drawstyle=style, label=label)
    highest = fill.packets if fill.cells is None else fill.cells
    if fill.dropped:
        heights = [highest[bisect_right(fill.slots, slot) - 1] for slot in fill.dropped]
        axes.plot(fill.dropped, heights, "x", color="black", label=f"dropped packets, {len(fill.dropped)}")
    axes.set_xlim(0, max(1, fill.slots[-1]))
    axes.set_ylim(0, max(1, max(highest)) * ROOM_FOR_LEGEND)
    axes.yaxis.set_major_locator(MaxNLocator(integer=True))
    axes.legend(loc="upper right")
    return figure


def _apart(numbers):
    """The slots whose dots are to be drawn: of equal numbers so close that their dots are one, the first."""
    stretch, found = max(1, len(numbers) // STRETCHES), {}
    for slot, number in enumerate(numbers):
        found.setdefault((slot // stretch, number), slot)
    return list(found.values())


def matched_figure(title, matched, ports):
    """The outputs that are fed in each slot, and their mean over windows of slots."""
    figure, axes = _one(title, "slot", "matched pairs (outputs fed in a slot)")
    dots = _apart(matched)
    axes.plot(dots, [matched[slot] for slot in dots], ".", color="#bbbbbb", markersize=2, label="each slot")
    window = max(1, len(matched) // WINDOWS)
    middles, means = [], []
    for start in range(0, len(matched), window):
        part = matched[start:start + window]
        middles.append(start + (len(part) - 1) / 2)
        means.append(sum(part) / len(part))
    axes.plot(middles, means, color=COLOURS[0], label=f"mean of {window} slots")
    axes.set_xlim(0, max(1, len(matched) - 1))
    axes.set_ylim(0, ports * 1.05)
    axes.legend(loc="lower left")
    return figure


def reference_figure(title, later):
    """For each output, by how many slots its cells leave later than from the ideal switch, in the mean."""
    figure, axes = _one(title, "output", "slots behind an ideal switch, mean of a cell")
    axes.bar(range(len(later)), later, color=COLOURS[0])
    axes.xaxis.set_major_locator(MaxNLocator(integer=True))
    axes.set_ylim(bottom=0)
    return figure


def load_figure(title, runs):
    """Mean and longest wait over load; a run is (rounds, load, mean wait or None, longest wait)."""
    figure, axes = _one(title, "carried load (cells per output and slot)", "wait of a unicast queue (slots)")
    by_rounds = defaultdict(list)
    for rounds, load, mean, longest in runs:
        by_rounds[rounds].append((load, mean, longest))
    for number, (rounds, points) in enumerate(sorted(by_rounds.items())):
        colour = COLOURS[number % len(COLOURS)]
        means = [(load, mean) for load, mean, _ in points if mean is not None]
        longest = [(load, most) for load, _, most in points]
        name = "1 round" if rounds == 1 else f"{rounds} rounds"
        if means:
            axes.plot(*zip(*means), "o", color=colour, label=f"mean, {name}")
        axes.plot(*zip(*longest), "^", color=colour, fillstyle="none", label=f"longest, {name}")
    # Waits of 0 have no place on a logarithmic axis, so up to 1 it is linear.
    axes.set_yscale("symlog", linthresh=1)
    axes.yaxis.set_major_formatter(PLAIN)
    axes.set_ylim(bottom=0)
    axes.set_xlim(0, 1)
    axes.legend(loc="upper left")
    return figure


def save_sweep(points, told, folder):
    """Draws the figures of a sweep's points: `delays` and `tails` where loads are below full, `throughput` under full load,
    `weights` where unbalanced traffic has several."""
    told = told._replace(notes=(*told.notes, BARS))
    of_weights = points[(points["kind"] == "unbalanced") & (points["load"] == 1)]
    below, full = points[points["load"] < 1], points[(points["load"] == 1) & (points["kind"] != "unbalanced")]
    for ports, part in below.groupby("ports"):
        more = "" if below["ports"].nunique() == 1 else f"_{ports}_ports"
        save(sweep_figure(part, ports), folder, f"delays{more}", told)
        save(sweep_figure(part, ports, "p99_9"), folder, f"tails{more}", told)
    for kind, part in full.groupby("kind"):
        name = "throughput" if full["kind"].nunique() == 1 else f"throughput_{kind}"
        save(throughput_figure(part, "ports", f"{kind} traffic, load 1"), folder, name, told)
    for ports, part in of_weights.groupby("ports"):
        name = "weights" if of_weights["ports"].nunique() == 1 else f"weights_{ports}_ports"
        save(throughput_figure(part, "weight", f"unbalanced traffic, load 1, {ports} ports"), folder, name, told)


def _line_name(scheduler, rounds):
    if scheduler in WITHOUT_ROUNDS:
        return "output-queued (ideal)" if scheduler == "ideal" else scheduler
    return f"{scheduler}, 1 round" if rounds == 1 else f"{scheduler}, {rounds} rounds"


def _lines(points, across):
    """For each scheduler and number of rounds, and each weight but on its axis, its style and its points, in rising order."""
    apart = ["scheduler", "rounds", *(name for name in ("burst", "weight") if name != across and points[name].nunique() > 1)]
    number = -1
    for words, part in points.groupby(apart):
        number += words[0] != "ideal"  # It has a colour of its own.
        name = _line_name(words[0], words[1])
        name += "".join(f", {word} {value:g}" for word, value in zip(apart[2:], words[2:]))
        # Where the colours begin again, each has another marker.
        marker = MARKERS[(number + number // len(COLOURS)) % len(MARKERS)]
        style = {"marker": marker, "color": COLOURS[number % len(COLOURS)]}
        if words[0] == "ideal":
            style = {"marker": "x", "color": "black", "linestyle": "--"}
        yield part.sort_values(across), {"label": name, "markersize": 4, **style}


def _draw(axes, points, across, column, width):
    """Draws the lines of a column over another, with the bars of its intervals where it has some."""
    for part, style in _lines(points, across):
        bars = None if width is None or part[width].isna().all() else part[width]
        axes.errorbar(part[across], part[column], yerr=bars, capsize=3, **style)
        grows = part[part["mark"].fillna("").str.contains("grows")]
        if style["marker"] != "x":
            axes.plot(grows[across], grows[column], style["marker"], color=style["color"], markersize=4, markerfacecolor="white", zorder=9)


def sweep_figure(points, ports, column="mean_delay"):
    """A delay over offered load, a part for each kind of traffic: the mean with its intervals, or a percentile."""
    kinds = [kind for kind in KINDS if kind in set(points["kind"])]
    rows = -(-len(kinds) // PARTS_OF_A_ROW)
    across = min(len(kinds), PARTS_OF_A_ROW)
    figure, parts = pyplot.subplots(
        rows, across, figsize=(5 * across, 4.7 * rows), sharey=True, squeeze=False, layout="constrained"
    )
    is_mean = column == "mean_delay"
    for axes, kind in zip(parts.flat, kinds):
        found = points[points["kind"] == kind]
        _draw(axes, found, "load", column, "half_width" if is_mean else None)
        if is_mean:
            _formula_line(axes, found)
        axes.set_title(f"{kind} traffic, {ports} ports")
        axes.set_xlabel("offered load (cells per input and slot)")
        _plain_log(axes)
        axes.set_xlim(0, 1)
        axes.grid(alpha=0.3, which="both")
        axes.legend(loc="upper left", fontsize=8)
    for axes in parts.flat[len(kinds):]:
        axes.set_visible(False)
    for row in parts:
        row[0].set_ylabel("mean delay (slots)" if is_mean else "delay of 99.9 per cent (slots)")
    return figure


def _formula_line(axes, points):
    known = points.drop_duplicates("load").dropna(subset=["formula"])
    if len(known):
        # Broad and behind the others, since the curve of the same cells lies upon it.
        axes.plot(known["load"], known["formula"], color="#cccccc", linewidth=6, zorder=0, label="output-queued, formula")


def throughput_figure(points, across, title):
    """Throughput under full load over ports or weights with its intervals, a line for each scheduler and number of rounds."""
    figure, axes = _one(title, across, "throughput (cells per output and slot)")
    _draw(axes, points, across, "throughput", "throughput_half_width")
    if across == "ports":
        axes.set_xscale("log", base=2)
        ports = sorted(points["ports"].unique())
        axes.set_xticks(ports, labels=[str(number) for number in ports])
    axes.legend(fontsize=8)
    return figure
