"""Draws what series.py gathers. Figures are matplotlib's; the tree is laid out by graphviz."""
import html
import math
import shutil
import subprocess
import textwrap
from bisect import bisect_right

import matplotlib

matplotlib.use("Agg")
import matplotlib.pyplot as plt
from matplotlib.ticker import FuncFormatter, MaxNLocator

from .series import NoTool

# The colours of Okabe and Ito, which those who see few colours can tell apart, but for the yellow, which is too light for lines. The
# dashes tell lines apart in grey.
COLOURS = ["#0072B2", "#D55E00", "#009E73", "#CC79A7", "#000000", "#E69F00", "#56B4E9", "#7A5C1E"]
DASHES = ["-", (0, (6, 2)), (0, (2, 1.5)), (0, (8, 2, 2, 2)), (0, (12, 3)), (0, (4, 1.5, 1, 1.5, 1, 1.5)), (0, (1, 1)), (0, (9, 3, 3, 3))]
GREY, LIGHT = "#595959", "#9A9A9A"
FEW_RESOLUTIONS = 12
MANY_CLIQUES = 40
FEW_TRADES, MANY_TRADES = 40, 1000
plt.rcParams.update({"font.family": "DejaVu Sans", "font.size": 10, "axes.titlesize": 11, "axes.titleweight": "bold", "axes.titlelocation": "left",
                     "axes.spines.top": False, "axes.spines.right": False, "axes.grid": True, "grid.color": "#E2E2E2", "grid.linewidth": 0.6,
                     "axes.axisbelow": True, "axes.titlepad": 8, "svg.hashsalt": "daggre", "figure.dpi": 110})


def spread_apart(places, gap, low, high):
    """The places of labels in order, moved until there is a gap between each two, and as far as they fit between two ends."""
    order = sorted(range(len(places)), key=lambda at: places[at])
    gap = min(gap, (high - low) / max(1, len(places) - 1)) if len(places) > 1 else gap
    found = [min(max(place, low), high) for place in places]
    for _ in range(100):
        for one, other in zip(order, order[1:]):
            short = gap - (found[other] - found[one])
            if short > 1e-9:
                found[one] -= short / 2
                found[other] += short / 2
        found = [min(max(place, low), high) for place in found]
    # what the ends pushed together is moved apart again, from below
    for one, other in zip(order, order[1:]):
        found[other] = max(found[other], found[one] + gap)
    return found


def label_ends(axes, ends, room=1.25):
    """A name at the end of each line, in its colour: `ends` has place, number, text and colour of each."""
    low, high = axes.get_ylim()
    height = axes.get_position().height * axes.figure.get_size_inches()[1] * 72
    gap = (high - low) * 9 * room / height
    for (x, _, text, colour), at in zip(ends, spread_apart([end[1] for end in ends], gap, low + gap / 2, high)):
        axes.annotate(text, (x, at), (8, 0), textcoords="offset points", va="center", color=colour, fontsize=9, annotation_clip=False,
                      bbox={"boxstyle": "square,pad=0.1", "facecolor": "white", "edgecolor": "none", "alpha": 0.85})


def lay_out(figure, title, note, gap=0.34, right=1.15):
    """The panels between a title and a note, at distances in inches, so that they look alike for one row and for many."""
    width, height = figure.get_size_inches()
    note = "\n".join(textwrap.fill(line, int(15.5 * width)) for line in note.split("\n"))
    lines = note.count("\n") + 1
    bottom = (0.75 + 0.17 * lines) / height
    figure.subplots_adjust(left=0.95 / width, right=1 - right / width, top=1 - 0.85 / height, bottom=bottom, wspace=gap, hspace=0.42)
    figure.text(0.12 / width, 1 - 0.26 / height, title, fontsize=14, fontweight="bold", va="center")
    figure.text(0.12 / width, (0.12 + 0.17 * lines) / height, note, fontsize=8.5, color=GREY, va="top", linespacing=1.3)


def mark_line(line, name):
    """Gives a line a name, by which a test finds it, also in an SVG."""
    line.set_gid(name.replace(" ", "-").replace("=", "-"))


def stepped(axes, points, end, name, **style):
    """A line that keeps each number until the next one, and the last as far as `end`."""
    x, y = [point[0] for point in points], [point[1] for point in points]
    if x and end > x[-1]:
        x, y = [*x, end], [*y, y[-1]]
    (line,) = axes.step(x, y, where="post", **style)
    mark_line(line, name)
    return (x[-1], y[-1]) if x else None


def whole_text(number):
    return f"{round(number):,}".replace("-", "−")


def grid_of(count, height):
    columns = 1 if count == 1 else 2
    rows = math.ceil(count / columns)
    figure, grid = plt.subplots(rows, columns, figsize=(5.8 * columns + (0.6 if columns > 1 else 1.4), height * rows + 1.6), squeeze=False)
    for axes in grid.flat[count:]:
        axes.set_visible(False)
    return figure, list(grid.flat[:count]), columns


def right_end(last):
    """Where the axis of revisions ends: a bit behind the last one, so that its step is seen."""
    return max(1, last) * 1.02 + 0.2


def set_axes(axes, at, count, columns, last, unit):
    axes.set_xlim(0, right_end(last))
    axes.xaxis.set_major_locator(MaxNLocator(integer=True, nbins=8))
    axes.yaxis.set_major_formatter(FuncFormatter(lambda number, _: whole_text(number)))
    if at % columns == 0:
        axes.set_ylabel(unit)
    if at + columns >= count:
        axes.set_xlabel("revision (accepted changes)")


def percent(number):
    """A price in percent, with more digits near the ends."""
    if number in (0, 1):
        return f"{100 * number:.0f} %"
    near = min(number, 1 - number)
    return f"{100 * number:.1f} %" if near >= 0.001 else f"{100 * number:.4f} %"


def mark_trades(axes, points, revisions, colour, count, is_hollow=False):
    """Dots on a stepped line, smaller where there are many, and none where they would hide it."""
    if count > MANY_TRADES or not points:
        return
    places = [point[0] for point in points]
    shown = [(at, points[bisect_right(places, at) - 1][1]) for at in revisions if at >= places[0]]
    axes.plot([at for at, _ in shown], [number for _, number in shown], "o", markersize=5.5 if count <= FEW_TRADES else 2.5, markeredgecolor=colour,
              markeredgewidth=1.4 if count <= FEW_TRADES else 0.8, markerfacecolor="white" if is_hollow else colour, linestyle="none", zorder=4)


# Prices.


def draw_answers(axes, name, series, last):
    """The lines of one question, its trades and its resolution. Gives the labels of the ends."""
    resolved, ends, is_few = series["resolved"], [], len(series["trades"]) <= FEW_TRADES
    for number, (value, points) in enumerate(series["prices"].items()):
        colour, dash = COLOURS[number % 8], DASHES[(number + number // 8) % 8]
        shown = [[at, 100 * price] for at, price in points]
        end = resolved["revision"] if resolved else right_end(last)
        place = stepped(axes, shown, end, f"price {name}={value}", color=colour, linewidth=1.8 if is_few else 1.2, linestyle=dash)
        if place is None:
            continue
        for is_conditional in (False, True):
            at = [trade["revision"] for trade in series["trades"] if trade["value"] in (None, value) and trade["conditional"] == is_conditional]
            mark_trades(axes, shown, at, colour, len(series["trades"]), is_conditional)
        if resolved:
            came = resolved["value"] == value
            axes.plot([end, end], [place[1], 100 * came], color=colour, linewidth=1, linestyle=(0, (1, 1.5)))
            axes.plot([end], [100 * came], "D" if came else "x", color=colour, markersize=6, clip_on=False, zorder=5)
            if came or len(series["prices"]) <= 8:
                ends.append((end, 100 * came, f"{value}: came" if came else value, colour))
        else:
            ends.append((end, place[1], f"{value} {percent(place[1] / 100)}", colour))
    return ends


def top_of(series):
    """Where the axis of a question's prices ends: at 100 %, or less where none of many answers comes near."""
    most = max((100 * price for points in series["prices"].values() for _, price in points), default=100)
    if series["resolved"] or len(series["prices"]) <= 3:
        return 100
    return next(top for top in (5, 10, 20, 40, 100) if most <= top)


def price_note(data):
    notes = ["A line for each answer; its price is the middle of the interval that the program prints, which is at most 0.00000002 % wide: too thin to "
             "draw.", "●  a trade of this question    ○  a trade of it under a condition    ◆  the answer that came    ×  one that did not"]
    if 0 < len(data["resolutions"]) <= FEW_RESOLUTIONS:
        notes.append("Dotted lines: a question is resolved, this one or another.")
    if any(points and points[0][0] > 0 for series in data["prices"].values() for points in series["prices"].values()):
        notes.append("A question that was added while the market ran has prices from then on.")
    if any(len(series["trades"]) > MANY_TRADES for series in data["prices"].values()):
        notes.append("Where a question has more than a thousand trades they are not marked.")
    if "sampled" in data:
        notes.append(f"Prices were asked at {data['sampled']:,} of {data['last']:,} revisions.")
    return "\n".join(notes)


def draw_prices(data):
    questions = data["prices"]
    figure, grid, columns = grid_of(len(questions), 2.35 if all(len(series["prices"]) <= 8 for series in questions.values()) else 3.2)
    lay_out(figure, f"{data['market']}: prices", price_note(data))
    for at, (axes, (name, series)) in enumerate(zip(grid, questions.items())):
        set_axes(axes, at, len(questions), columns, data["last"], "price in %")
        top = top_of(series)
        axes.set_ylim(-0.08 * top, 1.06 * top)
        axes.set_yticks([top * part / 4 for part in range(5)])
        if top < 20:
            axes.yaxis.set_major_formatter(FuncFormatter(lambda number, _: f"{number:g}"))
        axes.set_title(name)
        if len(data["resolutions"]) <= FEW_RESOLUTIONS:
            for revision, _ in data["resolutions"].values():
                axes.axvline(revision, color=LIGHT, linewidth=0.8, linestyle=":", zorder=1)
        label_ends(axes, draw_answers(axes, name, series, data["last"]))
    return figure


# Users.


def draw_user(axes, user, series, last, colour):
    end = series["paid"][0] if series["paid"] else right_end(last)
    place = stepped(axes, series["sure"], end, f"sure {user}", color=colour, linewidth=2)
    paid_in = stepped(axes, series["paid_in"], end, f"paid in {user}", color=COLOURS[4], linewidth=1.3, linestyle=DASHES[1])
    mark_trades(axes, series["sure"], series["trades"], colour, len(series["trades"]))
    ends = []
    if series["paid"]:
        axes.plot([end], [series["paid"][1]], "D", color=colour, markersize=7, zorder=5, clip_on=False)
        ends.append((end, series["paid"][1], f"paid out {series['paid'][1]:,}", colour))
    elif place:
        ends.append((*place, f"sure {place[1]:,}", colour))
    ends.append((*paid_in, f"paid in {paid_in[1]:,}", COLOURS[4]))
    return ends


def draw_users(data):
    users = data["users"]
    figure, grid, columns = grid_of(len(users), 2.2)
    lay_out(figure, f"{data['market']}: users", "Full line: the points that the user is sure of, whatever comes (`worst`).    Dashed: paid in less taken out.    "
            "●  a trade    ◆  paid at the settlement\n"
            f"As far as the full line is below the dashed one the user can still lose. {data['points_per_bit']:,} points for each bit.", gap=0.5)
    for at, (axes, (user, series)) in enumerate(zip(grid, users.items())):
        set_axes(axes, at, len(users), columns, data["last"], "points")
        axes.set_title(user)
        ends = draw_user(axes, user, series, data["last"], COLOURS[0])
        low, high = axes.get_ylim()
        axes.set_ylim(min(low, 0), max(high, 1))
        label_ends(axes, ends)
    return figure


# The operator.


def is_near(bound, high, span):
    """Whether the bound can be drawn to the scale of the losses; where there are none yet it is."""
    return span <= 1 or bound <= 6 * max(high, span)


def show_bound(axes, bound, high, span, bounds):
    """The file's bound as a line, with a step for each question that was added; or as words at the top where it is far above."""
    if is_near(bound, high, span):
        places = [bounds[0]]
        for revision, points in bounds[1:]:
            places += [[revision, places[-1][1]], [revision, points]]
        places.append([axes.get_xlim()[1], bound])
        (line,) = axes.plot([place for place, _ in places], [points for _, points in places], color="black", linewidth=1.4, linestyle=DASHES[2])
        mark_line(line, "bound")
        axes.annotate(f"the file's bound: {bounds[0][1]:,} points", (0, bounds[0][1]), (4, 4), textcoords="offset points", fontsize=9)
        for revision, points in bounds[1:]:
            axes.annotate(f"{points:,}", (revision, points), (4, 4), textcoords="offset points", fontsize=9)
    elif len(bounds) > 1:
        axes.annotate(f"↑ the bound: {bound:,} points behind what was added, {bounds[0][1]:,} of the file, far above this picture", (0.01, 0.985),
                      xycoords="axes fraction", fontsize=9, va="top")
    else:
        axes.annotate(f"↑ the file's bound: {bound:,} points, far above this picture", (0.01, 0.985), xycoords="axes fraction", fontsize=9, va="top")


def show_resolutions(axes, resolutions):
    if len(resolutions) > FEW_RESOLUTIONS:
        return
    for revision, text in resolutions:
        axes.axvline(revision, color=LIGHT, linewidth=0.8, linestyle=":", zorder=1)
        axes.annotate(text, (revision, 1), (1, 3), xycoords=("data", "axes fraction"),
                      textcoords="offset points", rotation=35, fontsize=8, color=GREY, va="bottom", ha="left",
                      rotation_mode="anchor", annotation_clip=False)


def name_lines(axes, most, least):
    """Says which line is which, where they are farthest apart."""
    at = max(range(len(most)), key=lambda place: most[place][1] - least[place][1])
    if most[at][1] - least[at][1] < 1:
        return
    for points, word, side, colour in ((most, "at most", 1, COLOURS[1]), (least, "at least", -1, COLOURS[0])):
        axes.annotate(f"{word} {whole_text(points[at][1])}", (points[at][0], points[at][1]), (3, 4 * side),
                      textcoords="offset points", fontsize=9, color=colour,
                      va="bottom" if side > 0 else "top")


def draw_operator(data):
    series, last = data["operator"], data["last"]
    most, least = series["most"], series["least"]
    figure, axes = plt.subplots(figsize=(9.4, 5.0))
    note = ("Over the states that are still possible: what the trades made so far can cost the operator at most and at least, reckoned from their "
            "ratios.\nBelow zero the operator gains. Resolutions narrow both to one number. What payments round away stays with the operator and is not "
            "in here."
            + ("" if len(series["resolutions"]) <= FEW_RESOLUTIONS else f"\nThere were {len(series['resolutions'])} resolutions, too many to mark."))
    high, low = max(point[1] for point in most), min(point[1] for point in least)
    span = max(high - low, 1)
    set_axes(axes, 0, 1, 1, last, "points lost")
    bounds = series.get("bounds", [[0, series["bound"]]])
    bound = bounds[-1][1]
    top = max(high, bound) if is_near(bound, high, span) else high + 0.3 * span
    axes.set_ylim(low - 0.1 * (top - low), top + 0.1 * (top - low))
    end = right_end(last)
    upper, lower = ([*(point[1] for point in points), points[-1][1]] for points in (most, least))
    axes.fill_between([*(point[0] for point in most), end], lower, upper, step="post", color=COLOURS[6], alpha=0.3, linewidth=0)
    stepped(axes, most, end, "most", color=COLOURS[1], linewidth=2)
    stepped(axes, least, end, "least", color=COLOURS[0], linewidth=2, linestyle=DASHES[1] if len(least) < 200 else "-")
    axes.axhline(0, color="black", linewidth=0.8)
    is_few = 0 < len(series["resolutions"]) <= FEW_RESOLUTIONS
    lay_out(figure, f"{data['market']}: what the operator can lose", note, right=1.3)
    if is_few:
        figure.subplots_adjust(top=1 - 1.25 / 5.0)
    show_bound(axes, bound, high, span, bounds)
    show_resolutions(axes, series["resolutions"])
    name_lines(axes, most, least)
    if abs(most[-1][1] - least[-1][1]) < 0.5:
        ends = [(end, most[-1][1], f"{'lost' if most[-1][1] >= 0 else 'gained'} {whole_text(abs(most[-1][1]))}", "black")]
    else:
        ends = [(end, points[-1][1], f"{word} {whole_text(points[-1][1])}", colour)
                for points, word, colour in ((most, "at most", COLOURS[1]), (least, "at least", COLOURS[0]))]
    label_ends(axes, ends)
    return figure


FIGURES = {"prices": draw_prices, "users": draw_users, "operator": draw_operator}


# The tree of cliques.


def tree_title(data):
    tree = data["tree"]
    states = f"{tree['states']:,}" if tree["states"] < 10 ** 9 else f"some 10^{len(str(tree['states'])) - 1}"
    cells = sum(clique["cells"] for clique in tree["cliques"])
    count = lambda number, what: f"{number:,} {what}" if number == 1 else f"{number:,} {what}s"
    told = f"{count(tree['questions'], 'question')}, {states} states, {cells:,} cells in {count(len(tree['cliques']), 'clique')}."
    more = " A larger dot has more cells." if len(tree["cliques"]) > MANY_CLIQUES else " Bold: a question met first here. On a line: what ends share."
    return (f'<<font point-size="16"><b>{html.escape(data["market"])}: the tree of cliques</b></font><br align="left"/>'
            f'<font point-size="10" color="{GREY}">{told}{more if len(tree["cliques"]) > 1 else ""}</font><br align="left"/> <br/>>')


def tree_text(data):
    """The words of dot: a box for each clique, with its questions and cells."""
    lines = ["graph tree {", f'graph [label={tree_title(data)}, labelloc=t, labeljust=l, fontname="DejaVu Sans", pad=0.2, ranksep=0.6, nodesep=0.4];',
             'node [shape=box, style="filled,rounded", fillcolor="#E8F1F8", color="#0072B2", penwidth=1.3, margin="0.18,0.1"];',
             'node [fontname="DejaVu Sans", fontsize=11];',
             f'edge [color="{GREY}", fontname="DejaVu Sans", fontsize=10, fontcolor="#9C4400", penwidth=1.2];']
    for number, clique in enumerate(data["tree"]["cliques"], 1):
        words = [name if name in clique["shared"] else f"<b>{name}</b>" for name in clique["questions"]]
        rows = ["  ".join(words[at:at + 3]) for at in range(0, len(words), 3)]
        told = f'<font point-size="9" color="{GREY}">group {number}, {clique["cells"]:,} cells</font>'
        lines.append(f'c{number} [label=<{"<br/>".join(rows)}<br/>{told}>];')
        if clique["linked_to"]:
            rows = [", ".join(clique["shared"][at:at + 3]) for at in range(0, len(clique["shared"]), 3)] or ["nothing in common"]
            lines.append(f'c{clique["linked_to"]} -- c{number} [label="{"".join(f"  {row} " + chr(92) + "l" for row in rows)}"];')
    return "\n".join([*lines, "}"])


def is_path(data):
    links = [clique["linked_to"] for clique in data["tree"]["cliques"]]
    return len(set(links)) == len(links)


def crowd_text(data):
    """The same for many cliques: a dot for each, with its number. Where each has at most one behind it they go to and fro in rows."""
    cliques = data["tree"]["cliques"]
    lines = ["graph tree {", f'graph [label={tree_title(data)}, labelloc=t, labeljust=l, fontname="DejaVu Sans", ranksep=0.7, root=c1, pad=0.2];',
             'node [shape=circle, style=filled, fillcolor="#E8F1F8", color="#0072B2", fontname="DejaVu Sans", fontsize=10, fixedsize=true];',
             f'edge [color="{GREY}"];']
    order = ordered_path(cliques) if is_path(data) else []
    places = {number: (at % 20 if at // 20 % 2 == 0 else 19 - at % 20, -(at // 20)) for at, number in enumerate(order)}
    for number, clique in enumerate(cliques, 1):
        place = f'pos="{50 * places[number][0]},{60 * places[number][1]}", ' if places else ""
        lines.append(f'c{number} [{place}label="{number}", tooltip="{", ".join(clique["questions"])}: {clique["cells"]} cells", '
                     f'width={min(0.6, 0.34 + 0.03 * math.log2(clique["cells"])):.2f}];')
        if clique["linked_to"]:
            lines.append(f"c{clique['linked_to']} -- c{number};")
    return "\n".join([*lines, "}"])


def ordered_path(cliques):
    """The numbers of cliques from the first one on, each behind the one that it is linked to."""
    behind = {clique["linked_to"]: number for number, clique in enumerate(cliques, 1)}
    order = [1]
    while order[-1] in behind:
        order.append(behind[order[-1]])
    return order


def save_tree(data, path, kind):
    is_many = len(data["tree"]["cliques"]) > MANY_CLIQUES
    layout = "dot" if not is_many else "neato" if is_path(data) else "twopi"
    if not shutil.which(layout):
        raise NoTool("graphviz is not installed, which lays out the tree; on Debian it is the package graphviz")
    words = [layout, f"-T{kind}", *(["-n2"] if layout == "neato" else []), *(["-Gdpi=130"] if kind == "png" else []), "-o", str(path)]
    done = subprocess.run(words, input=crowd_text(data) if is_many else tree_text(data), text=True, capture_output=True)
    if done.returncode:
        said = done.stderr.strip().splitlines() or ["it says nothing"]
        raise NoTool(f"graphviz ended with status {done.returncode}: {said[-1]}")


def save_figure(figure, path, kind, told):
    """Writes a figure; an SVG says from which numbers it was drawn."""
    metadata = {"Date": None, "Creator": "tools/plot", "Description": told} if kind == "svg" else {"Software": "tools/plot", "Description": told}
    figure.savefig(path, dpi=140, metadata=metadata)
