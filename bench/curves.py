"""The points that bench/memory measures, as lines of a file, and their picture as SVG.

A line is `STAGE CALLS SECONDS`, then the bytes of memory of each node program, and then those of each log. In the picture
each stage has a column, with the memory above and the logs below, and each node a line."""
from collections import namedtuple
from xml.sax.saxutils import escape

Point = namedtuple("Point", "stage calls seconds memory logs")
TITLES = {"writes": "writes to {names} names", "reads": "reads of names that do not exist", "names": "writes to new names"}
ROWS = (("memory", "memory of each node, MB", "#2b5f9e"), ("logs", "log of each node, MB", "#b0641c"))
LEFT, TOP, WIDTH, HEIGHT, GAP, BELOW = 50, 44, 300, 150, 62, 66
STYLE = ("text{font:11px sans-serif}.tick{font-size:9px;fill:#555}.grid{stroke:#e4e4e4}.frame{fill:none;stroke:#999}"
         "polyline{fill:none;stroke-width:1}")


def line_of(point):
    numbers = [*point.memory, *point.logs]
    return f"{point.stage} {point.calls} {point.seconds:.1f} {' '.join(map(str, numbers))}\n"


def read_points(lines):
    """The points of a file; lines that begin with # say how they were measured."""
    points = []
    for line in lines:
        if line.startswith("#") or not line.strip():
            continue
        stage, calls, seconds, *numbers = line.split()
        numbers = [int(number) for number in numbers]
        half = len(numbers) // 2
        points.append(Point(stage, int(calls), float(seconds), numbers[:half], numbers[half:]))
    return points


def round_up(number):
    """The least of 1, 2 and 5 times a power of ten that is not below the number, which is positive."""
    power = 10 ** (len(str(int(number))) - 1) if number >= 1 else 0.1
    return next(step * power for step in (1, 2, 5, 10) if step * power >= number)


def short(number):
    """A number of calls or of megabytes, as an axis shows it."""
    if number >= 1e6:
        return f"{number / 1e6:g} million"
    return f"{number:,.0f}" if number >= 10 or number == int(number) else f"{number:g}"


class Panel:
    """The axes of one column in one row, and the lines in them."""

    def __init__(self, x, y, most_calls, most):
        self.x, self.y, self.most_calls, self.most = x, y, most_calls, most
        self.parts = [f"<rect class='frame' x='{x}' y='{y}' width='{WIDTH}' height='{HEIGHT}'/>"]

    def place(self, calls, megabytes):
        x = self.x + WIDTH * calls / self.most_calls
        y = self.y + HEIGHT * (1 - megabytes / self.most)
        return f"{x:.1f},{y:.1f}"

    def axes(self):
        for part in (0, 0.5, 1):
            y, x = self.y + HEIGHT * (1 - part), self.x + WIDTH * part
            self.parts.append(f"<line class='grid' x1='{self.x}' y1='{y}' x2='{self.x + WIDTH}' y2='{y}'/>"
                              f"<text class='tick' text-anchor='end' x='{self.x - 4}' y='{y + 3}'>"
                              f"{short(self.most * part)}</text>"
                              f"<text class='tick' text-anchor='middle' x='{x}' y='{self.y + HEIGHT + 12}'>"
                              f"{short(self.most_calls * part)}</text>")

    def line(self, color, places):
        self.parts.append(f"<polyline stroke='{color}' points='{' '.join(self.place(*it) for it in places)}'/>")


def panel_of(points, column, row):
    """The panel of a stage's points in a row."""
    what, _, color = ROWS[row]
    most = round_up(max(max(getattr(point, what)) for point in points) / 1e6)
    panel = Panel(LEFT + column * (WIDTH + GAP), TOP + 14 + row * (HEIGHT + BELOW), points[-1].calls, most)
    panel.axes()
    for node in range(len(points[0].memory)):
        panel.line(color, [(point.calls, getattr(point, what)[node] / 1e6) for point in points])
    return panel


def picture(points, names):
    """The picture of all stages, one beside another in their order."""
    stages = list(dict.fromkeys(point.stage for point in points))
    parts = []
    for column, stage in enumerate(stages):
        own = [point for point in points if point.stage == stage]
        x = LEFT + column * (WIDTH + GAP)
        title = TITLES[stage].format(names=names)
        parts.append(f"<text x='{x}' y='{TOP - 18}' font-weight='bold'>{escape(title)}</text>")
        for row, (_, label, _) in enumerate(ROWS):
            parts.append(f"<text x='{x}' y='{TOP + 8 + row * (HEIGHT + BELOW)}'>{label}</text>")
            parts += panel_of(own, column, row).parts
    width, height = LEFT + len(stages) * (WIDTH + GAP), TOP + 2 * (HEIGHT + BELOW)
    return (f"<svg xmlns='http://www.w3.org/2000/svg' viewBox='0 0 {width} {height}' width='{width}' height='{height}'>"
            f"<style>{STYLE}</style>\n<rect width='{width}' height='{height}' fill='#fff'/>\n" + "\n".join(parts) + "\n</svg>\n")
