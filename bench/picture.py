"""Pictures as SVG: lines over numbers, bars over names, and rows over time. Nothing but the standard library."""

from xml.sax.saxutils import escape

COLOURS = ("#1f6fb4", "#d9731a", "#2e8b57", "#8a4fbf", "#b03a48", "#555555")


class Picture:
    """A picture of so many pixels, to which shapes are added."""

    def __init__(self, width, height, title):
        self.width, self.height, self.shapes = width, height, []
        self.text(width / 2, 20, title, size=15, anchor="middle")

    def line(self, x, y, to_x, to_y, colour="#999999", width=1.0):
        self.shapes.append(f'<line x1="{x:.1f}" y1="{y:.1f}" x2="{to_x:.1f}" y2="{to_y:.1f}" stroke="{colour}" stroke-width="{width}"/>')

    def box(self, x, y, width, height, colour, said=""):
        inside = f"<title>{escape(said)}</title>" if said else ""
        self.shapes.append(f'<rect x="{x:.2f}" y="{y:.1f}" width="{max(width, 0.3):.2f}" height="{height:.1f}" fill="{colour}">{inside}</rect>')

    def path(self, points, colour):
        self.shapes.append(f'<polyline fill="none" stroke="{colour}" stroke-width="2" points="{" ".join(f"{x:.1f},{y:.1f}" for x, y in points)}"/>')
        for x, y in points:
            self.shapes.append(f'<circle cx="{x:.1f}" cy="{y:.1f}" r="3" fill="{colour}"/>')

    def text(self, x, y, said, size=11, anchor="start", colour="#222222"):
        self.shapes.append(f'<text x="{x:.1f}" y="{y:.1f}" font-size="{size}" text-anchor="{anchor}" fill="{colour}">{escape(said)}</text>')

    def write(self, path):
        head = f'<svg xmlns="http://www.w3.org/2000/svg" viewBox="0 0 {self.width} {self.height}" font-family="sans-serif">'
        with open(path, "w", encoding="utf-8") as file:
            file.write("\n".join([head, f'<rect width="{self.width}" height="{self.height}" fill="white"/>', *self.shapes, "</svg>\n"]))


def steps_to(most):
    """Returns marks from 0 on for an axis: at most seven, at 1, 2 or 5 times a power of ten."""
    size = 10.0 ** -3
    while True:
        for times in (1, 2, 5):
            if most / (size * times) <= 6:
                step = size * times
                return [step * it for it in range(int(most / step + 0.999) + 1)]
        size *= 10


def number(n):
    return f"{n:g}" if n < 10000 else f"{n:,.0f}"


class Axes:
    """A frame in a picture whose axes begin at 0."""

    def __init__(self, picture, most_x, most_y, name_x, name_y, marks_x=None):
        self.picture, self.left, self.right, self.top, self.bottom = picture, 70, picture.width - 150, 40, picture.height - 50
        marks_y = steps_to(most_y)
        marks_x = steps_to(most_x) if marks_x is None else marks_x
        self.most_x, self.most_y = max([most_x, *marks_x]), marks_y[-1]
        for mark in marks_y:
            y = self.y(mark)
            picture.line(self.left, y, self.right, y, "#dddddd")
            picture.text(self.left - 6, y + 4, number(mark), anchor="end")
        for mark in marks_x:
            picture.text(self.x(mark), self.bottom + 16, number(mark), anchor="middle")
        picture.line(self.left, self.bottom, self.right, self.bottom)
        picture.text((self.left + self.right) / 2, self.bottom + 36, name_x, anchor="middle")
        picture.text(10, self.top - 8, name_y)

    def x(self, value):
        return self.left + (self.right - self.left) * value / self.most_x

    def y(self, value):
        return self.bottom - (self.bottom - self.top) * value / self.most_y


def apart(heights, least):
    """Returns heights moved down where two would be less than so far apart."""
    moved, last = list(heights), None
    for at in sorted(range(len(heights)), key=lambda it: heights[it]):
        if last is not None:
            moved[at] = max(moved[at], last + least)
        last = moved[at]
    return moved


def lines(path, title, name_x, name_y, series, marks_x=None):
    """Draws lines: each of the series is a name and its points."""
    picture = Picture(720, 400, title)
    points = [it for _, found in series for it in found]
    axes = Axes(picture, max(x for x, _ in points), max(y for _, y in points), name_x, name_y, marks_x)
    beside = apart([axes.y(found[-1][1]) + 4 for _, found in series], 15)
    for at, (name, found) in enumerate(series):
        colour = COLOURS[at % len(COLOURS)]
        picture.path([(axes.x(x), axes.y(y)) for x, y in found], colour)
        picture.text(axes.right + 8, beside[at], name, colour=colour)
    picture.write(path)


def bars(path, title, name_y, names, series):
    """Draws bars side by side: each of the series is a name and a number for each of the names, or none."""
    picture = Picture(720, 400, title)
    axes = Axes(picture, len(names), max(it for _, found in series for it in found if it is not None), "", name_y, marks_x=[])
    each = (axes.right - axes.left) / len(names)
    wide = each * 0.7 / len(series)
    for place, name in enumerate(names):
        left = axes.left + each * (place + 0.15)
        picture.text(left + each * 0.35, axes.bottom + 16, name, anchor="middle")
        for at, (said, found) in enumerate(series):
            if found[place] is not None:
                picture.box(left + wide * at, axes.y(found[place]), wide * 0.95, axes.bottom - axes.y(found[place]), COLOURS[at % len(COLOURS)], f"{said}: {found[place]:.2f}")
                picture.text(left + wide * (at + 0.47), axes.y(found[place]) - 4, f"{found[place]:.2f}", anchor="middle", size=min(10, int(wide / 2.4)))
    for at, (said, _) in enumerate(series):
        picture.box(axes.right + 10, axes.top + 20 * at, 12, 12, COLOURS[at % len(COLOURS)])
        picture.text(axes.right + 28, axes.top + 20 * at + 10, said)
    picture.write(path)
