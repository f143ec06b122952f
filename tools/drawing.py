"""Drawing for tools/pictures: a picture is SVG text, a panel a part of it with a scale each way. Places have at most one decimal, so
that a picture is the same bytes wherever it is made."""
from xml.sax.saxutils import escape

PAPER, INK, SOFT, GRID = "#fcfcfa", "#22262b", "#6a7078", "#dfe2e5"
BLUE, ORANGE, GREEN, RED = "#0b62a8", "#c4560c", "#1b7f5c", "#b3261e"


def number(value):
    """At most one decimal, none where it is 0."""
    return f"{value:.1f}".removesuffix(".0")


def shade(colour, part):
    """A part of the colour on the paper: solid, so that nothing shows through."""
    mixed = (round(int(PAPER[at:at + 2], 16) * (1 - part) + int(colour[at:at + 2], 16) * part) for at in (1, 3, 5))
    return "#" + "".join(f"{value:02x}" for value in mixed)


def attributes(given):
    named = {name.replace("_", "-"): value for name, value in given.items() if value is not None}
    return "".join(f' {name}="{number(value) if isinstance(value, (int, float)) else escape(value)}"' for name, value in named.items())


class Picture:
    """A sheet with a background of its own, so that it reads on light and dark pages."""

    def __init__(self, width, height, title, subtitle):
        self.width, self.height, self.title, self.subtitle = width, height, title, subtitle
        self.parts = []
        self.text(24, 32, title, size=17, font_weight="bold")
        self.text(24, 52, subtitle, fill=SOFT)

    def put(self, tag, **given):
        self.parts.append(f"<{tag}{attributes(given)}/>")

    def text(self, x, y, words, size=12, fill=INK, **given):
        self.parts.append(f"<text{attributes(dict(x=x, y=y, font_size=size, fill=fill, **given))}>{escape(words)}</text>")

    def line(self, x1, y1, x2, y2, stroke=GRID, **given):
        self.put("path", d=f"M{number(x1)} {number(y1)}L{number(x2)} {number(y2)}", stroke=stroke, **given)

    def box(self, x, y, width, height, **given):
        self.put("rect", x=x, y=y, width=width, height=height, **given)

    def svg(self):
        head = (f'<svg xmlns="http://www.w3.org/2000/svg" viewBox="0 0 {self.width} {self.height}" width="{self.width}" '
                f'height="{self.height}" role="img" font-family="Helvetica, Arial, sans-serif">')
        about = f"<title>{escape(self.title)}</title><desc>{escape(self.subtitle)}</desc>"
        back = f'<rect width="{self.width}" height="{self.height}" rx="8" fill="{PAPER}"/>'
        return "\n".join([head, about, back, *self.parts, "</svg>", ""])


class Panel:
    """A part of a picture in which values have places: `xs` and `ys` are the least and the greatest value each way."""

    def __init__(self, picture, left, top, width, height, xs, ys):
        self.picture, self.left, self.top, self.width, self.height = picture, left, top, width, height
        self.xs, self.ys = xs, ys
        self.right, self.bottom = left + width, top + height

    def x(self, value):
        return self.left + (value - self.xs[0]) * self.width / (self.xs[1] - self.xs[0])

    def y(self, value):
        return self.bottom - (value - self.ys[0]) * self.height / (self.ys[1] - self.ys[0])

    def axes(self, xticks, yticks, title=None, xlabel=None, ylabel=None, xwords=True):
        """The grid with its numbers. `xwords` is off where the panel below has the same numbers."""
        sheet = self.picture
        for value in yticks:
            sheet.line(self.left, self.y(value), self.right, self.y(value))
            sheet.text(self.left - 7, self.y(value) + 4, signed(value), size=11, fill=SOFT, text_anchor="end")
        for value in xticks:
            sheet.line(self.x(value), self.bottom, self.x(value), self.bottom + 4, stroke=SOFT)
            if xwords:
                sheet.text(self.x(value), self.bottom + 17, signed(value), size=11, fill=SOFT, text_anchor="middle")
        sheet.line(self.left, self.bottom, self.right, self.bottom, stroke=SOFT)
        if title:
            sheet.text(self.left, self.top - 9, title, size=13, font_weight="bold")
        if xlabel:
            sheet.text(self.left + self.width / 2, self.bottom + 34, xlabel, fill=SOFT, text_anchor="middle")
        if ylabel:
            self.upright(self.left - 40, ylabel)

    def upright(self, x, words):
        middle = self.top + self.height / 2
        self.picture.text(x, middle, words, fill=SOFT, text_anchor="middle", transform=f"rotate(-90 {number(x)} {number(middle)})")

    def mark(self, value, **given):
        """An upright line at a value."""
        self.picture.line(self.x(value), self.top, self.x(value), self.bottom, **{"stroke": SOFT, "stroke_dasharray": "3 4", **given})

    def places(self, points):
        return [f"{number(self.x(x))} {number(self.y(y))}" for x, y in points]

    def curve(self, points, stroke=BLUE, width=1.5, **given):
        self.picture.put("path", d="M" + "L".join(self.places(points)), fill="none", stroke=stroke, stroke_width=width,
                         stroke_linejoin="round", **given)

    def steps(self, points, stroke=BLUE, width=1.5, **given):
        """Each value held until the next one."""
        data, last = "M" + self.places(points[:1])[0], points[0][1]
        for x, y in points[1:]:
            if y != last:
                data += f"H{number(self.x(x))}V{number(self.y(y))}"
            last = y
        data += f"H{number(self.x(points[-1][0]))}"
        self.picture.put("path", d=data, fill="none", stroke=stroke, stroke_width=width, **given)

    def dots(self, points, stroke=BLUE, size=4):
        """Strokes of no length with round ends: the shortest way to write many dots."""
        self.picture.put("path", d="".join(f"M{place}h0" for place in self.places(points)), fill="none", stroke=stroke,
                         stroke_width=size, stroke_linecap="round")


def signed(value):
    """A number as printed: a minus sign, and a comma before the thousands."""
    return f"{value:,}".replace("-", "−")
