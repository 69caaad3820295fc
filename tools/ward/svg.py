"""Drawings as SVG: shapes, text, and the axis of a row of numbers. A shape has a class, which the style of the page colours, and what it stands for as
data-.. and, for whoever points at it, as its title."""

from xml.sax.saxutils import escape, quoteattr

STYLE = """
text { font-family: "DejaVu Sans", Verdana, Arial, sans-serif; font-size: 19px; fill: #1a1a1a; }
.title { font-size: 24px; font-weight: bold; }
.small { font-size: 16px; fill: #333333; }
.axis { font-size: 16px; }
.grid { stroke: #dddddd; stroke-width: 1; }
.rule { stroke: #888888; stroke-width: 1; }
.stripe { fill: #f6f6f6; }
.arrival { fill: #1a1a1a; }
.bound { fill: #bfe3f5; }
.waiting { stroke: #1a1a1a; stroke-width: 2; stroke-dasharray: 2 4; }
.eligible { stroke: #00664d; stroke-width: 3; }
.deadline { stroke: #0072b2; stroke-width: 2; stroke-dasharray: 4 3; }
.service { fill: #0072b2; }
.silence { fill: #999999; }
.departure { fill: #e69f00; stroke: #1a1a1a; stroke-width: 1; }
.refusal { stroke: #d55e00; stroke-width: 3; fill: none; }
.late { fill: #d55e00; stroke: #1a1a1a; stroke-width: 1; }
.delay { fill: #0072b2; fill-opacity: 0.75; }
.bar1 { fill: #0072b2; } .bar2 { fill: #e69f00; } .bar3 { fill: #009e73; }
"""
# How wide a letter is beside its height, a little more than most are.
LETTER = 0.62


class Drawing:
    """A drawing of some width and height, in its own units; a browser makes it as large as its page."""

    def __init__(self, width, title):
        self.width, self.height, self.title, self.parts = width, 0, title, []

    def shape(self, kind, cls, hint="", data=(), **numbers):
        """Any shape: its numbers are written with one digit behind the point."""
        given = "".join(f" {name.replace('_', '-')}={quoteattr(f'{value:.1f}' if isinstance(value, float) else str(value))}" for name, value in numbers.items())
        given += "".join(f" data-{name}={quoteattr(str(value))}" for name, value in dict(data).items())
        inside = f"<title>{escape(hint)}</title>" if hint else ""
        self.parts.append(f"<{kind} class={quoteattr(cls)}{given}>{inside}</{kind}>")

    def rect(self, cls, x, y, width, height, hint="", data=()):
        self.shape("rect", cls, hint, data, x=float(x), y=float(y), width=float(width), height=float(height))

    def line(self, cls, x, y, to_x, to_y, hint="", data=()):
        self.shape("line", cls, hint, data, x1=float(x), y1=float(y), x2=float(to_x), y2=float(to_y))

    def circle(self, cls, x, y, radius, hint="", data=()):
        self.shape("circle", cls, hint, data, cx=float(x), cy=float(y), r=float(radius))

    def triangle(self, cls, x, y, side, hint="", data=()):
        """A triangle that points down at a place."""
        self.shape("path", cls, hint, data, d=f"M {x:.1f} {y:.1f} l {-side / 2:.1f} {-side:.1f} h {side:.1f} z")

    def cross(self, cls, x, y, side, hint="", data=()):
        half = side / 2
        self.shape("path", cls, hint, data, d=f"M {x - half:.1f} {y - half:.1f} l {side:.1f} {side:.1f} m 0 {-side:.1f} l {-side:.1f} {side:.1f}")

    def text(self, cls, x, y, words, anchor="start", data=()):
        given = "".join(f" data-{name}={quoteattr(str(value))}" for name, value in dict(data).items())
        self.parts.append(f'<text class="{cls}" x="{x:.1f}" y="{y:.1f}" text-anchor="{anchor}"{given}>{escape(words)}</text>')

    def written(self):
        room = f'viewBox="0 0 {self.width} {self.height:.0f}" style="width: 100%; height: auto"'
        head = f'<svg xmlns="http://www.w3.org/2000/svg" {room} role="img" aria-label={quoteattr(self.title)}>'
        paper = f'<rect x="0" y="0" width="{self.width}" height="{self.height:.0f}" fill="white"></rect>'
        return "\n".join([head, f"<title>{escape(self.title)}</title>", f"<style>{STYLE}</style>", paper, *self.parts, "</svg>", ""])


class Scale:
    """Numbers from one to another, laid out from a place to another."""

    def __init__(self, low, high, left, right):
        self.low, self.high, self.left, self.right = low, max(high, low + 1), left, right

    def __call__(self, number):
        return self.left + (number - self.low) * (self.right - self.left) / (self.high - self.low)

    def within(self, low, high):
        """Both ends of a stretch, as far as it lies within, laid out."""
        return self(max(low, self.low)), self(min(high, self.high))

    def steps(self, apart):
        """Round numbers, at least so far apart when they are laid out."""
        step, fits = 1, apart * (self.high - self.low) / (self.right - self.left)
        while step < fits:
            step = step * 5 // 2 if str(step)[0] == "2" else step * 2
        return range(-(-self.low // step) * step, self.high + 1, step)


def room_of(words, size):
    """How wide some words are, or a little less."""
    return len(words) * size * LETTER


def fitted(words, size, room):
    """Words that fit into some room, cut where they don't."""
    most = int(room / (size * LETTER))
    return words if len(words) <= most else words[:most - 1] + "…"
