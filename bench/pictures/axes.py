"""What every picture has: its heading, a legend, and axes with titles, from 0, by straight scales."""
from .canvas import width_of

TICK = 11


class Frame:
    """A field of the canvas with a straight scale in each direction; y goes up."""

    def __init__(self, canvas, left, top, right, bottom, most_x, most_y):
        self.canvas, self.left, self.top, self.right, self.bottom = canvas, left, top, right, bottom
        self.most_x, self.most_y = most_x, most_y

    def x(self, value):
        return self.left + (self.right - self.left) * value / self.most_x

    def y(self, value):
        return self.bottom - (self.bottom - self.top) * value / self.most_y

    def y_axis(self, ticks, title, shown="{:,}"):
        for tick in ticks:
            self.canvas.line([(self.left, self.y(tick)), (self.right, self.y(tick))], "grid")
            self.canvas.text(self.left - 8, self.y(tick) + 4, shown.format(tick), "end", "faint", TICK)
        self.canvas.text(self.left - 56, (self.top + self.bottom) / 2, title, "middle", "ink", 12, upright=False)

    def x_axis(self, ticks, title, shown="{:,}", grid=True):
        for tick in ticks:
            if grid:
                self.canvas.line([(self.x(tick), self.top), (self.x(tick), self.bottom)], "grid")
            self.canvas.text(self.x(tick), self.bottom + 18, shown.format(tick), "middle", "faint", TICK)
        self.x_title(title)

    def x_title(self, title):
        self.canvas.text((self.left + self.right) / 2, self.bottom + 38, title, "middle")


def heading(canvas, title, note):
    """The title, and under it what was measured, in lines."""
    canvas.text(20, 28, title, size=15, weight="bold")
    for at, line in enumerate(note):
        canvas.text(20, 48 + 16 * at, line, kind="faint", size=11)


def legend(canvas, y, entries):
    """A row of (series, words), broken into further rows where the canvas ends; answers the height of the next row."""
    x = 20
    for series, words in entries:
        if x + 18 + width_of(words) > canvas.width - 20:
            x, y = 20, y + 18
        canvas.rectangle(x, y - 9, 12, 10, f"f{series}")
        canvas.text(x + 18, y, words)
        x += 18 + width_of(words) + 14
    return y + 18
