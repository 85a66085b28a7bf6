"""A drawing as SVG text: rectangles, lines and words by class, with colours for a light and for a dark page.

It keeps the box of each word that it draws, so that words over one another are found (`overlaps`).
"""
from xml.sax.saxutils import escape

FONT = 12
LETTER = 0.58
LIGHT = {"page": "#ffffff", "ink": "#1f2328", "faint": "#59636e", "grid": "#d1d9e0", "s0": "#0969da", "s1": "#bc4c00", "s2": "#8250df",
         "s3": "#6e7781", "s4": "#54aeff", "s5": "#1a7f37", "s6": "#bf8700", "s7": "#cf222e"}
DARK = {"page": "#0d1117", "ink": "#f0f6fc", "faint": "#9198a1", "grid": "#3d444d", "s0": "#4493f8", "s1": "#f0883e", "s2": "#ab7df8",
        "s3": "#8b949e", "s4": "#a5d6ff", "s5": "#3fb950", "s6": "#d29922", "s7": "#f85149"}


def rules(colours):
    """The colours as rules of a style: words are filled, series are filled and drawn."""
    words = "".join(f".{name}{{fill:{colours[name]}}}" for name in ("page", "ink", "faint"))
    series = "".join(f".f{at}{{fill:{colours[f's{at}']}}}.l{at}{{stroke:{colours[f's{at}']}}}" for at in range(8))
    return words + f".grid{{stroke:{colours['grid']}}}.mark{{stroke:{colours['ink']}}}" + series


class Canvas:
    def __init__(self, width, height, title):
        self.width, self.height, self.title = width, height, title
        self.parts, self.boxes = [], []

    def rectangle(self, x, y, width, height, kind):
        self.parts.append(f'<rect class="{kind}" x="{x:.1f}" y="{y:.1f}" width="{width:.1f}" height="{height:.1f}"/>')

    def line(self, points, kind, width=1.0, dashes=""):
        at = " ".join(f"{x:.1f},{y:.1f}" for x, y in points)
        dashed = f' stroke-dasharray="{dashes}"' if dashes else ""
        self.parts.append(f'<polyline class="{kind}" fill="none" stroke-width="{width}"{dashed} points="{at}"/>')

    def dot(self, x, y, kind):
        self.parts.append(f'<circle class="{kind}" cx="{x:.1f}" cy="{y:.1f}" r="3.5"/>')

    def text(self, x, y, words, anchor="start", kind="ink", size=FONT, weight="normal", upright=True):
        """Words whose line begins, has its middle, or ends at the point; not upright ones read upwards."""
        turned = "" if upright else f' transform="rotate(-90 {x:.1f} {y:.1f})"'
        style = f'font-size="{size}" font-weight="{weight}" text-anchor="{anchor}"'
        self.parts.append(f'<text class="{kind}" x="{x:.1f}" y="{y:.1f}" {style}{turned}>{escape(words)}</text>')
        long = width_of(words, size)
        back = {"start": 0, "middle": long / 2, "end": long}[anchor]
        box = (x - back, y - 0.8 * size, x - back + long, y + 0.2 * size) if upright else (x - 0.8 * size, y - long + back, x + 0.2 * size, y + back)
        self.boxes.append((words, box))

    def overlaps(self):
        """Words that stand over other words or beyond the edge."""
        for at, (words, box) in enumerate(self.boxes):
            if box[0] < 0 or box[1] < 0 or box[2] > self.width or box[3] > self.height:
                yield f"'{words}' goes beyond the edge"
            for others, other in self.boxes[:at]:
                if box[0] < other[2] and other[0] < box[2] and box[1] < other[3] and other[1] < box[3]:
                    yield f"'{words}' stands over '{others}'"

    def svg(self):
        head = f'<svg xmlns="http://www.w3.org/2000/svg" width="{self.width}" height="{self.height}" viewBox="0 0 {self.width} {self.height}" role="img">'
        style = f"<style>text{{font-family:sans-serif}}{rules(LIGHT)}@media (prefers-color-scheme:dark){{{rules(DARK)}}}</style>"
        page = f'<rect class="page" width="{self.width}" height="{self.height}"/>'
        return "\n".join([head, f"<title>{escape(self.title)}</title>", style, page, *self.parts, "</svg>"]) + "\n"


def width_of(words, size=FONT):
    """How wide the words are at most, about, in any sans-serif letter."""
    return len(words) * size * LETTER
