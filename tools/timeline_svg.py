"""Draws a timeline as an SVG picture: bars for calls, marks for operations, and the order of dones on the right."""
from xml.sax.saxutils import escape

from timeline_text import folded

ROW, LINE, LETTER, MARGIN, GAP = 24, 16, 7.25, 78, 18
LEAST_LETTERS = 22
STYLE = """
  text { font-family: 'DejaVu Sans Mono', Menlo, Consolas, monospace; font-size: 12px; fill: #222222 }
  .head { fill: #666666 } .phase { font-weight: bold } .number { text-anchor: middle; fill: white; font-weight: bold }
  .told { font-weight: bold } .refused { font-weight: bold; fill: #a02020 }
  .bar { fill: #e6eff9; stroke: #4a78b0 } .bad { fill: #fbe9e7; stroke: #b5483f }
  .beside { fill: #fdf3df; stroke: #b98a2b }
  .mark { fill: #4a78b0 } .way { stroke: #bbbbbb; stroke-dasharray: 2 3 } .border { stroke: #999999 }
  .pass { stroke: #7a7a7a; stroke-dasharray: 6 4 } .order { fill: #555555 }
"""


class Page:
    """The places of columns and rows, and what was drawn so far, below and above."""

    def __init__(self, timeline):
        self.timeline = timeline
        letters = [LEAST_LETTERS] * timeline.lanes.columns
        for step in timeline.steps:
            if step.kind not in ("phase", "tick"):
                letters[step.column] = max(letters[step.column], min(timeline.most, len(step.text)) + 3)
        self.lefts, self.widths = [], [count * LETTER + 2 * 8 for count in letters]
        left = MARGIN
        for width in self.widths:
            self.lefts.append(left)
            left += width + GAP
        self.right = left + 12
        names = [len(timeline.short(step.call)) for step in timeline.steps if step.call and step.order]
        self.width = self.right + 30 + max(names, default=0) * LETTER
        self.below, self.above = [], []

    def text(self, x, y, text, kind=""):
        """Text at a place; what is too long goes on below."""
        for number, line in enumerate(folded(text, self.timeline.most)):
            self.above.append(f'<text class="{kind}" x="{x:g}" y="{y + number * LINE:g}">{escape(line)}</text>')

    def height(self, step):
        """The height of a step's row."""
        return ROW + LINE * (len(folded(step.text, self.timeline.most)) - 1)

    def line(self, x, y, end, kind):
        """A line from left to right, below all else."""
        self.below.append(f'<line class="{kind}" x1="{x:g}" y1="{y:g}" x2="{end:g}" y2="{y:g}"/>')

    def bar(self, column, top, bottom, kind):
        """The bar of a call, or the field of another writer's operation."""
        x, width = self.lefts[column], self.widths[column]
        place = f'x="{x:g}" y="{top + 2:g}" width="{width:g}" height="{bottom - top - 4:g}"'
        self.below.append(f'<rect class="{kind}" rx="6" {place}/>')

    def order(self, step, y):
        """The number of a done on the right, with a way to it from its bar."""
        self.line(self.lefts[step.column] + self.widths[step.column], y, self.right - 10, "way")
        self.above.append(f'<circle class="order" cx="{self.right:g}" cy="{y:g}" r="10"/>')
        self.text(self.right, y + 4, str(step.order), "number")
        self.text(self.right + 18, y + 4, self.timeline.short(step.call))

    def heads(self, phase, y):
        """What stands above the columns in a phase."""
        for left, head in zip(self.lefts, self.timeline.lanes.head(phase)):
            if head:
                self.text(left, y, head, "head")

    def step(self, step, y, tops):
        """One step in its row, which begins at y; `tops` has where the open bars of the columns begin."""
        x, base = self.lefts[step.column] + 8, y + 16
        if step.kind == "phase":
            self.line(8, y + 4, self.width - 8, "border")
            self.text(8, base + 4, step.text, "phase")
            self.heads(step.order, base + 4)
        elif step.kind == "tick":
            self.line(MARGIN + (len(step.text) + 2) * LETTER, y + 12, self.right - 10, "pass")
            self.text(MARGIN, base, step.text, "told")
        elif step.kind == "take":
            tops[step.column] = y
            self.text(x, base, step.text)
        elif step.kind == "operation":
            self.above.append(f'<circle class="mark" cx="{x + 8:g}" cy="{y + 12:g}" r="4"/>')
            self.text(x + 3 * LETTER, base, step.text)
        elif step.kind == "writer":
            self.bar(step.column, y, y + self.height(step), "beside")
            self.text(x, base, step.text)
        else:
            self.bar(step.column, tops.pop(step.column, y), y + self.height(step), "bad" if step.refused else "bar")
            self.text(x, base, step.text, "refused" if step.refused else "told" if step.kind == "done" else "")
            self.order(step, y + 12)


def picture(timeline):
    """The lines of the picture."""
    page, tops, y = Page(timeline), {}, 34
    page.text(8, 20, "time \u2193", "head")
    page.text(page.right - 10, 20, "done, in order", "head")
    page.width = max(page.width, page.right + 100)
    for step in timeline.steps:
        page.step(step, y, tops)
        y += page.height(step)
    size = f'width="{page.width:g}" height="{y + 10}" viewBox="0 0 {page.width:g} {y + 10}"'
    yield f'<svg xmlns="http://www.w3.org/2000/svg" {size}>'
    yield f"<style>{STYLE}</style>"
    yield f'<rect fill="white" x="0" y="0" width="{page.width:g}" height="{y + 10}"/>'
    yield from page.below
    yield from page.above
    yield "</svg>"
