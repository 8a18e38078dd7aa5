"""Draws a timeline as text: a column for each lane, time downwards, and the order of dones on the right."""
import textwrap

MARKS = {"take": "┌ ", "operation": "├● ", "done": "└ ", "call": "■ ", "writer": "● "}
OPEN, IDLE = "│", ""
GOES_ON = ("take", "operation")
DONE_HEAD = "done, in order"
LEAST = 24


def folded(text, most):
    """A text as lines of at most so many letters."""
    return textwrap.wrap(text, most, break_on_hyphens=False) or [""]


def widths_of(timeline):
    """How wide each column is: as its longest line."""
    widths = [0] * timeline.lanes.columns
    for step in timeline.steps:
        if step.kind in MARKS:
            longest = max(map(len, folded(step.text, timeline.most)))
            widths[step.column] = max(widths[step.column], len(MARKS[step.kind]) + longest)
    return [max(width, LEAST) for width in widths]


def line_of(cells, widths, right=""):
    """One line, of a cell for each column, and what stands on the right."""
    padded = (cell.ljust(width) for cell, width in zip(cells, widths))
    return ("  ".join((*padded, right))).rstrip()


def lines_of(timeline):
    """The lines of the drawing."""
    widths = widths_of(timeline)
    total = sum(widths) + 2 * len(widths)
    yield " " * total + DONE_HEAD
    cells = [IDLE] * len(widths)
    for step in timeline.steps:
        if step.kind == "phase":
            heads = timeline.lanes.head(step.order)
            yield f"── {step.text} ".ljust(total + len(DONE_HEAD), "─")
            yield from [line_of(heads, widths)] if any(heads) else []
        elif step.kind == "tick":
            yield line_of(cells, widths, f"~ {step.text}")
        else:
            right = f"{step.order}: {timeline.short(step.call)}" if step.call and step.order else ""
            mark, after = MARKS[step.kind], OPEN if step.kind in GOES_ON else IDLE
            for line in folded(step.text, timeline.most):
                yield line_of([*cells[:step.column], mark + line, *cells[step.column + 1:]], widths, right)
                mark, right = after.ljust(len(MARKS[step.kind])), ""
            cells[step.column] = after
