"""A map of blocks or sectors as text."""


def chart_lines(marks):
    """`chart N`, and rows of at most 64 characters for N marks each: the worst of them, of at most 1,024 characters in all."""
    width = max(-(-len(marks) // 1024), 1)
    cells = "".join(next(mark for mark in "x?." if mark in marks[first:first + width]) for first in range(0, len(marks), width))
    return ["chart %d" % width, *[cells[first:first + 64] for first in range(0, len(cells), 64)]]
