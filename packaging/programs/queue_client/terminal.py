"""Output of the programs: tables, and what happens if output fails."""
import os
import sys


def table(rows):
    """Returns the rows as lines with aligned columns: the first column to the left, the others to the right."""
    widths = [max(map(len, column)) for column in zip(*rows)]
    return ["  ".join([row[0].ljust(widths[0]), *map(str.rjust, row[1:], widths[1:])]) for row in rows]


def put_output_aside():
    """Redirects standard output to nowhere after a failed write, so that it is not tried again."""
    os.dup2(os.open(os.devnull, os.O_WRONLY), sys.stdout.fileno())
