"""Document 02, request (m): the cabinet page, from its words alone."""
from document01 import Refused, check_placement

WIDTH, FIELDS = 26, 5


def page_lines(placement):
    """One line a record, in the rows' order, and the line of what is kept; newlines apart."""
    lines = []
    for x, (_, rows) in enumerate(placement["layers"]):
        for row in rows:
            fields = [f"{node:4}" for node in row] + [" " * 4] * (FIELDS - len(row))
            lines.append(f"{len(lines):4} {x}" + "".join(fields))
    lines.append(f"kept {placement['F']:4} of {placement['b']:4}".ljust(WIDTH))
    return lines


def page(data, output=None):
    """The page's bytes. output: the bytes lent, None for enough."""
    placement = check_placement(data)
    needed = 27 * (placement["b"] + 1)
    if output is not None and output < needed:
        raise Refused(11, needed)
    return "".join(line + "\n" for line in page_lines(placement)).encode("ascii")
