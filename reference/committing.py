"""Document 02, request (i): see the plan, then commit it, from its words alone."""
from document01 import Refused, check_pack, least_copies, plan, split_placement


def five(values):
    """An array of five, one for each layer there may be."""
    return [*values, *[0] * (5 - len(values))]


def ask(data, s, k, b, work=None):
    """The figure, the counts and the copies of what planning would write: no output, so no 11."""
    _, figure, counts = plan(data, s, k, b, work)
    layers = check_pack(data)["layers"]
    return figure, five(counts), five([least_copies(c, len(layers[x][1])) for x, c in enumerate(counts)])


def is_split(layers, s, b, counts):
    """Five counts that sum to b and put records only in layers below s that have blocks."""
    return sum(counts) == b and all(x < s and layers[x][1] for x, c in enumerate(counts) if c)


def commit(data, s, k, b, counts, output=None):
    """The placement of the split with these five counts: its bytes, its figure and the counts."""
    plan(data, s, k, b)  # what planning refuses whose slices are long enough: the pack, 12, 9
    pack = check_pack(data)
    if not is_split(pack["layers"], s, b, counts):
        raise Refused(16, 0)
    plan(data, s, k, b, None, output)  # 11
    return split_placement(pack, s, k, b, counts[:s])
