"""Document 02, request (l): replaying an outage log, from its words alone. An event is its time, its node and whether it goes
down; in kind 6 (request (n)) a feeder stands for the node."""
from document01 import Refused, check_placement, unit_rows, usable


def check_log(n, log):
    """Refuses with 19 or 20 at the first bad event."""
    down, last = set(), 0
    for index, (time, node, goes_down) in enumerate(log):
        if index and time < last:
            raise Refused(19, index)
        if node >= n or (node in down) == goes_down:
            raise Refused(20, index)
        last = time
        down ^= {node}


def replay(data, log):
    """The lowest number of usable records and the first event after which it stood; for an empty log b alone."""
    p = check_placement(data)
    check_log(p["units"], log)
    rows = unit_rows(p)
    down, counts = set(), []
    for _, node, _ in log:
        down ^= {node}
        counts.append(usable(rows, p["s"], down))
    if not counts:
        return [p["b"]]
    return [min(counts), counts.index(min(counts))]
