"""Document 02, request (g): two operators who share 4,096 records, from its words alone."""
from document01 import Refused, plan

SHARED = 4_096


def grant(w, v):
    """What an operator gets who wants w while the other wants v."""
    return min(w, max(2_048, SHARED - v))


def plan_operator(data, s, k, wish, other, work=None, output=None):
    """The operator's placement, its figure and its counts, as `plan` gives them for the grant."""
    if not 1 <= wish <= SHARED or not 1 <= other <= SHARED:
        raise Refused(14, 0)
    return plan(data, s, k, grant(wish, other), work, output)
