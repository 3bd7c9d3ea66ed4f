"""Seven cabinets: document 01's pack and placement, in the kinds of document 02, the same with two cabinets out of service, and
on feeders.
"""

ROWS = bytes(int(d) for row in "012 345 012 034 056 135 146 236 245".split() for d in row)
P = bytes([1, 7, 3, 1, 2, 1, 7, 1, 0]) + ROWS
P_LISTED = bytes([4, 7, 3, 0]) + P[3:]

# document 01's order s 2, k 3, b 9, as each kind of placement; the planner writes kind 5 (document 02 (h))
NINES = {kind: bytes([kind, 7, 3]) + bytes([0] if kind == 5 else []) + bytes([2, 3, 9, 5, 1, 2, 1, 7]) + ROWS for kind in (5, 3, 2)}
NINE = NINES[5]

# seven records on P's layer 1 with s 3 and k 4, whose figure depends on the rule (document 02 (d))
SEVEN = {kind: bytes([kind, 7, 3]) + bytes([0] if kind == 5 else []) + bytes([3, 4, 7, figure, 0, 0, 1, 7, 0, 0]) + ROWS[6:]
         for kind, figure in ((5, 6), (3, 6), (2, 5))}

# the same rows on nine nodes, of which 3 and 8 are out of service
DARK = (3, 8)
DARK_ROWS = bytes((0, 1, 2, 4, 5, 6, 7)[node] for node in ROWS)
DARK_P = bytes([4, 9, 3, 2, *DARK, 1, 2, 1, 7, 1, 0]) + DARK_ROWS
DARK_NINE = bytes([5, 9, 3, 2, *DARK, 2, 3, 9, 5, 1, 2, 1, 7]) + DARK_ROWS

# eleven nodes on eight feeders, in no order, the last feeder without a node; node 7 is out of service. The rows' feeders are those of
# ROWS, and a feeder's nodes take turns.
FEEDERS = (4, 0, 6, 2, 0, 5, 3, 1, 2, 3, 1)
FED_ROWS = bytes([1, 3, 10, 0, 5, 6, 4, 8, 10, 0, 1, 9, 2, 4, 5, 5, 6, 10, 0, 2, 10, 2, 3, 9, 0, 5, 8])
FED_NINE = bytes([6, 11, 3, 1, 7, 2, 3, 9, 5, 1, 2, 1, 7]) + FED_ROWS + bytes([8, *FEEDERS])
