"""One vector of each call: its input, numbers and lent slices, and what the reference says that it answers and leaves."""
import chunks
import document01 as reference
from cabinet_page import page
from certify import certify
from committing import ask, commit
from document01 import ROOM
from operators import grant, plan_operator
from reading import Refused
from replay import replay
from rounds import rounds
from script import answer
from worst import worst_case

# What the calls behind the programs ask for: room for any line, and what the largest order needs.
LINE_ROOM, WORK_MOST, OUTPUT_MOST = 200, 5 * 4_097, ROOM + 4_096 * 5


def room_for(b, r):
    """The bytes that planning and committing ask of an output."""
    return ROOM + b * r


# --- one call each

def layer_numbers(layers):
    return [v for bound, rows in layers for v in (bound, len(rows))]


def pack_values(pack):
    return [0, pack["n"], pack["r"], 0, 0, 0, 0, pack["at"]] + layer_numbers(pack["layers"])


def placement_values(placement):
    return [placement[name] for name in ("kind", "n", "r", "s", "k", "b", "F", "at")] + layer_numbers(placement["layers"])


def call_check_pack(script):
    """Where nodes are out of service, or a row names one, the answer's list is compared too, as a count and so many bytes; it is
    empty beside a refusal."""
    try:
        file = reference.check_pack(script.input)
        given, dark = [0, *pack_values(file)], file["dark"]
    except Refused as e:
        given, dark = [e.number, e.place], []
    if dark or given[0] == 15:
        script.call("check_pack", [], given, room=len(dark) + 3, written=bytes([len(dark), *dark]))
    else:
        script.call("check_pack", [], given)


def call_check_placement(script):
    """The list as of a pack; after it g and the nodes' feeders, with two entries past them, which are 0 as all are without feeders
    or beside a refusal."""
    try:
        file = reference.check_placement(script.input)
        given, dark, feeders = [0, *placement_values(file)], file["dark"], file["feeders"]
    except Refused as e:
        given, dark, feeders = [e.number, e.place], [], None
    if dark or feeders or given[0] in (15, 21):
        fed = [file["units"], *feeders] if feeders else [0]
        written = bytes([len(dark), *dark, *(fed + [0, 0])[:256]])
        script.call("check_placement", [], given, room=len(written), written=written)
    else:
        script.call("check_placement", [], given)


def call_read(script, at):
    script.call("read_number", [at], answer(reference.read_number, script.input, at))


def call_read_within(script, at, lo, hi):
    script.call("read_within", [at, lo, hi], answer(reference.read_within, script.input, at, lo, hi))


def call_write(script, v, room):
    out = bytearray(room)
    given = answer(lambda: [reference.write_number(out, v)])
    script.call("write_number", [v], given, room=room, written=b"" if given[0] else bytes(out[:given[1]]))


def call_crowded(script, c, r, x, bound):
    rows = [tuple(script.input[i * r:(i + 1) * r]) for i in range(c)]
    row = reference.first_crowded(rows, x, bound)
    script.call("first_crowded", [c, r, x, bound], [0, 0] if row is None else [0, 1, row])


def call_plan(script, s, k, b, work, room):
    try:
        out, figure, counts = reference.plan(script.input, s, k, b, work, room)
    except Refused as e:
        script.call("plan", [s, k, b], [e.number, e.place], room=room, work=work)
        return None
    script.call("plan", [s, k, b], [0, len(out), figure, *counts], room=room, written=out, work=work, free=s * (b + 1))
    return out


def call_operator(script, s, k, wish, other, work, room):
    own = [s, k, wish, other]
    try:
        out, figure, counts = plan_operator(script.input, *own, work, room)
    except Refused as e:
        script.call("plan_operator", own, [e.number, e.place], room=room, work=work)
        return
    script.call("plan_operator", own, [0, len(out), figure, *counts], room=room, written=out, work=work,
                free=s * (grant(wish, other) + 1))


def call_ask(script, s, k, b, work):
    """The counts that are offered, or None."""
    try:
        figure, counts, copies = ask(script.input, s, k, b, work)
    except Refused as e:
        script.call("ask", [s, k, b], [e.number, e.place], work=work)
        return None
    script.call("ask", [s, k, b], [0, figure, *counts, *copies], work=work, free=s * (b + 1))
    return counts


def call_commit(script, s, k, b, counts, room):
    try:
        out, figure, _ = commit(script.input, s, k, b, counts, room)
    except Refused as e:
        script.call("commit", [s, k, b], [e.number, e.place], room=room, more=counts)
        return
    script.call("commit", [s, k, b], [0, len(out), figure, *counts], room=room, written=out, more=counts)


def call_certify(script, room):
    """What was written, or None."""
    try:
        out, figure, counts = certify(script.input, room)
    except Refused as e:
        script.call("certify", [], [e.number, e.place], room=room)
        return None
    script.call("certify", [], [0, len(out), figure, *counts], room=room, written=out)
    return out


def call_walk(script, more=0):
    """The walk to its end, and two more steps."""
    try:
        rows = reference.walk(script.input)
    except Refused as e:
        script.call("row_walk", [], [e.number, e.place], room=more)
        return
    at, r, b = reference.check_placement(script.input)["at"], len(rows[0]), len(rows)
    end = at + b * r  # the input's length but in kind 6, where the feeders follow
    script.call("row_walk", [], [0, at, r, b, b, b * r, end, 0, 0, 0, end, 0, at, b], room=b * r + more, written=b"".join(rows))


def call_curve(script, entries):
    """The entries are compared as two bytes each, lowest first."""
    try:
        figures = reference.curve(script.input, entries)
    except Refused as e:
        script.call("curve", [], [e.number, e.place], room=2 * entries, work=entries)
        return
    written = b"".join(f.to_bytes(2, "little") for f in figures)
    script.call("curve", [], [0, len(figures)], room=2 * entries, written=written, work=entries, free=len(figures))


def call_worst(script, room):
    try:
        number, nodes = worst_case(script.input, room)
    except Refused as e:
        script.call("worst_case", [], [e.number, e.place], room=room)
        return
    script.call("worst_case", [], [0, number], room=room, written=nodes)


def call_rounds(script, q):
    script.call("rounds", [q], answer(rounds, script.input, q))


def call_replay(script, data, log):
    """The log stands after the placement, six bytes an event; the place where the placement ends is given. A result has the number, and
    where there is an event 1 and its index."""
    script.read(data + b"".join(time.to_bytes(4, "little") + bytes([node, down]) for time, node, down in log))
    given = answer(replay, data, log)
    script.call("replay", [len(data)], given[:2] + [1] + given[2:] if given[0] == 0 and log else given)


def call_page(script, room):
    try:
        text = page(script.input, room)
    except Refused as e:
        script.call("page", [], [e.number, e.place], room=room)
        return
    script.call("page", [], [0, len(text)], room=room, written=text)


def call_join(script, packs, room):
    """The packs stand one after another in the input; their number and the places where the first two end are given."""
    script.read(b"".join(packs))
    ends = [sum(map(len, packs[:i + 1])) for i in range(len(packs) - 1)]
    try:
        data = chunks.join(packs, room)
    except Refused as e:
        script.call("join", [len(packs), *ends], [e.number, e.place], room=room)
        return
    script.call("join", [len(packs), *ends], [0, len(data)], room=room, written=data)


def reply_kind(reply):
    """The number in the line of a refusal, 0 for any other reply."""
    return int(reply.split()[1]) if reply.startswith(b"refused ") else 0


def call_check_reply(script, room=LINE_ROOM):
    if room < LINE_ROOM:
        script.call("check_reply", [], [11, LINE_ROOM], room=room)
        return
    reply = reference.check_reply(script.input)
    script.call("check_reply", [], [0, len(reply)], reply_kind(reply), room, reply)


def call_plan_reply(script, room=OUTPUT_MOST):
    """What `plan` writes with no argument."""
    if room < OUTPUT_MOST:
        script.call("plan_reply", [], [11, OUTPUT_MOST], room=room)
        return
    reply = reference.plan_reply(script.input)
    script.call("plan_reply", [], [0, len(reply)], reply_kind(reply), room, reply)


def read_order(data):
    """s, k, b and the place of the pack."""
    order, at = [], 0
    for _ in range(3):
        v, at = reference.read_number(data, at)
        order.append(v)
    return *order, at
