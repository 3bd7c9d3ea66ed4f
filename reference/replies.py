"""What the programs print, from the words of docs/FORMATS.md ('Programs'): numbers typed as arguments in decimal, or before the file in
its own form. A reply is a function of the arguments, a list of bytes, and of the bytes on standard input."""
import re

from cabinet_page import page
from certify import certify
from chunks import join
from committing import ask, commit
from document01 import Refused, check_placement, curve, plan
from operators import plan_operator
from reading import read_number
from rounds import rounds
from worst import worst_case


def refused(number, place):
    return f"refused {number} {place}\n".encode()


def line(*parts):
    return (" ".join(map(str, parts)) + "\n").encode()


def typed(word):
    """A number that a person types: one to nine decimal digits; None for anything else."""
    return int(word) if re.fullmatch(rb"[0-9]{1,9}", word) else None


def given(count, arguments, data):
    """The numbers that a program takes and its file; or the index of the first number that can't be read; or 'extra'."""
    values, at = [], 0
    for index in range(count):
        if arguments:
            value = typed(arguments[index]) if index < len(arguments) else None
        else:
            try:
                value, at = read_number(data, at)
            except Refused:
                value = None
        if value is None:
            return None, index
        values.append(value)
    if len(arguments) > count:
        return None, "extra"
    return values, data[at:]


def program(count, bad, reply):
    """A program of so many numbers: `bad` is the refusal of one that can't be read, `reply` what it says to the others."""
    def run(arguments, data):
        values, rest = given(count, arguments, data)
        if values is None:
            return refused(22, count) if rest == "extra" else refused(*bad(rest))
        try:
            return reply(rest, *values)
        except Refused as e:
            return refused(e.number, e.place)
    return run


def curve_lines(data):
    s = check_placement(data)["s"]
    return b"".join(line(s + i, figure) for i, figure in enumerate(curve(data)))


def worst_line(data):
    number, nodes = worst_case(data)
    return line(number, *nodes)


def offered_line(data, s, k, b):
    figure, counts, copies = ask(data, s, k, b)
    return line("offered", figure, *counts, *copies)


def order_number(index):
    return 12, index


REPLIES = {
    "curve": program(0, order_number, curve_lines),
    "worst": program(0, order_number, worst_line),
    "page": program(0, order_number, page),
    "rounds": program(1, lambda index: (18, 0), lambda data, q: line(*rounds(data, q))),
    "plan": program(3, order_number, lambda data, s, k, b: plan(data, s, k, b)[0]),
    "ask": program(3, order_number, offered_line),
    "commit": program(8, lambda index: (12, index) if index < 3 else (16, 0),
                      lambda data, s, k, b, *counts: commit(data, s, k, b, list(counts))[0]),
    "certify": program(0, order_number, lambda data: certify(data)[0]),
    "operator": program(4, lambda index: (12, index) if index < 2 else (14, 0),
                        lambda data, s, k, wish, other: plan_operator(data, s, k, wish, other)[0]),
}


def join_reply(files):
    """What `join` writes for the files that are named, or for the one on standard input."""
    if len(files) > 3:
        return refused(22, 3)
    try:
        return join(files)
    except Refused as e:
        return refused(e.number, e.place)
