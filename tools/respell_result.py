#!/usr/bin/env python3
"""Frees the word `result`, which a clause now has for what a function returns.

usage: python3 tools/respell_result.py     at the top of a checkout over which port.py and tools/respell.py have run

In code whose clauses name the case `result` of an outcome (refusal/specs/Refusals) it is brought in as `result_of`, and the clauses that
port.py left with their λ, since they name that case, lose it: the bound name becomes `result`, the brackets go.
"""

import os
import re

BROUGHT = re.compile(r"use [\w.]*Refusals\.\{[^}]*(?<![\w'-])result(?![\w'-])[^}]*\}")


def plain(body):
    """An ensures clause `λ x. ⌜ fact ⌝` as a plain fact over `result`."""
    m = re.fullmatch(r"\s*λ ([\w'-]+)\.\s*⌜(.*)⌝\s*", body, re.S)
    if not m:
        return body
    name, fact = m[1], m[2].strip()
    if name != "_":
        fact = re.sub(rf"(?<![\w'.-]){re.escape(name)}(?![\w'-])", "result", fact)
    return f" {fact} "


def clauses(text):
    out, at = [], 0
    for m in re.finditer(r"\bensures\*? \{", text):
        if m.start() < at:
            continue
        depth, end = 1, m.end()
        while depth:
            depth += {"{": 1, "}": -1}.get(text[end], 0)
            end += 1
        body = text[m.end() : end - 1]
        new = plain(body)
        out += [text[at : m.start()], "ensures {" if new != body else text[m.start() : m.end()], new, "}"]
        at = end
    return "".join(out) + text[at:]


def main():
    for folder, dirs, names in os.walk("crates"):
        dirs[:] = [d for d in dirs if d != "out"]
        for name in names:
            path = os.path.join(folder, name)
            if not name.endswith(".rt"):
                continue
            with open(path, encoding="utf-8") as f:
                text = f.read()
            new = text
            if BROUGHT.search(text):
                # a clause's own word stays where the case is not meant
                new = re.sub(r"(?<![\w'.-])result(?=[,}])(?=[^\n]*\};)", "result as result_of", new)
                new = re.sub(r"(?<![\w'.-])result \(", "result_of (", new)
            new = clauses(new)
            if new != text:
                with open(path, "w", encoding="utf-8") as f:
                    f.write(new)
                print(path)


if __name__ == "__main__":
    main()
