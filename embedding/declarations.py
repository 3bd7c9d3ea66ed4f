"""Makes the declarations for C and Rust from calls.txt, and holds the list to the Rattle source.

    python3 embedding/declarations.py            writes include/musseltwig.h and rust/src/raw.rs
    python3 embedding/declarations.py --check    writes nothing; says what differs, and ends with status 1 where something does

Nothing else compares what a C or Rust program declares with what the library has: a wrong declaration links, and goes wrong when it
runs. So the list, the two files and every call of crates/export_*/ are compared here, and the numbers that the files name are read
from the Rattle source, but for three limits (`sizes`); exports.py holds the exports of crates/musseltwig to those calls. It needs
Python's standard library alone.
"""
import re
import sys
import textwrap
from pathlib import Path

HERE = Path(__file__).resolve().parent
CRATES = HERE.parent / "crates"
PREFIX = "musseltwig"

# A Rattle parameter in C and in Rust: a slice is a pointer and a length.
C_TYPES = {"usize": "uint64_t {0}", "&[usize; 5]": "const uint64_t {0}[5]"}
RUST_TYPES = {"usize": "{0}: u64", "&[usize; 5]": "{0}: *const u64"}
for rattle, c, rust in (("u8", "uint8_t", "u8"), ("u16", "uint16_t", "u16"), ("u32", "uint32_t", "u32"), ("usize", "uint64_t", "u64")):
    C_TYPES[f"&[{rattle}]"] = f"const {c} *{{0}}, size_t {{0}}_length"
    C_TYPES[f"&mut [{rattle}]"] = f"{c} *{{0}}, size_t {{0}}_length"
    RUST_TYPES[f"&[{rattle}]"] = f"{{0}}: *const {rust}, {{0}}_length: usize"
    RUST_TYPES[f"&mut [{rattle}]"] = f"{{0}}: *mut {rust}, {{0}}_length: usize"
ANSWER = ("answer", "&mut [usize]")


class Call:
    def __init__(self, crate, name):
        self.crate, self.name, self.parameters, self.answer, self.does, self.gives = crate, name, [], 0, "", ""

    def key(self):
        return self.crate, f"{PREFIX}_{self.name}", tuple(self.parameters + [ANSWER]), self.answer

    def constant(self):
        return f"{self.name.upper()}_ANSWER"


def listed():
    """The calls of calls.txt."""
    calls = []
    for line in (HERE / "calls.txt").read_text().splitlines():
        if line.startswith("#") or not line.strip():
            continue
        if not line.startswith(" "):
            calls.append(Call(*line.split()))
            continue
        call, (word, _, rest) = calls[-1], line.strip().partition(" ")
        if word == "answer":
            call.answer = int(rest)
        elif word in ("does", "gives"):
            setattr(call, word, rest)
        else:
            call.parameters.append((word.rstrip(":"), rest))
    return calls


def exported():
    """The functions of crates/export_*/ that crates/musseltwig exports, by their names: crate, name, parameters, and how many numbers
    are asked of the answer."""
    for path in sorted(CRATES.glob("export_*/src/**/*.rt")):
        text = path.read_text()
        crate = path.relative_to(CRATES).parts[0]
        found = re.findall(rf'^pub fn ({PREFIX}_\w+)\(([^)]*)\) -> usize(.*?)\n}}', text, re.S | re.M)
        if len(found) != len(re.findall(rf"\bfn {PREFIX}_", text)):
            sys.exit(f"{path}: a call of another form")
        for name, given, rest in found:
            parameters = tuple(tuple(p.strip().split(": ", 1)) for p in given.split(",") if p.strip())
            asked = re.findall(r"if answer\.len\(\) < (\d+) \{\s*return BAD_LENGTH;", rest)
            yield crate, name, parameters, int(asked[0]) if len(asked) == 1 else None


def number(crate, name):
    """A constant of the Rattle source."""
    text = (CRATES / crate / "src/lib.rt").read_text()
    return int(re.search(rf"pub const {name}: usize = ([\d_]+);", text)[1].replace("_", ""))


def refusals():
    """The refusals' names and numbers, and whether the place varies, in the Rattle source."""
    text = (CRATES / "refusal_code/src/lib.rt").read_text().partition("pub fn place")[0]
    found = re.findall(r"Refusal::(\w+)(\(_\))? => (\d+),", text)
    return [(name, int(n), bool(place)) for name, place, n in found]


def sizes():
    """What lent slices and answers need at most: name, number, what it is. No constant of the Rattle source has the 254 and the 4."""
    work, out = number("replies", "WORK_MOST"), number("replies", "OUTPUT_MOST")
    return [("BAD_LENGTH", number("exports", "BAD_LENGTH"), "returned where a slice is not as long as stated: nothing is touched"),
            ("WORK_MOST", work, "entries of a working slice that every order can be planned in"),
            ("OUTPUT_MOST", out, "bytes of an output that every placement that is planned and every joined pack fits"),
            ("CURVE_MOST", 254, "entries of an output that every curve fits"),
            ("SET_MOST", 254, "bytes of an output that every worst set fits"),
            ("PAGE_MOST", number("call_replies", "PAGE_NEEDED"), "bytes of an output that every page fits"),
            ("LINE_NEEDED", number("report", "LINE_NEEDED"), "bytes that the certificate line asks for"),
            ("NUMBER_MOST", 4, "bytes that every number fits")]


def upper(name):
    return re.sub(r"(?<=[a-z])(?=[A-Z])", "_", name).upper()


def wrapped(text, lead, first=None, width=117):
    return textwrap.wrap(text, width, initial_indent=first or lead, subsequent_indent=lead, break_long_words=False)


HEADER = """\
/* Musseltwig for C: plans and checks placements of replicated records. Made by embedding/declarations.py: change
 * calls.txt instead.
 *
 * A slice is a pointer and how many elements it has. No pointer is null, also where there are 0 elements. What a
 * call may write does not overlap what it reads or another slice that it may write, and nothing else touches its
 * slices before it returns. A call keeps no state, so that threads may call at the same time on slices of their own.
 *
 * Every call returns 0 for a result, or a refusal's number. For a result answer[0] is 0 and the values follow it;
 * for a refusal answer[0] is its number and answer[1] its place. Numbers of the answer past these are left as they
 * were. A refusal leaves every other slice as it was, and a result leaves what stands past the length that it gives.
 * Where answer has fewer elements than the call's constant MUSSELTWIG_.._ANSWER the call returns
 * MUSSELTWIG_BAD_LENGTH and touches nothing; so does musseltwig_replay where the three slices of its log are not
 * equally long. docs/FORMATS.md has the files, the refusals and what each call promises; docs/EMBEDDING.md what is
 * proved of the calls. */
#ifndef MUSSELTWIG_H
#define MUSSELTWIG_H

#include <stddef.h>
#include <stdint.h>

#if SIZE_MAX != UINT64_MAX
#error "libmusseltwig.a is for x86-64 Linux"
#endif

#ifdef __cplusplus
extern "C" {
#endif
"""


def header(calls):
    lines = [HEADER]
    lines += [f"/* {what} */\n#define {PREFIX.upper()}_{name} {n}" for name, n, what in sizes()]
    lines += ["", "/* The refusals' numbers. */"]
    lines += [f"#define {PREFIX.upper()}_{upper(name)} {n}" for name, n, _ in refusals()]
    lines += ["", "/* How many numbers each call asks of its answer. */"]
    lines += [f"#define {PREFIX.upper()}_{c.constant()} {c.answer}" for c in calls]
    for c in calls:
        parameters = [C_TYPES[t].format(name) for name, t in c.parameters + [ANSWER]]
        documented = wrapped(c.does, " * ", "/* ") + wrapped(f"Answer: 0, {c.gives}", " * ")
        if len(documented) != 2:
            sys.exit(f"calls.txt: {c.name} is documented in {len(documented)} lines, not two")
        lines += ["", *documented]
        lines[-1] += " */"
        whole = [p.replace(" ", "~") for p in ", ".join(parameters).split(", ")]
        declared = textwrap.wrap(f"size_t {PREFIX}_{c.name}({', '.join(whole)});", 120, subsequent_indent="    ")
        lines += [line.replace("~", " ") for line in declared]
    lines += ["", "#ifdef __cplusplus", "}", "#endif", "#endif", ""]
    return "\n".join(lines)


def raw(calls):
    lines = ["//! The library's functions and sizes as they are. Made by embedding/declarations.py: change calls.txt instead.", ""]
    for name, n, what in sizes():
        lines += [f"/// {what[0].upper()}{what[1:]}.", f"pub const {name}: usize = {n};"]
    for c in calls:
        lines += [f"/// How many numbers `{PREFIX}_{c.name}` asks of its answer.", f"pub const {c.constant()}: usize = {c.answer};"]
    lines += ["", "/// The refusals' names and numbers, and whether the place varies."]
    lines += [f"pub const REFUSALS: [(&str, u64, bool); {len(refusals())}] = ["]
    lines += [f'    ("{name}", {n}, {str(place).lower()}),' for name, n, place in refusals()]
    lines += ["];", "", 'extern "C" {']
    for c in calls:
        parameters = ", ".join(RUST_TYPES[t].format(name) for name, t in c.parameters + [ANSWER]).split(", ")
        lines += wrapped(f"{c.does} Answer: 0, {c.gives}".replace(f"{PREFIX.upper()}_", ""), "    /// ")
        whole = f"    pub fn {PREFIX}_{c.name}({', '.join(parameters)}) -> usize;"
        apart = [f"    pub fn {PREFIX}_{c.name}(", *(f"        {p}," for p in parameters), "    ) -> usize;"]
        lines += [whole] if len(whole) <= 120 else apart
    lines += ["}", ""]
    return "\n".join(lines)


def unused(calls):
    """The calls that the vectors' C program, or the Rust crate, leaves out."""
    for path in ("c/calls.c", "rust/src/lib.rs"):
        text = (HERE / path).read_text()
        yield from (f"{path} makes no call of {PREFIX}_{c.name}" for c in calls if not re.search(rf"\b{PREFIX}_{c.name}\b", text))


def main(check):
    calls, faults = listed(), []
    source, ours = set(exported()), {c.key() for c in calls}
    for key in sorted(source ^ ours, key=str):
        faults.append(f"{'only in the Rattle source' if key in source else 'only in calls.txt'}: {key}")
    if len(ours) != len(calls):
        faults.append("calls.txt has a call twice")
    faults += unused(calls)
    for path, text in ((HERE / "include/musseltwig.h", header(calls)), (HERE / "rust/src/raw.rs", raw(calls))):
        if check and (not path.exists() or path.read_text() != text):
            faults.append(f"{path.relative_to(HERE.parent)} is not what calls.txt gives")
        if not check:
            path.write_text(text)
    print("\n".join(faults) or f"{len(calls)} calls: the list, the Rattle source and both declarations agree")
    sys.exit(bool(faults))


if __name__ == "__main__":
    main(sys.argv[1:] == ["--check"])
