#!/usr/bin/env python3
"""Brings the definitions and lemmas of specs/ and proofs/ to one spelling, in place: words in snake case, types in
camel case. Run once, at the top, after the toolchain's own script; it prints what it renamed, and what fell together."""
import re
import sys
from pathlib import Path

ROOT = Path(sys.argv[1] if len(sys.argv) > 1 else ".")
TOKEN = re.compile(r"(?<![\w'·-])[^\W\d](?:[\w']|-(?=[\w']))*")
DEFINED = re.compile(r"^(?:  |    )?(?:abbrev +|unfoldable +)*(?:pub +)?(?:abbrev +|unfoldable +)*(?:pub +)?([^\W\d][\w'-]*) *:(?!=)(.*(?:\n {4,}.*)*)", re.M)
FIELD = re.compile(r"^ +(?:pub +)?([^\W\d][\w'-]*) *:(?!=)", re.M)
TYPE = re.compile(r"^(?:pub +)?(?:abbrev +)?(?:data|record) +(?:pub +)?([^\W\d][\w'-]*)", re.M)
BLOCK = re.compile(r"^(?:pub +)?(?:data|record) .*(?:\n(?: .*|))*", re.M)
GENERATED = {"Answers.antt", "Invariants.antt", "Choices.antt", "Proof.antt"}
# Lemmas whose word would fall together with that of the definition that they speak of.
APART = {
    "feed-bits": "bits_are_fed",
    "value-from": "value_is_from",
    "device-read": "device_reading",
    "host-read": "host_reading",
    "device-ticks": "device_ticking",
    "host-ticks": "host_ticking",
    "at-end": "at_the_end",
    "at-device": "device_stands",
    "at-host": "host_stands",
    "device-fits": "device_frame_fits",
    "host-fits": "host_frame_fits",
    "host-offered": "host_offering",
    "device-offered": "device_offering",
    "device-reads": "device_reads_on",
    "host-reads": "host_reads_on",
    "to-device": "handed_to_device",
    "to-host": "handed_to_host",
}


def snake(name):
    name = re.sub(r"(?<=[a-z0-9])[A-Z]+", lambda m: "_" + m[0].lower(), name)
    return name.replace("-", "_")


def camel(name):
    return "".join(p[:1].upper() + p[1:] for p in re.split(r"[-_]", name))


def own_names(files):
    """The names of values, and those of types."""
    values, types = set(), set()
    for f in files:
        if "src" in f.parts or f.name in GENERATED and "proofs" in f.parts:
            continue
        t = f.read_text()
        for name, kind in DEFINED.findall(t):
            (types if kind.rstrip().endswith("Type 0") else values).add(name)
        types |= set(TYPE.findall(t))
        for block in BLOCK.findall(t):
            values |= set(FIELD.findall(block))
    return values - types, types


def ghost_spans(t):
    """The parts of a source file that are ghost: imports, ghost items and clauses."""
    for m in re.finditer(r"ghost use [^;]*;|ghost [\w]+ *[:=]?[^;{]*\{|(?:requires|ensures)\*?(?: +\w+)? *\{", t):
        if t[m.end() - 1] != "{":
            yield m.start(), m.end()
            continue
        depth, i = 1, m.end()
        while depth and i < len(t):
            depth += {"{": 1, "}": -1}.get(t[i], 0)
            i += 1
        yield m.start(), i


def code_only(t, table):
    """Renames outside comments and strings of a .antt file or a ghost part."""
    parts = re.split(r'(--[^\n]*|//[^\n]*|"(?:[^"\\]|\\.)*")', t)
    return "".join(p if k % 2 else TOKEN.sub(lambda m: table.get(m[0], m[0]), p) for k, p in enumerate(parts))


def main():
    files = sorted(p for p in ROOT.glob("crates/*/**/*") if p.suffix in (".antt", ".rt") and "out" not in p.parts)
    values, types = own_names([f for f in files if f.suffix == ".antt"])
    # a value with the name of a field's bit keeps its capitals
    table = {n: APART.get(n) or (n.replace("-", "_") if n[0].isupper() else snake(n)) for n in values}
    table |= {n: camel(n) for n in types if n[0].isupper()}
    table = {n: s for n, s in table.items() if n != s}
    there = set()
    for f in files:
        there |= set(TOKEN.findall(f.read_text()))
    seen = {}
    for n, s in sorted(table.items()):
        if s in there or s in seen:
            print(f"look: {n} becomes {s}, which stands somewhere" + (f" (also from {seen[s]})" if s in seen else ""))
        seen[s] = n
        print(f"{n} -> {s}")
    for f in files:
        t = f.read_text()
        if f.suffix == ".antt":
            new = code_only(t, table)
        else:
            new, at = "", 0
            for a, b in ghost_spans(t):
                if a < at:
                    continue
                new += t[at:a] + code_only(t[a:b], table)
                at = b
            new += t[at:]
        if new != t:
            f.write_text(new)


main()
