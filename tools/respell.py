#!/usr/bin/env python3
"""Brings the names that this repository defines in specs/ and proofs/ to the spelling of today's Rattle.

usage: tools/respell.py        at the top of the repository, once, after the port.py of the kit

A word in camel case, such as armRun, is in snake case afterwards: arm_run. So is a word of specs/ that had dashes. In a name of several parts,
joined by dashes, each part is turned. Types, modules, functions of src/ and names of the library stay. Where a file has the new spelling
already for something else, TAKEN has another word. It turns must-fail edits, too, and prints what it turned to tools/respelled.tsv.
"""
import collections
import os
import re

TOKEN = re.compile(r"[A-Za-z0-9_'\u2080-\u2089\u00b2\u00b3\u2124\u2115-]+")
DEFINED = re.compile(r"^\s*(?:(?:abbrev pub|unfoldable pub|abbrev|unfoldable|pub) )?([^\s:(){}.,\[\]=]+) : ")
TAKEN = {"countAt": "count_bit_at", "laneBits": "bits_of_lane", "secondIs": "second_operand_is", "setBefore": "set_before_block", "wideOk": "wide_is_ok"}
CAMEL = re.compile(r"^[a-z][a-z0-9]*[A-Z]")


def snake(part):
    """armRun is arm_run, clampSU is clamp_su, appliedToZ is applied_to_z."""
    out = re.sub(r"([a-z0-9])([A-Z])", r"\1_\2", part)
    out = re.sub(r"([A-Z])([A-Z][a-z])", r"\1_\2", out)
    return out.lower()


def turned(name, in_specs):
    if re.match(r"^[A-Z\u0370-\u03ff+]", name):
        return name
    parts = [snake(p) if CAMEL.match(p) else p for p in name.split("-")]
    return ("_" if in_specs else "-").join(parts)


def files():
    for top, dirs, names in os.walk("crates"):
        dirs[:] = sorted(d for d in dirs if d not in ("out", "data"))
        for n in sorted(names):
            if n.endswith((".antt", ".rt", ".edit")):
                yield os.path.join(top, n)


def bare(path, text):
    """The words of a file that stand alone; of a source, its clauses' words and the names of parameters and locals."""
    text = re.sub(r"(--|//)[^\n]*", "", text)
    if path.endswith(".rt"):
        taken = set(re.findall(r"(?:let mut|let) (\w+)|[(,]\s*(?:mut )?(\w+): |^\s+(?:mut )?(\w+): ", text, re.M))
        ghost = {n for m in re.findall(r"ghost use [\w.]+\.\{([^}]*)\}|ghost use [\w.]+\.(\w+);", text) for n in TOKEN.findall(" ".join(m))}
        return {n for ns in taken for n in ns if n} | ghost
    text = re.sub(r"(?m)^(pub )?use [^\n{]*", "", text)
    return set(re.findall(r"(?<![.A-Za-z0-9_'-])" + TOKEN.pattern + r"(?![A-Za-z0-9_'-]*\.[a-z])", text)) if path.endswith(".antt") else set()


def main():
    texts = {p: open(p, encoding="utf-8").read() for p in files()}
    specs, own = set(), {"wideWords", "sameExpr"}
    for p, t in texts.items():
        if not p.endswith(".antt"):
            continue
        for line in t.split("\n"):
            m = DEFINED.match(line)
            if m and not line.lstrip().startswith(("--", "use ", "let ")):
                own.add(m[1])
                if "/specs/" in p:
                    specs.add(m[1])
    # names that Rattle makes of a function keep what Rattle calls them
    source = {n for p, t in texts.items() if p.endswith(".rt") for n in re.findall(r"\bfn (\w+)|\b(?:let mut|let) (\w+)|(\w+): ", t) for n in n if n}
    table = {}
    for n in sorted(own):
        new = turned(n, n in specs and n not in source)
        if new != n:
            table[n] = new
    # a file that has both spellings: the new one is taken there. A function of that name, a step and a part of a path take nothing
    words = {p: bare(p, t) for p, t in texts.items()}
    clash = collections.Counter()
    for n, new in table.items():
        for p, w in words.items():
            if n in w and new in w:
                clash[n] += 1
    for n in clash:
        table[n] = TAKEN[n]
    back = collections.defaultdict(list)
    for n, new in table.items():
        back[new].append(n)
    for new, old in back.items():
        if len(old) > 1:
            print(f"look: {old} fall together as {new}")
    for p, t in texts.items():
        if p.endswith(".rt"):
            lines = t.split("\n")
            clause = re.compile(r"^\s*(ghost |requires|ensures|// )|[\u27e8\u2261\u2264\u2192\u03bb]")
            inside = False
            for i, line in enumerate(lines):
                if re.match(r"^\s*(requires|ensures|ghost)\b", line):
                    inside = True
                if inside or line.lstrip().startswith("//"):
                    lines[i] = TOKEN.sub(lambda m: table.get(m[0], m[0]) if m[0] not in source else m[0], line)
                if inside and (line.rstrip().endswith(("}", ";")) and line.count("{") <= line.count("}") or line.strip() == "{"):
                    inside = inside and not (line.strip() == "{" or line.rstrip().endswith(";") or line.rstrip().endswith("}"))
            new = "\n".join(lines)
        else:
            new = TOKEN.sub(lambda m: table.get(m[0], m[0]), t)
        if new != t:
            with open(p, "w", encoding="utf-8") as f:
                f.write(new)
    with open("tools/respelled.tsv", "w", encoding="utf-8") as f:
        f.writelines(f"{a}\t{b}\n" for a, b in sorted(table.items()))
    print(f"{len(table)} names turned")


main()
