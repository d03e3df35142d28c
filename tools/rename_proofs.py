#!/usr/bin/env python3
"""Gives each Proof.antt the names that today's Rattle makes of its function's goals, places and steps.

usage: tools/rename_proofs.py NAMES [CRATE ..]     at the top of the repository; `rt names NAMES` writes what NAMES has

A proof `tie.close (tie.spec ..)` gives its answers in order: the answer at a place gets the goal at that place in NAMES. Names of places and
of steps have a new name each in NAMES. It prints the proofs whose answers are not as many as the goals.
"""
import json
import os
import re
import sys

WORD = r"[A-Za-z0-9_'\u2080-\u2089+-]+"
SUB = {"ensures", "result", "new", "invariant", "inv", "true", "false", "branch", "auto", "is", "not", "given", "element_fits", "fact", "raw"}


def norm(n):
    return re.sub(r"[-_]", "", n)


def split_args(text):
    """The arguments of an application: words and bracketed terms."""
    out, depth, cur = [], 0, ""
    for ch in text:
        if ch in "([{":
            depth += 1
        if ch in ")]}":
            depth -= 1
        if ch.isspace() and depth == 0:
            if cur:
                out.append(cur)
            cur = ""
        else:
            cur += ch
    if cur:
        out.append(cur)
    return out


def spec_args(text):
    """The arguments of the last tie.spec, and where they stand."""
    at = text.rfind("tie.spec")
    if at < 0:
        return None
    start = at + len("tie.spec")
    depth, i = 0, start
    while i < len(text):
        if text[i] in "([{":
            depth += 1
        if text[i] in ")]}":
            depth -= 1
            if depth < 0:
                break
        i += 1
    return start, i, split_args(text[start:i])


def steps(names, place=None):
    """Old step name to its new one, with the renamed fields: of the places above a place, or of all."""
    out, above = {}, None
    if place is not None:
        by_old = {p[0]: new for p, new in zip(names["places"], names["places_by_name"])}
        parent = {new: by_old.get(p[1]) for p, new in zip(names["places"], names["places_by_name"])}
        above = set()
        while place in parent:
            above.add(place)
            place = parent[place]
    for (_, _, step, _, fields), new_place in zip(names["places"], names["places_by_name"]):
        if step[0] and (above is None or new_place in above):
            known = out.setdefault(norm(step[0]), (step[1], dict()))
            known[1].update({norm(a): b for a, b in fields})
    return out


def turn_paths(text, names, place=None):
    table = steps(names, place)
    variables = {}
    for loop, live in names["loops"]:
        for v in live:
            variables[norm(v)] = v

    def path(m):
        fields = m[0].split(".")[1:]
        out, i = [], 0
        while i < len(fields):
            f = fields[i]
            key = norm(f)
            if f.endswith("_lem") and norm(f[:-4]) in table:
                key = norm(f[:-4])
            nxt = fields[i + 1] if i + 1 < len(fields) else None
            if nxt in ("taken", "left") and key in table:
                nxt = {"taken": "true", "left": "false"}[nxt]
            if nxt and re.fullmatch(r"keys\d+", nxt) and key == "match":
                nxt = "is"
            first = all(g == "before" for g in fields[:i])
            if first and key in table and (nxt is None or nxt in SUB or norm(nxt) in variables or norm(nxt) in table[key][1]) and f not in ("args", "before"):
                new, sub = table[key]
                out.append(new)
                if nxt is not None:
                    if norm(nxt) in sub:
                        nxt = sub[norm(nxt)]
                    elif nxt == "inv":
                        nxt = "invariant"
                    elif norm(nxt) in variables and nxt not in SUB:
                        nxt = variables[norm(nxt)]
                    out.append(nxt)
                    i += 1
            elif f == "args" and nxt is not None:
                out += [f, nxt.replace("-", "_")]
                i += 1
            elif f == "new" and nxt is not None:
                out += [f, nxt.replace("-", "_")]
                i += 1
            else:
                out.append(f)
            i += 1
        return "." + ".".join(out)

    return re.sub(rf"(?:\.{WORD})+", path, text)


def places(text, names):
    table = {norm(p[0]): new for p, new in zip(names["places"], names["places_by_name"])}

    def place(m):
        key = norm(m[1])
        return "tie." + table.get(key, m[1])

    text = re.sub(rf"tie\.((?:After|At|In|Then|Else|Start|Joined|Untold)[A-Za-z0-9_-]*)", place, text)
    # the constructors of a branch are its places, in small letters
    return text


ROOT = r"(?<![\w.'-])"
END = r"(?![\w'-])"


def blocks(text):
    """The top declarations of a file: a signature with its clauses each, and what stands between."""
    out, cur = [], []
    for line in text.split("\n"):
        m = re.match(rf"^(?:abbrev pub |unfoldable pub |abbrev |unfoldable |pub )?({WORD}) :(?: |$)", line)
        if line and not line[0].isspace() and (m or line.startswith(("use ", "--", "module", "pub record", "record", "pub data", "data"))):
            if cur:
                out.append("\n".join(cur))
            cur = []
        cur.append(line)
    out.append("\n".join(cur))
    return out


def depth_between(tree, low, high):
    n = 0
    while low != high:
        if low not in tree:
            return None
        low, n = tree[low], n + 1
    return n


def parens_at(text, i):
    depth, j = 0, i
    while j < len(text):
        depth += text[j] == "("
        depth -= text[j] == ")"
        j += 1
        if depth == 0:
            return text[i:j]
    return text[i:]


def flat(text, param, place, moves, asks, tree, said):
    """Turns what a term says of places above `param`: each step is a field of the lowest place, and a lemma about a place gets just that place."""
    alias = {param}
    for _ in range(60):
        before = text
        names = "|".join(re.escape(a) for a in sorted(alias, key=len, reverse=True))
        spot = rf"(?:{names})(?:\.before)*"
        if moves:
            of = "|".join(re.escape(m) for m in sorted(moves, key=len, reverse=True))
            text = re.sub(rf"\((?:{of}) ({spot})\)(?=\.)", r"\1", text)
            text = re.sub(rf"\((?:{of}) ({spot})\)", r"\1", text)
            text = re.sub(rf"{ROOT}(?:{of}) ({spot}){END}(?!\.)", r"\1", text)
        text = re.sub(rf"\(({spot})\)", r"\1", text)
        for m in re.finditer(rf"{ROOT}let ({WORD}) = ({spot}) in\b", text):
            alias.add(m[1])
        text = re.sub(rf"{ROOT}let ({WORD}) = {spot} in\b", lambda m: f"let {m[1]} = {param} in", text)
        names = "|".join(re.escape(a) for a in sorted(alias, key=len, reverse=True))
        text = re.sub(rf"{ROOT}({names})(?:\.before)+(?=\.(?!before{END}))", r"\1", text)
        if text == before:
            break
    names = "|".join(re.escape(a) for a in sorted(alias, key=len, reverse=True))
    for name, at in asks.items():
        n = depth_between(tree, place, at)

        def call(m):
            if n is None:
                said.append(f"{name} at {place}")
                return m[0]
            return m[1] + param + ".before" * n

        text = re.sub(rf"({ROOT}{re.escape(name)} )(?:{names})(?:\.before)*{END}(?!\.)", call, text)
    text = re.sub(rf"{ROOT}let ({WORD}) = {re.escape(param)} in\s+", lambda m: m[0], text)
    return text


def lambdas(arg):
    """The parameter of (λ c κs. ..)."""
    m = re.match(r"\(λ (\S+?)[ .]", arg)
    return m and m[1].rstrip(".")


def places_flat(text, names, needs, lead):
    """The whole file: moves from place to place go, and every other term is turned by `flat`."""
    tree = {}
    by_old = {p[0]: new for p, new in zip(names["places"], names["places_by_name"])}
    for p, new in zip(names["places"], names["places_by_name"]):
        if p[1]:
            tree[new] = by_old.get(p[1], p[1])
    asked = {need[1]: at[1] for need, at in zip(names["needs"], names["asked_at"])}
    parts = blocks(text)
    moves, asks = set(), {}
    keep = []
    for b in parts:
        m = re.match(rf"(?s)(?:abbrev |unfoldable |pub )*({WORD}) :\s+(?:\(({WORD}) : )?tie\.({WORD})((?: (?:invariant|decreases)-[\w-]+)*)\)? →\s*(.*)", b)
        if m and not m[3].startswith("Need-"):
            if re.match(rf"tie\.{WORD}(?: (?:invariant|decreases)-[\w-]+)*\s*\n", m[5]) and not m[2]:
                moves.add(m[1])
                continue
            asks[m[1]] = m[3]
        keep.append(b)
    said, out = [], []
    for b in keep:
        m = re.match(rf"(?s)(?:abbrev |unfoldable |pub )*({WORD}) :\s+(.*)", b)
        if not m or "tie.close" in b:
            if "tie.close" in b:
                got = spec_args(b)
                s, e, args = got
                turned = []
                for i, a in enumerate(args):
                    p = lambdas(a)
                    if p and i >= lead:
                        a = turn_paths(a, names, asked[needs[i - lead]])
                        a = flat(a, p, asked[needs[i - lead]], moves, asks, tree, said)
                    turned.append(a)
                if turned != args:
                    b = b[:s] + "\n    " + "\n    ".join(turned) + b[e:]
            out.append(b if "tie.close" in b else turn_paths(b, names))
            continue
        at = re.search(rf"^(?:abbrev |unfoldable |pub )*{WORD} :\s+(?:\({WORD} : )?tie\.({WORD})", b)
        if not at or at[1].startswith(("invariant", "decreases")):
            out.append(b)
            continue
        place = asked.get(at[1][5:]) if at[1].startswith("Need-") else at[1]
        # each clause has a parameter of its own
        b = turn_paths(b, names, place)
        lines = re.split(rf"(?m)^(?={re.escape(m[1])} (?!:))", b)
        sig = lines[0]
        c = re.search(rf"\(({WORD}) : tie\.", sig)
        if c:
            sig = flat(sig, c[1], place, moves, {k: v for k, v in asks.items() if k != m[1]}, tree, said)
        new = [sig]
        for l in lines[1:]:
            p = re.match(rf"{re.escape(m[1])} ({WORD})", l)
            new.append(flat(l, p[1], place, moves, {k: v for k, v in asks.items()}, tree, said) if p and l.startswith(m[1]) else l)
        out.append("".join(new))
    return "\n".join(out), said


def settled_go(text, start, end, args, lead, wanted, settled):
    """The answers of goals that are not asked any more go: they are those whose goal is of a settled kind."""
    kinds = {norm(re.match(r"[a-z_]+", s)[0]) for s in settled}
    kinds |= {"sliceaggregate"} if "slicebounds" in kinds else set()
    many = len(args) - lead - wanted
    found = []
    for i, a in enumerate(args):
        m = re.search(rf"(?m)^(?:pub )?{re.escape(a)} : tie\.Need-({WORD})", text) if re.fullmatch(WORD, a) else None
        if m and any(norm(m[1]).startswith(k) for k in kinds):
            found.append(i)
    if len(found) != many:
        labels = [re.search(rf"(?m)^(?:pub )?{re.escape(a)} : tie\.Need-({WORD})", text) for a in args if re.fullmatch(WORD, a)]
        print("   labels", [l[1] if l else None for l in labels])
        return text, args
    keep = [a for i, a in enumerate(args) if i not in found]
    gone = [args[i] for i in found]
    text = text[:start] + "\n    " + "\n    ".join(keep) + text[end:]
    text = "\n".join(b for b in blocks(text) if not any(re.match(rf"(?:pub )?{re.escape(g)} : ", b) for g in gone))
    return text, keep


def main(argv):
    top, only = argv[0], set(argv[1:])
    said, for_hand = 0, []
    for crate in sorted(os.listdir("crates")):
        listed = os.path.join(top, "crates", crate, "names.json")
        if only and crate not in only or not os.path.exists(listed):
            continue
        with open(listed, encoding="utf-8") as f:
            all_names = json.load(f)
        for key, names in all_names.items():
            m = re.match(r"Rattle-(\w+)-proofs\.(.*)\.Lts$", key)
            if not m or m[1] != crate:
                continue
            where = os.path.join("crates", crate, "proofs", m[2].replace(".", "/"), "Proof.antt")
            if not os.path.exists(where):
                continue
            with open(where, encoding="utf-8") as f:
                text = f.read()
            got = spec_args(text)
            if not got:
                print(f"left: {where}: no tie.spec")
                continue
            start, end, args = got
            lead = 2 * len(names["loops"])
            needs = [n[1] for n in names["needs"]]
            words = args[:lead]
            if len(args) > lead + len(needs):
                text, args = settled_go(text, start, end, args, lead, len(needs), names["settled"])
                got = spec_args(text)
            if len(args) != lead + len(needs):
                said += 1
                for_hand.append(where)
                print(f"left: {where}: {len(args)} arguments for {lead} + {len(needs)}; settled {names['settled']}")
            text = re.sub(r"(?<=[\w)])\.pre(?![\w-])", ".requires", text)
            text = re.sub(r"(?<=[\w)])\.inv(?![\w-])", ".invariant", text)
            text = places(text, names)
            loops = {norm(old): new for (old, new), _ in names["loops"]}
            for old, new in [l[0] for l in names["loops"]]:
                for kind in ("invariant", "decreases"):
                    text = re.sub(rf"(?<![\w-]){kind}-{re.escape(old)}(?![\w-])", f"{kind}-{new}", text)
            for arg, new in zip(args[lead:], needs):
                if re.fullmatch(WORD, arg):
                    text = re.sub(rf"(?m)^((?:pub )?{re.escape(arg)} : )tie\.Need-{WORD}", rf"\g<1>tie.Need-{new}", text)
            text, unsure = places_flat(text, names, needs, lead) if where not in for_hand else (text, [])
            for it in sorted(set(unsure)):
                print(f"look: {where}: {it}")
            fn = m[2].split(".")[-1]
            text = re.sub(r"(?m)^pub " + WORD + r"-spec : ", f"pub {fn}_spec : ", text)
            text = re.sub(r"(?m)^" + WORD + r"-spec( [^=\n]*)?=", f"{fn}_spec =", text)
            with open(where, "w", encoding="utf-8") as f:
                f.write(text)
    print(f"{said} proofs with another number of answers")


main(sys.argv[1:])
