#!/usr/bin/env python3
"""Respells the repository's own definitions and lemmas as today's Rattle spells names (PORTING.md, part 3): words in snake case, a dash
only between two names, the library's new words inside a name. Run once at the top, after port.py.

It changes .antt files, and the clauses and `ghost use` lines of .rt files. Functions of src/, exported names, strings, inputs and outputs
keep their names. It stops before it writes where two names of a file would fall together.

usage: python3 tools/respell.py [--list|--anyway]

--list prints the names and what becomes of each, and writes nothing. --anyway writes although names fall together: those that are left are a
specification's name and the module of the function of src/ that it is about, which are told apart by their paths.
"""

import os
import re
import sys

ROOT = os.path.dirname(os.path.dirname(os.path.abspath(__file__)))
WORD = re.compile(r"[A-Za-zΑ-Ωα-ωμκ][A-Za-z0-9_'₀-₉ℕℤΑ-Ωα-ω]*(?:-(?=[A-Za-z0-9])[A-Za-z0-9_'₀-₉]+)*")
DEFINED = re.compile(r"^(\s*)((?:abbrev |unfoldable |pub |record |data )*)([A-Za-z][A-Za-z0-9_'₀-₉-]*)((?:\s+[({][^:(){}]*:.*?[)}])*)\s*:(?!=)")
# names of the library, between which a dash stands
LIBRARY = "length take drop append get_or cons nil suc zero add mul sub mod div pow xor eqb ltb cond map reverse set".split()
OLD_WORDS = {"getD": "get_or", "bitAnd": "bit_and", "bitXor": "bit_xor", "bitOr": "bit_or"}
# a name that the two rules would make fall together with another, or that reads wrong by rule
BY_HAND = {"well-formed": "is_well_formed", "ones-in": "ones_in_lem"}


def files(ending):
    for folder, dirs, names in os.walk(os.path.join(ROOT, "crates")):
        dirs[:] = sorted(d for d in dirs if d not in ("out", ".git"))
        for n in sorted(names):
            if n.endswith(ending):
                yield os.path.join(folder, n)


def read(p):
    with open(p, encoding="utf-8") as f:
        return f.read()


def code(line):
    """The line without its comment."""
    i = line.find("--")
    while i > 0 and not line[i - 1].isspace():
        i = line.find("--", i + 2)
    return (line, "") if i < 0 else (line[:i], line[i:])


def by_tie(line):
    """A statement that Rattle makes of a function's proof: its name is not ours."""
    return re.search(r":\s*tie\.(Need|invariant|decreases|InvT|MeasureT)", line) is not None


def defined():
    """Our names: those that stand at the head of a definition, a field or a constructor; and which of them are no lemmas."""
    ours, functions = set(), set()
    for p in files(".antt"):
        for line in read(p).splitlines():
            body, _ = code(line)
            if by_tie(body):
                continue
            m = DEFINED.match(body)
            if not m or body.lstrip().startswith(("use ", "let ", "module ", "(")):
                continue
            name = m.group(3)
            ours.add(name)
            if "abbrev" in m.group(2) or "unfoldable" in m.group(2) or re.search(r"[a-z][A-Z]", name):
                if "/specs/" in p or "abbrev" in m.group(2) or "unfoldable" in m.group(2):
                    functions.add(name)
    return ours, functions


def imported():
    """Names that come from the kit, anywhere."""
    out = set()
    for p in files(".antt"):
        text = re.sub(r"(?m)--.*$", "", read(p))
        for m in re.finditer(r"(?m)^use ([^\s{]+?)\.?\{([^}]*)\}", text):
            if re.match(r"Rattle\.(?!std\b)", m.group(1)):
                continue
            out |= {w.strip().split(" as ")[0] for w in m.group(2).split(",")}
    return out


def snake(part):
    for old, new in OLD_WORDS.items():
        part = re.sub(rf"\b{old}\b", new, part)
    if not part or part[0].isupper():
        return part
    part = re.sub(r"([a-z0-9])([A-Z])", lambda m: m.group(1) + "_" + m.group(2), part)
    return re.sub(r"([A-Z])([A-Z][a-z])", lambda m: m.group(1) + "_" + m.group(2), part).lower()


def table():
    ours, functions = defined()
    theirs = imported()
    words = {snake(f) for f in functions} | set(LIBRARY)
    new = {}
    for name in sorted(ours):
        if name in theirs or name[0].isupper() and "-" not in name:
            continue
        if name in BY_HAND:
            new[name] = BY_HAND[name]
            continue
        parts = [snake(x) for x in name.split("-")]
        if re.fullmatch(r"\d+", parts[-1]) and len(parts) > 1:
            parts[-2:] = [parts[-2] + "_" + parts[-1]]
        # join parts that make one name together, longest first
        i, joined = 0, []
        while i < len(parts):
            for j in range(len(parts), i, -1):
                if "_".join(parts[i:j]) in words:
                    joined.append("_".join(parts[i:j]))
                    i = j
                    break
            else:
                joined.append(parts[i])
                i += 1
        dash = len(joined) > 1 and all(x in words for x in joined)
        to = ("-" if dash else "_").join(joined)
        if to != name:
            new[name] = to
    # a lemma that would have its function's name gets _lem (CONTRACT_STYLE.md)
    functions_to = {v for k, v in new.items() if re.search(r"[a-z0-9][A-Z]", k) and "-" not in k}
    functions_to |= {name for name in ours if name not in new and name in functions}
    for name in sorted(ours):
        to = new.get(name, name)
        if to in functions_to and name not in functions and not re.search(r"[a-z0-9][A-Z]", name) and name not in theirs and name not in BY_HAND:
            new[name] = to + "_lem"
    # of two lemmas that fall together, as one in proofs/ and a field in specs/, the one with a dash gets it
    for name in sorted(ours):
        if "-" in name and new.get(name) in ours and not new[name].endswith("_lem"):
            new[name] += "_lem"
    return new


def turn_words(text, new):
    def turn(m):
        to = new.get(m.group(0), m.group(0))
        # behind a dot stands a field, a module or a name that Rattle makes
        behind = text[m.start() - 1 : m.start()] == "."
        return to[:-4] if behind and to.endswith("_lem") else to

    return WORD.sub(turn, text)


def turn_antt(text, new):
    camel = {k: v for k, v in new.items() if "-" not in k}
    out = []
    for line in text.split("\n"):
        body, comment = code(line)
        body = turn_words(body, new)
        comment = re.sub(r"`[^`]*`", lambda m: turn_words(m.group(0), new), comment)
        out.append(body + turn_words(comment, camel))
    return "\n".join(out)


def turn_rt(text, new):
    """Only clauses and ghost lines: from `requires`, `ensures`, `ghost` on, to the line that ends the clause."""
    out, depth, inside = [], 0, False
    for line in text.split("\n"):
        bare = line.strip()
        starts = re.match(r"(pub )?(ghost|requires\*?|ensures\*?)\b", bare) is not None
        if starts or inside:
            body = line
            out.append(turn_words(body, {k: v for k, v in new.items() if not v.endswith("_lem")}))
            depth = depth + body.count("{") - body.count("}")
            inside = depth > 0
            if not inside:
                depth = 0
        elif bare.startswith("//"):
            camel = {k: v for k, v in new.items() if re.search(r"[a-z][A-Z]", k) and "-" not in k}
            out.append(turn_words(line, camel))
        else:
            out.append(line)
    return "\n".join(out)


def together(text, new):
    """Pairs of words of a file that would become one."""
    words = set()
    for line in text.splitlines():
        words |= set(WORD.findall(code(line)[0]))
    seen = {}
    for w in sorted(words):
        seen.setdefault(new.get(w, w), []).append(w)
    return [v for v in seen.values() if len(v) > 1]


def main():
    new = table()
    if "--list" in sys.argv:
        for k, v in sorted(new.items()):
            print(k, v)
    bad = 0
    for p in files(".antt"):
        for pair in together(read(p), new):
            bad += 1
            print(f"{os.path.relpath(p, ROOT)}: {', '.join(pair)} fall together as {new.get(pair[0], pair[0])}", file=sys.stderr)
    for p in files(".rt"):
        text = read(p)
        params = set(re.findall(r"\b([a-z_][a-z0-9_]*)\s*:(?!:)", text))
        used = {w for line in text.splitlines() for w in WORD.findall(line)}
        for w in sorted(used):
            if w in new and new[w] in params:
                bad += 1
                print(f"{os.path.relpath(p, ROOT)}: {w} becomes {new[w]}, which is a parameter or a field there", file=sys.stderr)
    if bad:
        print(f"{bad} names fall together", file=sys.stderr)
    if "--list" in sys.argv or (bad and "--anyway" not in sys.argv):
        return 1
    for ending, turn in ((".antt", turn_antt), (".rt", turn_rt)):
        for p in files(ending):
            text = read(p)
            to = turn(text, new)
            if to != text:
                with open(p, "w", encoding="utf-8") as f:
                    f.write(to)
    print(f"{len(new)} names respelled")
    return 0


if __name__ == "__main__":
    raise SystemExit(main())
