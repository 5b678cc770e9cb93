#!/usr/bin/env python3
"""Brings the repository's own definitions and lemmas to one spelling.

usage: python3 tools/respell.py            from the top of the repository: rewrites crates/ in place
       python3 tools/respell.py --list     prints each old name with its new one, and rewrites nothing

Words and fields are in snake case, types and facts in camel case. In a lemma's name a dash joins two names, as in
length-drop; any other dash becomes an underscore. Names of src/, of goals and of the library are left alone.
"""

import collections
import os
import re
import sys

NAME = r"[^\s(){},;.`\"⟨⟩\[\]|]+"
DECLARED = re.compile(rf"^(abbrev pub |unfoldable pub |abbrev |unfoldable |pub data |data |pub record |record |pub )?({NAME})(?=[^\n]*?[:({{])")
FIELD = re.compile(rf"^\s+(?:pub )?({NAME}) : ")
CASE = re.compile(rf"^\s+(?:pub )?({NAME}) : ")
LIBRARY = set("""length take drop append map set sum replicate reverse cons nil get get_or fold filter insert
update zip min max cond not add mul sub pow""".split())
# New names that a script cannot choose, since two old ones would meet or a name of src/ is in the way.
CHOSEN = {"is-nan": "nan_alone"}


def files():
    for top, dirs, names in os.walk("crates"):
        dirs[:] = sorted(d for d in dirs if d not in ("out", "target"))
        for n in sorted(names):
            if n.endswith((".rt", ".antt")):
                yield os.path.join(top, n)


def read(path):
    with open(path, encoding="utf-8") as f:
        return f.read()


def goals(texts):
    found = set()
    for t in texts.values():
        found |= set(re.findall(rf"\bgoal\.({NAME})", t))
        for names in re.findall(r"\.Goals\.\{([^}]*)\}", t):
            found |= {n.strip() for n in names.split(",")}
    return found


def declared(texts):
    """Each own name with its kind: 'word', 'fact' or 'lemma'."""
    kinds = {}
    for path, t in texts.items():
        if not path.endswith(".antt"):
            continue
        within = None
        for line in t.splitlines():
            if not line.strip() or line.lstrip().startswith("--"):
                continue
            if line[0].isspace():
                m = FIELD.match(line)
                if m and within:
                    kinds.setdefault(m[1], "word")
                continue
            within = None
            if re.match(r"(use|mod|pub mod|unfolding|open|infix|syntax|ruleset)\b", line):
                continue
            m = re.match(rf"(abbrev pub|unfoldable pub|abbrev|unfoldable|pub data|data|pub record|record|pub)?\s*({NAME})\s*(?=[:({{])", line)
            if not m or m[2] in ("let", "elim"):
                continue
            head, name = m[1] or "", m[2]
            if head.endswith(("data", "record")):
                within = head
                kinds.setdefault(name, "fact")
            elif ":" not in line:
                continue
            elif "/specs/" in path or head.startswith(("abbrev", "unfoldable")):
                kinds.setdefault(name, "fact" if name[0].isupper() else "word")
            else:
                kinds.setdefault(name, "lemma")
    return kinds


def camel(name):
    parts = re.split("[-_]", name)
    return parts[0] + "".join(p[:1].upper() + p[1:] for p in parts[1:])


def lemma(name, words, facts):
    """A dash stays where names stand on both sides of it."""
    parts = name.split("-")
    known = LIBRARY | words | facts | {w.replace("-", "_") for w in words}
    out = parts[0]
    for i in range(1, len(parts)):
        left = any("_".join(parts[k:i]) in known for k in range(i))
        right = any("_".join(parts[i:k]) in known for k in range(i + 1, len(parts) + 1))
        out += ("-" if left and right else "_") + parts[i]
    return out


def renames(texts):
    kinds = declared(texts)
    skip = goals(texts)
    words = {n for n, k in kinds.items() if k == "word"}
    facts = {n for n, k in kinds.items() if k == "fact"} | {camel(n) for n, k in kinds.items() if k == "fact"}
    new = {}
    for name, kind in kinds.items():
        dashed = "-" in name.strip("-") or kind == "fact" and "_" in name
        if not dashed or name in skip:
            continue
        if name in CHOSEN:
            new[name] = CHOSEN[name]
        elif name[0].isupper() and kind in ("fact", "word"):
            new[name] = camel(name)
        elif kind == "word":
            new[name] = name.replace("-", "_")
        else:
            new[name] = lemma(name, words, facts)
    return {a: b for a, b in new.items() if a != b}, kinds


def turned(text, path, new):
    """The text with whole names replaced, outside comments but inside backticks there."""
    mark = "//" if path.endswith(".rt") else "--"
    token = re.compile(NAME)

    def swap(t):
        return token.sub(lambda m: new.get(m[0], m[0]), t)

    out = []
    for line in text.split("\n"):
        at = 0 if line.lstrip().startswith(mark) else line.find(" " + mark + " ")
        if at < 0:
            out.append(swap(line))
        else:
            code, comment = line[:at], line[at:]
            out.append(swap(code) + re.sub(r"`[^`]*`", lambda m: swap(m[0]), comment))
    return "\n".join(out)


def main(argv):
    texts = {p: read(p) for p in files()}
    new, kinds = renames(texts)
    if "--list" in argv:
        for a in sorted(new):
            print(kinds[a], a, new[a])
        return 0
    back = collections.defaultdict(set)
    for a, b in new.items():
        back[b].add(a)
    for b, olds in sorted(back.items()):
        if len(olds) > 1:
            print(f"fall together: {', '.join(sorted(olds))} -> {b}")
    token = re.compile(NAME)
    for p, t in texts.items():
        here = set(token.findall(t))
        for a, b in new.items():
            if a in here and b in here:
                print(f"already there: {p}: {a} -> {b}")
        now = turned(t, p, new)
        if now != t:
            with open(p, "w", encoding="utf-8") as f:
                f.write(now)
    print(f"{len(new)} names respelled")
    return 0


if __name__ == "__main__":
    raise SystemExit(main(sys.argv[1:]))
