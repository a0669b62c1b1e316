#!/usr/bin/env python3
"""Spells the repository's own definitions and lemmas as today's Rattle does: words in snake case.

usage: tools/respell.py [--list]     at the top, once, after port.py; --list only prints old and new names

A name that an .antt file of specs/ or proofs/ declares, with a capital inside or with a dash, gets plain underscores,
as port.py gives them to those that it knows.
Names of functions of src/, of fields and parameters there, of modules and of types stay. A name that would fall
together with another one, in a file where both stand, gets the ending '_of', or '_lem' if
it is a lemma's, and is printed.
"""
import glob
import os
import re
import sys

WORD = re.compile(r"[^\s(){}.;,@\"«»\[\]`']+'*")
DECLARED = re.compile(
    r"(?m)^[ \t]*(?:(?:pub|abbrev|unfoldable|pattern|let) )*([^\s(){}.;,@\"]+)((?: [^\s(){}.;,@\":]+)*)(?: \{[^{}\n]*\})* : (.*)$"
)
ALSO = re.compile(r"(?:\blet |\| )([a-z][A-Za-z0-9'-]*[A-Z-][A-Za-z0-9'-]*) (?:=|:)")
MODULE = re.compile(r"(?m)^(?:pub )?mod (\S+)")
USED = re.compile(r"\buse ([^\s;{]+)\.\{([^}]*)\}")


def files(ends):
    out = []
    for e in ends:
        out += glob.glob(f"crates/*/{e}", recursive=True)
    return sorted(f for f in out if "/out/" not in f)


def read(p):
    with open(p, encoding="utf-8") as f:
        return f.read()


# Names that Prelude.antt lent under a type's name, which today's spelling has no dot for.
LENT = {"List·getD-append": "get_or-append", "List·getD-eq-default": "get_or-eq_default", "List·getD-map": "get_or-map",
        "Bool·beq": "bool_beq", "Ordering·eq": "ordering_eq", "Ordering·gt": "ordering_gt", "Ordering·lt": "ordering_lt"}


def snake(name):
    name = name.replace("getD", "get_or")
    return re.sub(r"(?<=[a-z0-9])[A-Z]", lambda m: "_" + m[0].lower(), name)


def is_own(path):
    return path.startswith("Rattle.") and not re.match(r"Rattle\.(std|core|io|os|libc|std_\w+)\b", path)


def main():
    antt = files(["specs/**/*.antt", "proofs/**/*.antt"])
    rt = files(["src/**/*.rt"])
    texts = {p: read(p) for p in antt + rt}
    declared = set()
    for p in antt:
        for m in DECLARED.finditer(texts[p]):
            if m[3].startswith("tie."):
                continue
            for name in [m[1], *m[2].split()]:
                declared.add(name)
        declared.update(m[1] for m in ALSO.finditer(texts[p]))
    kit = set()
    for p in texts:
        for m in USED.finditer(texts[p]):
            if not is_own(m[1]):
                for it in m[2].split(","):
                    kit.update(w.strip() for w in it.split(" as "))
    functions = set()
    for p in rt:
        functions.update(re.findall(r"\bfn (\w+)", texts[p]))
    new = {}
    for n in sorted(declared, key=lambda n: ("-" in n, n)):
        if n in kit or not re.fullmatch(r"[a-zμ][\w₀-₉'·-]*", n) or not re.search(r"-|[a-z0-9][A-Z]", n):
            continue
        if re.match(r"(invariant|decreases)-|returns-\d|loop-", n) or n.startswith("-") or n.endswith("-"):
            continue
        out = snake(n).replace("-", "_").replace("·", "_")
        if out != n:
            new[n] = out
    # what would fall together: two old names, or a new name and a word that stands in a file beside the old one
    bare = re.compile(r"(?<![\w.'-])[^\s(){}.;,@\"«»\[\]`]+(?![\w.'-])")
    words = {}
    for p, t in texts.items():
        if p.endswith(".rt"):
            words[p] = set(re.findall(r"\b(\w+): ", t)) | {w for m in re.finditer(r"ghost use [^;]*;", t) for w in WORD.findall(m[0])}
        else:
            code = re.sub(r"--[^\n]*", "", t)
            uses = {w.strip() for m in USED.finditer(code) for it in m[2].split(",") for w in it.split(" as ")}
            words[p] = set(bare.findall(re.sub(r"(?m)^(?:pub )?use .*$", "", code))) | uses
    seen, ended = {}, []
    for n in list(new):
        ways = [new[n], new[n] + "_lem", n] if "-" in n else [new[n], new[n] + "_of", n]
        for way in ways:
            clash = way in seen or way in kit or (way in declared and way != n)
            clash = clash or any(n in ws and way in ws and way != n for ws in words.values())
            if not clash:
                break
        if way != new[n]:
            ended.append((n, new[n], way))
        new[n] = way
        seen[way] = n
    new = {a: b for a, b in new.items() if a != b} | LENT
    for n, was, way in ended:
        print(f"together: {n}: {was} -> {way}")
    if "--list" in sys.argv:
        for a, b in new.items():
            print(f"{a}\t{b}")
        return 0
    pattern = re.compile(r"(?<![\w'₀-₉·-])(" + "|".join(sorted(map(re.escape, new), key=len, reverse=True)) + r")(?![\w'₀-₉·-])")
    edits = files(["must-fail/*.edit"])
    docs = [p for p in ["README.md", "CONTRIBUTING.md", *glob.glob("docs/*.md")]]

    def respell(text):
        text = pattern.sub(lambda m: new[m[1]], text)
        return re.sub(r"([{, ])(get_or-\w+) as \2(?=[,}])", r"\1\2", text)

    def in_rt(text):
        out, depth, at = [], 0, 0
        # clauses, ghost uses and the code spans of comments alone
        for m in re.finditer(r"(?s)ghost use [^;]*;|(?:requires|ensures)\*?\s*(?:\w+\s*)?\{|//[^\n]*", text):
            if m.start() < at:
                continue
            out.append(text[at : m.start()])
            if m[0].endswith("{") and not m[0].startswith("//"):
                end, depth = m.end(), 1
                while depth:
                    depth += {"{": 1, "}": -1}.get(text[end], 0)
                    end += 1
                out.append(respell(text[m.start() : end]))
                at = end
            elif m[0].startswith("//"):
                out.append(re.sub(r"`[^`\n]*`", lambda s: respell(s[0]), m[0]))
                at = m.end()
            else:
                out.append(respell(m[0]))
                at = m.end()
        out.append(text[at:])
        return "".join(out)

    for p in antt + rt + edits + docs:
        t = read(p)
        if p.endswith(".rt"):
            u = in_rt(t)
        elif p.endswith(".md"):
            u = re.sub(r"`[^`\n]*`", lambda s: respell(s[0]), t)
        elif p.endswith(".edit"):
            u = respell(t) if re.search(r"(?m)^file: (specs|proofs)/", t) or re.search(r"ensures|requires", t) else t
        else:
            u = respell(t)
        if u != t:
            with open(p, "w", encoding="utf-8") as f:
                f.write(u)
    print(f"respell: {len(new)} names")
    return 0


if __name__ == "__main__":
    sys.exit(main())
