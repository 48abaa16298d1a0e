#!/usr/bin/env python3
"""Spells the repository's own definitions, fields and lemmas in snake case, in the texts below crates/: respell.py [FOLDER]

It is run once, at the top, on what port.py wrote. A name that the .antt files declare gets underscores for capitals within it and for dashes;
a dash beside a capital stays, since there it joins a type to a name (K-le). Two names that would fall together: the lemma's gets _lem. Names
that a file takes from a library stay as they are in it, and so do those that only a Proof.antt declares, the labels of its goals. In sources
the clauses and imports are turned, in must-fail edits the same of each line, in comments what stands in backticks. names.tsv beside this
script is written anew: each old name with the new one, for pages that name them. As it stands there it also has the names that port.py turned
before, and the few that were mended behind it (docs/PORT.md).
"""

import collections
import glob
import os
import re
import sys

NAME = r"[^\s(){}.;,@\"«»\[\]`|]+"
TOKEN = re.compile(NAME)
DECLARED = re.compile(r"^ *(?:(?:abbrev|unfoldable|pub|private|instance) +)*([^\s(){}.;,@\"«»:]+)(?: \{[^{}\n]*\}| \([^()\n]*\))* :(?=\s|$)")
COMMENT = re.compile(r"(?m)(?:^|(?<=\s))--(?=[\s-]|$).*$")
USE = re.compile(r"(?m)^(?: *)(?:ghost )?use ([^\s;{]+)\.\{([^}]*)\}")
# Of a lemma and a definition that would have one name in one file, where the lemma's is in snake case already.
LEMMAS = {
    "neighbours": ["from_zero"],
    "listing": ["numbers_fit"],
    "kernel": ["reach_of"],
    "claims": ["by_count"],
    "stepping": ["close_at"],
}


def snake(name):
    first, *rest = name.split("-")
    out = words(first)
    for part in rest:
        joined = out[-1:].isupper() or part[:1].isupper() or re.search(r"(^|[-_])[A-Z]\w*$", out)
        out += ("-" if joined else "_") + words(part)
    return out


def words(part):
    if part[:1].isupper():
        return part
    return re.sub(r"(?<=[a-z0-9])[A-Z](?![A-Z])", lambda m: "_" + m[0].lower(), part)


def texts(pattern):
    return sorted(p for p in glob.glob(f"crates/*/{pattern}", recursive=True) if "/out/" not in p)


def read(path):
    with open(path, encoding="utf-8") as f:
        return f.read()


def crate(path):
    return path.split("/")[1]


def own(module):
    steps = module.split(".")
    return steps[0] == "Rattle" and len(steps) > 1 and os.path.isdir(os.path.join("crates", steps[1]))


def table():
    declared, tokens = collections.defaultdict(set), {}
    for p in texts("**/*.antt"):
        bare = COMMENT.sub("", read(p))
        tokens[p] = set(TOKEN.findall(bare))
        for line in bare.split("\n"):
            m = DECLARED.match(line)
            if m and not m[1].startswith("λ"):
                declared[m[1]].add(p)
    turned = {n: snake(n) for n, where in declared.items() if not all(p.endswith("/Proof.antt") for p in where) and snake(n) != n}
    by_new = collections.defaultdict(set)
    for n, s in turned.items():
        by_new[s].add(n)
    for s, olds in by_new.items():
        met = [p for p in tokens if len((olds | {s}) & tokens[p]) > 1]
        if len(olds) > 1 or (declared.get(s) and met):
            for n in olds:
                if "-" in n:
                    turned[n] = s + "_lem"
    return turned


def taken(text):
    """The names that a file takes from libraries."""
    names = set()
    for module, listed in USE.findall(text):
        if not own(module):
            names |= {n.split(" as ")[0].strip() for n in listed.split(",")}
    return names


def turn(text, turned, keep, lemmas):
    def one(m):
        n = m[0]
        if n in keep:
            return n
        if n in lemmas:
            return n + "_lem"
        return turned.get(n, n)

    return TOKEN.sub(one, text)


def turn_antt(path, turned):
    text = read(path)
    keep = taken(text)
    lemmas = LEMMAS.get(crate(path), [])
    lemmas = [] if path.endswith("/Proof.antt") and crate(path) != "claims" else lemmas
    out, last = [], 0
    for m in COMMENT.finditer(text):
        out.append(turn(text[last : m.start()], turned, keep, lemmas))
        out.append(re.sub(r"`[^`]*`", lambda t: turn(t[0], turned, keep, lemmas), m[0]))
        last = m.end()
    out.append(turn(text[last:], turned, keep, lemmas))
    return "".join(out)


CAMEL = re.compile(r"(?<![\w.\"'])[a-z]\w*[A-Z]\w*")
STRING = re.compile(r"b?\"(?:[^\"\\]|\\.)*\"")


def turn_source(path, turned):
    """Clauses and imports: Rust's own names have no capitals within them, so that a name with one is a definition's."""
    out = []
    for line in read(path).split("\n"):
        code, comment = (line, "") if "//" not in STRING.sub("", line) else line.split("//", 1)
        if re.match(r"\s*ghost use ", code):
            code = turn(code, turned, set(), [])
        else:
            code = re.sub(r"(?<![\w\"'])[a-z]\w*[A-Z]\w*", lambda m: turned.get(m[0], m[0]), code)
        if comment or line != code and "//" in line and code == line.split("//", 1)[0]:
            comment = "//" + re.sub(r"`[^`]*`", lambda t: turn(t[0], turned, set(), []), comment)
        out.append(code + comment)
    return "\n".join(out)


def turn_edit(path, turned):
    out, antt = [], False
    for line in read(path).split("\n"):
        if line.startswith("file: "):
            antt = line.endswith(".antt")
        elif line.startswith(("old: ", "new: ")):
            head, rest = line[:5], line[5:]
            if antt:
                line = head + turn(rest, turned, set(), [])
            else:
                line = head + re.sub(r"(?<![\w\"'])[a-z]\w*[A-Z]\w*", lambda m: turned.get(m[0], m[0]), rest)
        out.append(line)
    return "\n".join(out)


def write(path, text):
    if text != read(path):
        with open(path, "w", encoding="utf-8") as f:
            f.write(text)


def main():
    os.chdir(sys.argv[1] if len(sys.argv) > 1 else ".")
    turned = table()
    here = os.path.dirname(os.path.realpath(__file__))
    # All is worked out before anything is written, since what a file declares is read of all of them.
    done = [(p, turn_antt(p, turned)) for p in texts("**/*.antt")]
    done += [(p, turn_source(p, turned)) for p in texts("src/*.rt")]
    done += [(p, turn_edit(p, turned)) for p in texts("must-fail/*.edit")]
    for p, text in done:
        write(p, text)
    with open(os.path.join(here, "names.tsv"), "w", encoding="utf-8") as f:
        f.writelines(f"{n}\t{s}\n" for n, s in sorted(turned.items()))
    print(f"respell: {len(turned)} names")


main()
