"""Brings the names of this repository's definitions and lemmas to snake case, and its types to camel case: usage: respell.py [--list]

A name counts where a file of specs/, or a file of lemmas in proofs/, declares it: a definition, a lemma, a field, a constructor, a parameter
or a local name. A dash stays where it joins the names of two definitions, as in length-take. Names of src/, of the library, and names
that the check makes (those declared in a function's folder of proofs/) stay as they are. No string of the repository holds such a name.
"""

import collections
import os
import re
import sys

NAME = r"[A-Za-z][\w'≤<≡+*ℕℤ]*(?:-[\w'≤<≡+*ℕℤ]+)*"
TOKEN = re.compile(r"(?<![\w'-])" + NAME + r"(?![\w'-])")
DECLARED = re.compile(r"^\s*(?:(?:abbrev|unfoldable|opaque|pub|data|record)\s+)*(" + NAME + r")(?:\s+[({].*?)?\s*(?::\s|:$)")
PARAMETERS = re.compile(r"[({]((?:" + NAME + r"\s+)*" + NAME + r")\s*:\s")
LOCAL = re.compile(r"\blet\s+(" + NAME + r")\s*[:=]|\blet\s+\(([^()]*)\)\s*=|λ\s+((?:" + NAME + r"\s*)+)\.")
WORDS = "length take drop map replicate sum min All append slice_index reverse zip filter mem cond".split()


def files(root):
    for folder, dirs, names in os.walk(os.path.join(root, "crates")):
        dirs[:] = sorted(d for d in dirs if d != "out")
        for n in sorted(names):
            if n.endswith((".antt", ".rt")):
                yield os.path.join(folder, n)


def of_lemmas(path):
    """Whether a file holds definitions or lemmas, and not the proof of one function."""
    parts = path.split(os.sep)
    return path.endswith(".antt") and (parts[-2] in ("specs", "proofs"))


def code(line):
    return re.sub(r"(^|\s)--(\s.*)?$", "", line)


def declared(root):
    names, tops, types = set(), set(), set()
    for p in files(root):
        if not p.endswith(".antt"):
            continue
        for line in open(p, encoding="utf-8"):
            line = code(line)
            if re.match(r"\s*(pub\s+)?(use|mod)\b", line):
                continue
            own = of_lemmas(p)
            found = set()
            if own and (m := DECLARED.match(line)):
                found.add(m[1])
                tops.add(m[1])
                if re.search(r"\b(record|data)\s+" + re.escape(m[1]), line) or re.search(r"→ Type 0\s*$|: Type 0\s*$|where\s*$", line):
                    types.add(m[1])
            if own and (m := re.match(r"\s*(" + NAME + r"\s[^=:λ]*?)\s=(\s|$)", line)) and not line.lstrip().startswith(("let ", "pub ")):
                found |= set(re.findall(NAME, m[1]))
            for m in PARAMETERS.finditer(line):
                found |= set(m[1].split())
            for m in LOCAL.finditer(line):
                if m[1]:
                    found.add(m[1])
                elif m[2]:
                    found |= set(re.findall(NAME, m[2]))
                elif m[3]:
                    found |= set(m[3].split())
            names |= found
    return names, tops, types


def imported(root):
    """Names that a file takes from the library."""
    out = set()
    for p in files(root):
        for m in re.finditer(r"use (Rattle\.std\.[\w.'+-]*|borrow\.[\w.]*|native\.[\w.]*)\.\{([^}]*)\}", open(p, encoding="utf-8").read()):
            out |= {w.split(" as ")[0].strip() for w in m[2].split(",")}
    return out


def made(root):
    """Names of goals: what the files of a function's folder declare, or fields of the records there."""
    out = set()
    for p in files(root):
        if p.endswith(".antt") and not of_lemmas(p):
            for line in open(p, encoding="utf-8"):
                if m := DECLARED.match(code(line)):
                    out.add(m[1])
    return out


def snake(word):
    return re.sub(r"(?<=[a-z])([A-Z])", lambda m: "_" + m[1].lower(), word.replace("getD", "get_or"))


def camel(name):
    return "".join(w[:1].upper() + w[1:] for w in re.split(r"[-_]", name))


def respelled(name, types, definitions):
    if name in types or (name[0].isupper() and "-" in name and name in definitions):
        return camel(name)
    parts = [p if p[0].isupper() else snake(p) for p in name.split("-")]
    if len(parts) == 2 and name not in definitions and all(p in definitions for p in parts):
        return "-".join(parts)
    return "_".join(parts)


def main(argv):
    root = "."
    names, tops, types = declared(root)
    library, goals = imported(root), made(root)
    definitions = set(WORDS)
    for p in files(root):
        if p.endswith(".antt") and os.sep + "specs" + os.sep in p:
            for line in open(p, encoding="utf-8"):
                if re.match(r"\s*(abbrev|unfoldable|pub record|pub data)\b|  pub ", line) and (m := DECLARED.match(code(line))):
                    definitions.add(m[1])
    definitions |= {snake(d.replace("-", "_")) for d in definitions}
    turn = {}
    for n in sorted(names):
        if n in library or n in goals:
            continue
        new = respelled(n, types, definitions)
        if new != n:
            turn[n] = new
    words = collections.Counter()
    for p in files(root):
        words.update(TOKEN.findall(open(p, encoding="utf-8").read()))
    back = collections.defaultdict(set)
    for n, new in turn.items():
        back[new].add(n)
    for new, olds in sorted(back.items()):
        if len(olds) > 1 or new in words:
            print("falls together:", new, sorted(olds), words.get(new, 0))
    if "--list" in argv:
        for n, new in sorted(turn.items()):
            print(n, "->", new)
        return
    for p in files(root):
        old = open(p, encoding="utf-8").read()
        if p.endswith(".antt"):
            new = "\n".join(line if line.lstrip().startswith("-- ") else TOKEN.sub(lambda m: turn.get(m[0], m[0]), line) for line in old.split("\n"))
        else:
            new = re.sub(r"[A-Za-z][\w']*(?:-[A-Za-z_][\w']*)+", lambda m: turn.get(m[0], m[0]), old)
        if new != old:
            open(p, "w", encoding="utf-8").write(new)
    print(len(turn), "names")


main(sys.argv[1:])
