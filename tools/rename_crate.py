"""Gives a crate another name, in crates.txt, its folder, `use` lines and paths: usage: rename_crate.py OLD NEW"""

import os
import re
import subprocess
import sys

old, new = sys.argv[1:]
subprocess.run(["git", "mv", f"crates/{old}", f"crates/{new}"], check=True)
for folder, dirs, names in os.walk("crates"):
    dirs[:] = [d for d in dirs if d != "out"]
    for n in names:
        if n.endswith((".antt", ".rt", ".edit")):
            path = os.path.join(folder, n)
            text = open(path, encoding="utf-8").read()
            turned = re.sub(rf"\bRattle\.{old}\.", f"Rattle.{new}.", re.sub(rf"(?<!::)\b{old}::", f"{new}::", text))
            if turned != text:
                open(path, "w", encoding="utf-8").write(turned)
with open("crates.txt", encoding="utf-8") as f:
    lines = [re.sub(rf"(?<![\w]){old}(?![\w])", new, line) for line in f]
with open("crates.txt", "w", encoding="utf-8") as f:
    f.writelines(lines)
