#!/usr/bin/env python3
"""Brings the names that this repository declares in specs/ to one spelling: functions, lemmas and fields in snake case, types as they were.

usage: python3 tools/respell.py        at the top of the repository, once, after port.py

A name from another library keeps its spelling in each file that imports it. Where a lemma would fall together with a definition it gets `_lem`.
Files of crates/ (sources, definitions, proofs, edits) are rewritten in place, and in the documents what stands in backticks.
"""
import os
import re
import subprocess

NAME = r"[^\s(){}\[\]:;,.@\"`|\\]+"
HEAD = re.compile(rf"^\s*((?:unfoldable |abbrev |pub |data |record )*)({NAME})((?: {NAME})*)\s*(?:[({{].*)?:(?!=)")
TOKEN = re.compile(r"[\w◌'′-]*[A-Za-z][\w◌'′-]*")
USE = re.compile(r"\buse ([\w.·-]+)\.\{([^}]*)\}")
WORDS = {"use", "mod", "let", "in", "module"}


def files(*ends):
    for folder, dirs, names in os.walk("crates"):
        dirs[:] = sorted(d for d in dirs if d != "out")
        for name in sorted(names):
            if name.endswith(ends):
                yield os.path.join(folder, name)


def read(path):
    with open(path, encoding="utf-8") as file:
        return file.read()


def declared():
    found = {}
    for path in files(".antt"):
        if "/specs/" not in path:
            continue
        for line in read(path).splitlines():
            head = None if line.lstrip().startswith("--") else HEAD.match(line)
            if head and head.group(2) not in WORDS:
                for name in [head.group(2), *head.group(3).split()]:
                    found.setdefault(name, set()).add(line.split(":")[0])
            rules = re.match(r"(?:pub )?ruleset (\S+)", line)
            if rules:
                found.setdefault(rules.group(1), set())
    return found


def snake(name):
    if name[0].isupper():
        return name
    plain = re.sub(r"getD(?=-|$)", "get_or", name).replace("-", "_").replace("′", "'")
    return re.sub(r"([a-z0-9])([A-Z])", lambda m: m.group(1) + "_" + m.group(2).lower(), plain)


def is_definition(heads):
    return any(re.search(r"\b(abbrev|unfoldable)\b", head) for head in heads)


def renaming(found):
    to = {}
    for name, heads in found.items():
        new = snake(name)
        if new != name or (name in found and any(snake(other) == name for other in found if other != name)):
            to[name] = new
    for new in {n for n in to.values() if sum(snake(x) == n for x in found) > 1}:
        for name in [n for n in found if snake(n) == new and not is_definition(found[n])]:
            to[name] = new + "_lem"
    return {old: new for old, new in to.items() if old != new}


def respelled(text, to, own):
    foreign = set()
    for module, names in USE.findall(text):
        crate = re.match(r"Rattle[.·](\w+)", module)
        if not (crate and crate.group(1) in own):
            foreign |= {n.strip().split(" as ")[0] for n in names.split(",")}
    return TOKEN.sub(lambda m: m.group(0) if m.group(0) in foreign else to.get(m.group(0), m.group(0)), text)


def main():
    own = {line.split(":")[0].split()[0] for line in read("crates.txt").splitlines() if line.strip() and line[0] != "#"}
    to = renaming(declared())
    for path in files(".antt", ".rt", ".edit"):
        text = read(path)
        new = respelled(text, to, own)
        if new != text:
            with open(path, "w", encoding="utf-8") as file:
                file.write(new)
    for crate in sorted(own):
        subprocess.run(["rt", "fmt"], cwd=os.path.join("crates", crate), check=True, stdout=subprocess.DEVNULL)
    pages = [os.path.join(d, f) for top in ("docs", ".") for d, _, fs in os.walk(top) for f in fs if f.endswith(".md") and (top == "docs" or d == ".")]
    for path in pages:
        text = read(path)
        new = re.sub(r"`[^`\n]*`", lambda m: TOKEN.sub(lambda n: to.get(n.group(0), n.group(0)), m.group(0)), text)
        if new != text:
            with open(path, "w", encoding="utf-8") as file:
                file.write(new)
    print(f"{len(to)} names")


if __name__ == "__main__":
    main()
