#!/usr/bin/env python3
"""Brings this repository's own names in specs/, proofs/ and clauses to one spelling: words in snake case, types in upper
camel case. It was run once, right after the kit's script, when the repository came to rattle-kit-13f.

usage: python3 tools/respell.py            at the top of the repository; rewrites crates/*/specs, proofs and src in place
       python3 tools/respell.py --list     prints the old and the new names, and writes nothing

Names of Rattle's own making (goals, steps, labels of loops) and names of std keep their spelling, and so do functions of
src/, comments, strings, inputs and outputs.
"""

import glob
import re
import sys

WORD = r"[^\s(){}\[\];.,:λ→×≡\"«»⟦⟧|=]+"
MADE = re.compile(r"^(returns|loop-|decreases-|invariant-|overflow|bounds-|nonzero|in-[A-Z]|if-|the-|ghosts-)|-(requires|init|preserved|smaller)$")
HYPHEN = re.compile(r"[A-Za-z0-9_'′]-[A-Za-z0-9]")
# Two definitions would take the name of a Rust function beside them, and say now what they are.
OWN = {"next-in": "next_link", "has-index": "bears_index"}


def texts(ending):
    return sorted(p for p in glob.glob("crates/**/*" + ending, recursive=True) if "/out/" not in p)


def code_of(line):
    """An antt line without its comment."""
    if line.lstrip().startswith("--"):
        return ""
    return re.split(r"\s--\s", line)[0]


def declared():
    names, std = set(), set()
    for p in texts(".antt"):
        with open(p, encoding="utf-8") as f:
            text = "\n".join(code_of(line) for line in f.read().split("\n"))
        for m in re.finditer(r"^use (\S+?)\.\{([^}]*)\}", text, re.M):
            for item in m.group(2).split(","):
                item = item.strip()
                if " as " in item:
                    names.add(item.split(" as ")[1])
                elif m.group(1).startswith("Rattle.std."):
                    std.add(item)
        for m in re.finditer(r"(?:^|[({;]|\blet\b|\bpub\b|\babbrev\b|\bunfoldable\b)\s*((?:%s\s+)+):\s" % WORD, text, re.M):
            names.update(m.group(1).split())
        for m in re.finditer(r"\blet\s+(%s)\s+=" % WORD, text):
            names.add(m.group(1))
        for m in re.finditer(r"\b(?:data|record)\s+(%s)\s" % WORD, text):
            names.add(m.group(1))
        for m in re.finditer(r"λ\s+([^.]*)\.\s", text):
            names.update(re.findall(WORD, m.group(1)))
    for p in texts(".rt"):
        with open(p, encoding="utf-8") as f:
            for m in re.finditer(r"^\s*ghost use (\S+?)\.\{([^}]*)\};", f.read(), re.M):
                for item in m.group(2).split(","):
                    item = item.strip()
                    if " as " in item:
                        names.add(item.split(" as ")[1])
    both = sorted(n for n in names & std if HYPHEN.search(n))
    if both:
        sys.exit(f"respell: names of ours that std has too: {both}")
    return {n for n in names if HYPHEN.search(n) and not MADE.search(n)}


def respelt(name):
    if name in OWN:
        return OWN[name]
    name = name.replace("′", "'")
    if name[0].isupper():
        return "".join(part[:1].upper() + part[1:] for part in name.split("-"))
    return name.replace("-", "_")


def turn(text, names):
    return re.sub(WORD, lambda m: names.get(m.group(0), m.group(0)), text)


def turned_antt(text, names):
    lines = []
    for line in text.split("\n"):
        code = code_of(line)
        parts = re.split(r'("[^"]*")', code)
        lines.append("".join(part if i % 2 else turn(part, names) for i, part in enumerate(parts)) + line[len(code):])
    return "\n".join(lines)


def turned_rt(text, names):
    parts = re.split(r'(//[^\n]*|"(?:\\.|[^"\\])*")', text)
    return "".join(part if i % 2 else turn(part, names) for i, part in enumerate(parts))


def main():
    names = {n: respelt(n) for n in declared()}
    taken = {}
    for old, new in sorted(names.items()):
        if new in taken:
            sys.exit(f"respell: {old} and {taken[new]} fall together as {new}")
        taken[new] = old
    for p in texts(".antt"):
        with open(p, encoding="utf-8") as f:
            for m in re.finditer(r"^\s*(?:abbrev |unfoldable |pub )*(%s) :" % WORD, f.read(), re.M):
                if m.group(1) in taken:
                    sys.exit(f"respell: {p} has {m.group(1)}, and {taken[m.group(1)]} becomes that too")
    if "--list" in sys.argv:
        for old, new in sorted(names.items()):
            print(old, new)
        return
    for ending, turned in ((".antt", turned_antt), (".rt", turned_rt)):
        for p in texts(ending):
            with open(p, encoding="utf-8") as f:
                text = f.read()
            new = turned(text, names)
            if new != text:
                with open(p, "w", encoding="utf-8") as f:
                    f.write(new)


main()
