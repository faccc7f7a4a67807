#!/usr/bin/env python3
"""Brings this repository's own names to today's spelling: words in snake case, types and modules in camel case.

usage: tools/port_names.py [--check]     at the top of the repository, once, after port.py

It goes through specs/, proofs/, the ghost lines and clauses of src/ and the edits that must fail. A name of Rattle's own
libraries keeps its dashes, and so does, in a function's folder of proofs/, a name that Rattle makes. --check writes nothing
and lists names that would fall together.
"""

import collections
import re
import subprocess
import sys

# What ends a name in antt.
NAME = re.compile(r"[^\s(){}\[\];,.:λ→×⊎«»\"|`]+")
DASHED = re.compile(r"\w-|-\w")
USE = re.compile(r"use\s+([\w.+'-]+)\.\{([^}]*)\}")
# Two names that would hide an item of the same file.
APART = {}


def files():
    listed = subprocess.run(["git", "ls-files", "crates"], capture_output=True, text=True, check=True).stdout.split()
    return [f for f in listed if f.endswith((".antt", ".rt", ".edit"))]


def of_function(path):
    """A file of a function's own folder below proofs/."""
    parts = path.split("/")
    return "proofs" in parts and len(parts) > 4


def is_dashed(name):
    return DASHED.search(name) is not None and not set(name) <= set("-") and "◌" not in name


def spelled(name):
    if name in APART:
        return APART[name]
    letters = [c for c in name if c.isalpha()]
    if name[0].isupper() and not all(c.isupper() for c in letters):
        return "".join(part[0].upper() + part[1:] for part in name.split("-") if part)
    return name.replace("-", "_")


COMMENT = {".antt": r"(?m)(?:^|(?<=\s))--(?=\s|$).*", ".rt": r"(?m)(?:^|(?<=\s))//(?=\s|$).*", ".edit": r"(?m)^#.*"}


def blank(m):
    return " " * len(m.group())


def code(path, text):
    """The text with blanks for what stays: the words of comments, but for names between backticks, and Rattle's strings."""
    ending = path[path.rindex(".") :]
    text = re.sub(COMMENT[ending], lambda m: spare(m.group()), text)
    if ending == ".rt":
        return re.sub(r'"(?:\\.|[^"\\])*"', blank, text)
    return text


def spare(comment):
    """A comment of which only the names between backticks are left."""
    parts = comment.split("`")
    return "`".join(p if i % 2 else " " * len(p) for i, p in enumerate(parts))


def main(argv):
    check = "--check" in argv
    crates = {f.split("/")[1] for f in files()}
    texts = {f: open(f, encoding="utf-8").read() for f in files()}
    library = set()
    for f, t in texts.items():
        for path, names in USE.findall(t):
            parts = path.split(".")
            if not (parts[0] == "Rattle" and len(parts) > 1 and parts[1] in crates):
                library |= {n.split(" as ")[0].strip() for n in names.split(",")}
    own = set()
    for f, t in texts.items():
        if not of_function(f):
            own |= {m.group() for m in NAME.finditer(code(f, t)) if is_dashed(m.group())}
    own -= library
    seen = collections.defaultdict(set)
    for name in own:
        seen[spelled(name)].add(name)
    for new, olds in sorted(seen.items()):
        if len(olds) > 1:
            print("together:", new, sorted(olds))
    for f, t in texts.items():
        masked = code(f, t)
        here = {m.group() for m in NAME.finditer(re.sub(r"--.*|//.*", "", masked))}
        if check:
            for name in sorted(here & own):
                if spelled(name) in here:
                    print(f"{f}: {name} becomes {spelled(name)}, which stands there already")
        out, at = [], 0
        for m in NAME.finditer(masked):
            if m.group() in own and is_dashed(m.group()):
                out += [t[at : m.start()], spelled(m.group())]
                at = m.end()
        new = "".join(out) + t[at:]
        if new != t and not check:
            with open(f, "w", encoding="utf-8") as it:
                it.write(new)
    return 0


if __name__ == "__main__":
    raise SystemExit(main(sys.argv[1:]))
