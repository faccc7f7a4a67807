#!/usr/bin/env python3
"""Turns proofs that went through the code step by step into today's invariants and answers.

usage: tools/port_proofs.py NAMES [CRATE..]     at the top; NAMES is the folder that `rt names NAMES` wrote

Each proofs/F/Proof.antt of the older form becomes Invariants.antt (what the author chose for loops) and Answers.antt (what the
check does not find alone). A path that walked back by `.before` becomes the step's own field. What can't be turned is printed.
"""

import json
import os
import re
import sys

PATH = re.compile(r"(?<![\w.'-])c((?:\.before)*)((?:\.[\w'-]+)*)")


def norm(name):
    return name.replace("-", "_")


class Function:
    def __init__(self, names):
        self.names = names
        self.places = {}
        self.index = {}
        for i, (old, parent, step, callee, _) in enumerate(names["places"]):
            self.places[norm(old)] = (norm(parent) if parent else None, step, i)
        self.needs = {}
        for (old, new), (at, _) in zip(names["needs"], names["asked_at"]):
            self.needs[norm(old)] = (new, norm(at))

    def node(self, place, up):
        for _ in range(up):
            parent = self.places[place][0]
            if parent is None:
                return None
            place = parent
        return place

    def path(self, place, m, said):
        up, rest = m.group(1).count(".before"), [r for r in m.group(2).split(".") if r]
        if not rest:
            if up:
                said.append(f"bare {m.group()}")
            return m.group()
        node = self.node(place, up)
        if rest[0] in ("args", "requires"):
            return ".".join(["c", *rest])
        chain, walk = [], place
        while walk is not None:
            chain.append(walk)
            walk = self.places[walk][0]
        if node is None:
            node = chain[-1]
        if norm(self.places[node][1][0]) != norm(rest[0]):
            # The older form had steps that are gone: the nearest step of that name.
            at = chain.index(node)
            for far in sorted(range(len(chain)), key=lambda k: (abs(k - at), k)):
                if norm(self.places[chain[far]][1][0]) == norm(rest[0]):
                    said.append(f"nearest, {far - at}: {m.group()} -> {self.places[chain[far]][1][1]}")
                    node = chain[far]
                    break
        _, (old, new), i = self.places[node]
        first = rest[0]
        if norm(old) == norm(first) and old:
            arm = self.names["arms"][i]
            if arm:
                name, _, fields = arm
                for field, step, path in fields:
                    if norm(step) == norm(first) and path and rest[1 : 1 + len(path)] == path:
                        return ".".join(["c", name, field, *rest[1 + len(path) :]])
                if len(rest) > 1 and rest[1].startswith("keys"):
                    # What the arm before it took.
                    keys1 = self.places.get(norm(f"At-{rest[0]}-keys1"))
                    took = self.names["arms"][keys1[2]][0] if keys1 and rest[1] == "keys2" else "?-?"
                    if took == "?-?":
                        said.append(f"keys: {m.group()} of {name}")
                    return ".".join(["c", name, "not-" + took.split("-")[1], *rest[2:]])
            if len(rest) > 1 and rest[1] == "given":
                j = self.places[place][2]
                for var, step in self.names["typed"][j]:
                    if norm(step) == norm(first):
                        return ".".join(["c", "type_inv", var, *rest[2:]])
                for k in range(len(self.names["typed"])):
                    for var, step in self.names["typed"][k]:
                        if norm(step) == norm(first):
                            said.append(f"given: {m.group()} -> type_inv.{var}?")
                            return ".".join(["c", "type_inv", var, *rest[2:]])
                said.append(f"given: {m.group()}")
            return ".".join(["c", new, *rest[1:]])
        if self.places[node][0] is None and first in ("args", "requires", "ranges", "lifetimes", "type_inv", "well_formed"):
            return ".".join(["c", *rest])
        said.append(f"no step: {m.group()} at {node} (has {old})")
        return ".".join(["c", *rest])


def blocks(text):
    """The head (comment and use lines) and the blocks, each a list of lines that begins with a signature."""
    head, found, comments = [], [], []
    lines = text.split("\n")
    i = 0
    while i < len(lines):
        l = lines[i]
        if l.startswith(("use ", "open ")):
            head.append(l)
            # a use of several lines
            while l.count("{") > l.count("}") and i + 1 < len(lines):
                i += 1
                head[-1] += "\n" + lines[i]
                l = head[-1]
        elif l.startswith("--"):
            comments.append(l)
        elif not l.strip():
            pass
        elif (l[0].isspace() or l.strip() in (")", "}")) and found:
            found[-1][1].append(l)
        else:
            found.append((comments, [l]))
            comments = []
        i += 1
        if not found and comments and i < len(lines) and lines[i].startswith("use "):
            head += comments
            comments = []
    return head, found, comments


def merge(found):
    """One entry a declaration: its comments, the signature with unfolding lines, the equations."""
    out = []
    for comments, lines in found:
        m = re.match(r"(?:(?:abbrev|pub|unfoldable)\s+)*([^\s:]+)\s*:(?:\s|$)", lines[0])
        if m and not lines[0].startswith("unfolding"):
            out.append([comments, m.group(1), lines, [], []])
        elif lines[0].startswith("unfolding"):
            out[-1][3] += lines
        elif out and lines[0].split()[0] == out[-1][1]:
            out[-1][4].append(lines)
            out[-1][0] += comments
        else:
            out.append([comments, None, lines, [], []])
    return out


def imports(head, body):
    out = []
    for h in head:
        if not h.startswith("use "):
            continue
        if re.search(r"\.(Statement|Tie)(\.|\s)", h):
            continue
        m = re.match(r"use ([^{]+)\.\{(.*)\}\s*$", h, re.S)
        if not m:
            m2 = re.match(r"use (\S+)(?: as (\S+))?$", h)
            word = m2.group(2) or m2.group(1).split(".")[-1]
            if re.search(rf"(?<![\w'-]){re.escape(word)}\.", body):
                out.append(h)
            continue
        keep = []
        for n in m.group(2).split(","):
            n = n.strip()
            if not n:
                continue
            word = n.split(" as ")[-1].strip()
            if "◌" in word:
                parts = [p for p in word.split("◌") if p]
                if all(p in body for p in parts):
                    keep.append(n)
            elif re.search(rf"(?<![\w'.-]){re.escape(word)}(?![\w'-])", body):
                keep.append(n)
        if keep:
            out.append(f"use {m.group(1)}.{{{', '.join(keep)}}}")
    return out


def turn(path, module, names, write=True):
    said = []
    text = open(path, encoding="utf-8").read()
    if "+process" in path or "Tie.{close}" in text:
        # A recursion: its names come from Lts, and each answer takes the measure's value first.
        text = text.replace(": (t : ℕ) → lts.", ": tie.").replace(" : lts.", " : tie.")
    elif "Tie as tie" not in text:
        return ["not of the older form"]
    f = Function(names)
    head, found, _ = blocks(text)
    entries = merge(found)
    lead = [h for h in head if h.startswith("--")]
    loops = {norm(old): (new, vars_, changed) for ((old, new), vars_), changed in zip(names["loops"], names["changed"])} if names["loops"] else {}
    inv, ans = [], []
    for comments, name, sig, unfold, eqs in entries:
        whole = " ".join(" ".join(s.split()) for s in sig)
        if name is None:
            said.append(f"loose: {sig[0]}")
            ans += ["", *comments, *sig]
            continue
        if re.search(r"\bstatement M", whole) or name.endswith(("_spec", "-spec")):
            continue
        m = re.search(r"tie\.(invariant|decreases)-([\w'-]+)", whole)
        if m and re.fullmatch(r"(?:abbrev )?(?:pub )?\S+ : tie\.\S+", whole):
            kind, loop = m.group(1), m.group(2)
            if norm(loop) not in loops:
                said.append(f"no loop {loop}")
                continue
            new, vars_, changed = loops[norm(loop)]
            old_params = [v + "₀" if ch else v for v, ch in zip(vars_, changed)] + [v for v, ch in zip(vars_, changed) if ch]
            new_params = [f"l.initial.{v}" if ch else f"l.{v}" for v, ch in zip(vars_, changed)] + [f"l.{v}" for v, ch in zip(vars_, changed) if ch]
            lhs, _, body = "\n".join("\n".join(e) for e in eqs).partition("=")
            params = lhs.split()[1:]
            if len(params) != len(old_params):
                said.append(f"{name}: {params} for {old_params}")
                inv += ["", f"abbrev pub {kind}-{new} : goal.{kind}-{new}", f"-- {lhs}", f"{kind}-{new} l = {body.strip()}"]
                continue
            table = dict(zip(params, new_params))

            def sub(mm):
                w = mm.group()
                return table.get(w, w)

            body = re.sub(r"(?<![\w'.₀-])[A-Za-z_α-ω][\w'₀-]*", sub, body)
            inv += ["", *comments, f"abbrev pub {kind}-{new} : goal.{kind}-{new}", *unfold, f"{kind}-{new} l ={body}"]
            continue
        m = re.search(r"tie\.Need-([\w'-]+)", whole)
        if m and re.match(r"(?:pub )?\S+ : tie\.Need-", whole):
            need = m.group(1)
            keys = [norm(need)]
            if need.startswith("overflow-"):
                keys.append(norm(need[len("overflow-") :]))
            found_need = next((k for k in keys if k in f.needs), None)
            if found_need is None:
                body = "\n".join("\n".join(e) for e in eqs).partition("=")[2].strip()
                if body not in ("search rules",):
                    said.append(f"no need {need}: {body[:200]}")
                continue
            new, place = f.needs[found_need]
            lhs, _, body = "\n".join("\n".join(e) for e in eqs).partition("=")
            body = PATH.sub(lambda mm: f.path(place, mm, said), body)
            if body.strip() == "search rules" and not unfold:
                continue
            params = [p for p in lhs.split()[1:] if p != "κs"]
            ans += ["", *comments, f"pub {new} : goal.{new}", *unfold, f"{new} {' '.join(params)} ={body}"]
            continue
        said.append(f"helper {name}")
        ans += ["", *comments, *sig, *unfold, *["\n".join(e) for e in eqs]]
    folder = os.path.dirname(path)
    out = {}
    if inv:
        body = "\n".join(inv)
        out["Invariants.antt"] = "\n".join([*(lead if not ans else []), *imports(head, body), f"use {module}.Given as goal", body, ""])
    if ans:
        body = "\n".join(ans)
        out["Answers.antt"] = "\n".join([*lead, *imports(head, body), f"use {module}.Goals as goal", body, ""])
    elif lead and inv:
        pass
    if write:
        for n, t in out.items():
            with open(os.path.join(folder, n), "w", encoding="utf-8") as it:
                it.write(t)
        os.remove(path)
    return said


def main(argv):
    where, only = argv[0], argv[1:]
    for crate in sorted(os.listdir("crates")):
        if only and crate not in only:
            continue
        listed = f"{where}/crates/{crate}/names.json"
        if not os.path.isfile(listed):
            continue
        names = json.load(open(listed))
        for folder, _, files in sorted(os.walk(f"crates/{crate}/proofs")):
            if "Proof.antt" not in files:
                continue
            rel = os.path.relpath(folder, f"crates/{crate}/proofs").replace("/", ".")
            key = f"Rattle-{crate}-proofs.{rel}.Lts"
            if rel.startswith("+"):
                key += "-" + rel[1:]
            if key not in names:
                print(f"{folder}: no names ({key})")
                continue
            for s in turn(f"{folder}/Proof.antt", f"Rattle.{crate}.proofs.{rel}", names[key]):
                print(f"{folder}: {s}")
    return 0


if __name__ == "__main__":
    raise SystemExit(main(sys.argv[1:]))
