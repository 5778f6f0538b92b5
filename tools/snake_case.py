#!/usr/bin/env python3
"""Turns the repository's own names in contracts and proofs to one spelling: words in snake case, facts and types in camel case.

usage: python3 tools/snake_case.py     at the top of the repository, once, after the kit's own script

Functions of src/, goals and steps that the check names, names of the library, strings, inputs and outputs keep their spelling.
"""

import collections
import glob
import os
import re
import sys

TOKEN = r"[A-Za-z_\u00b0\u2080-\u2089'][\w\u00b0\u2080-\u2089'\u2032-]*[\w\u00b0\u2080-\u2089'\u2032]|[A-Za-z]"
WORD = re.compile(r"(?<![\w'\u00b0-])(?:" + TOKEN + r")")
SIGNATURE = re.compile(r"^\s*(?:abbrev |unfoldable |package )?(?:pub )?((?:[^\s:(){};=|]+ )+):\s", re.M)
USE = re.compile(r"^(?:pub )?(?:ghost )?use ([\w.\u00b7]+)\.\{([^}]*)\}", re.M)

# Two names that would fall together: the test of a whole number, and that of a number p + q√2.
APART = {"is_zero": "is_zero_part"}
# Words that comments also use as plain English.
PROSE = {"half-edge", "at-most", "in-front", "in-range", "one-point", "first-turn", "straight-on"}


def spelled(name):
    """A name as it is to be spelled."""
    if name in APART:
        return APART[name]
    tail = ""
    while name and not (name[-1].isalnum() or name[-1] in "_'"):
        tail = name[-1] + tail
        name = name[:-1]
    parts = name.split("-")
    if name[:1].isupper():
        return "".join(p[:1].upper() + p[1:] for p in parts) + tail if len(parts) > 1 else name + tail
    parts = [re.sub(r"([a-z0-9])([A-Z])", lambda m: m.group(1) + "_" + m.group(2).lower(), p) for p in parts]
    return "_".join(parts) + tail


def own_crates():
    return {d.split("/")[1] for d in glob.glob("crates/*/")}


def texts():
    for f in sorted(glob.glob("crates/*/specs/**/*.antt", recursive=True) + glob.glob("crates/*/proofs/**/*.antt", recursive=True)):
        yield f


def is_goal_file(f):
    return os.path.basename(f) in ("Answers.antt", "Invariants.antt", "Proof.antt")


def listed(items):
    """The names of an import list, each with its alias or None."""
    for item in items.split(","):
        words = item.split()
        if words:
            yield words[0], (words[2] if len(words) == 3 and words[1] == "as" else None)


def strange(text, crates):
    """Names that a file takes from outside, or from what the check writes: they keep their spelling."""
    out = set()
    for path, items in USE.findall(text):
        parts = path.split(".")
        own = parts[0] == "Rattle" and len(parts) > 1 and parts[1] in crates
        generated = parts[-1] in ("Goals", "Given", "Needs") or "declared" in parts
        if not own or generated:
            for name, alias in listed(items):
                out.add(alias or name)
                out.add(name)
    return out


def goals(text):
    """The goals that a file answers."""
    return {a for a, b in re.findall(r"^(?:abbrev )?(?:pub )?(\S+) : goal\.(\S+)$", text, re.M)}


def fields_of(text):
    """The fields of records, and the names that a file defines."""
    fields = set()
    for m in re.finditer(r"^( *)(?:pub )?record .* where\n((?:\1  .*\n|\n)+)", text, re.M):
        for n in SIGNATURE.findall(m.group(2)):
            fields |= {w for w in n.split() if w != "pub"}
    return fields


def turn(text, keep, fields, comment_names):
    out = []
    for line in text.split("\n"):
        if line.lstrip().startswith("--"):
            out.append(WORD.sub(lambda m: spelled(m.group()) if m.group() in comment_names and m.group() not in PROSE else m.group(), line))
            continue
        done, at = [], 0
        for m in WORD.finditer(line):
            word, start = m.group(), m.start()
            done.append(line[at:start])
            at = m.end()
            before = line[:start]
            after_dot = before.endswith(".")
            if "'" in word and word.startswith("'"):
                done.append(word)
            elif after_dot:
                root = re.search(r"([\w'-]+)\.$", before)
                generated = root is not None and root.group(1) in ("c", "w", "goal", "l", "g")
                done.append(spelled(word) if word in fields and not generated else word)
            elif word in keep:
                done.append(word)
            else:
                done.append(spelled(word) if ("-" in word or word in APART or re.match(r"[a-z]\w*[A-Z]", word)) else word)
        done.append(line[at:])
        out.append("".join(done))
    return "\n".join(out)


def turn_source(text, crates):
    """The ghost imports and clauses of a source file."""
    renamed = {}

    def lines(m):
        path, items = m.group(1), m.group(2)
        parts = path.split(".")
        if not (len(parts) > 1 and parts[1] in crates):
            return m.group()
        new = []
        for name, alias in listed(items):
            to = spelled(name)
            if alias is None:
                if to != name:
                    renamed[name] = to
                new.append(to)
                continue
            other = spelled(alias)
            if other != alias:
                renamed[alias] = other
            new.append(to if other == to else f"{to} as {other}")
        return m.group().replace("{" + items + "}", "{" + ", ".join(new) + "}")

    text = re.sub(r"ghost use ([\w.]+)\.\{([^}]*)\};", lines, text)
    for old, new in renamed.items():
        text = re.sub(r"(?<![\w'.-])" + re.escape(old) + r"(?![\w'-])", new, text)
    return text


def main():
    if not os.path.isdir("crates"):
        raise SystemExit("snake_case: run it at the top of the repository")
    crates = own_crates()
    names, fields = collections.Counter(), set()
    for f in texts():
        with open(f, encoding="utf-8") as h:
            text = h.read()
        if not is_goal_file(f):
            for n in SIGNATURE.findall(text):
                names.update(w for w in n.split() if w not in ("pub", "abbrev", "unfoldable"))
        fields |= fields_of(text)
    turned = collections.defaultdict(set)
    for n in names:
        turned[spelled(n)].add(n)
    for to, of in sorted(turned.items()):
        if len(of) > 1:
            print("falls together:", to, sorted(of))
    for f in texts():
        with open(f, encoding="utf-8") as h:
            text = h.read()
        keep = strange(text, crates) | (goals(text) if is_goal_file(f) else set())
        both = {n for n in keep & fields if spelled(n) != n}
        if both:
            print("from outside, and a field of ours:", f, sorted(both))
        new = turn(text, keep, fields, set(names))
        if new != text:
            with open(f, "w", encoding="utf-8") as h:
                h.write(new)
    for f in sorted(glob.glob("crates/*/src/**/*.rt", recursive=True)):
        with open(f, encoding="utf-8") as h:
            text = h.read()
        new = turn_source(text, crates)
        if new != text:
            with open(f, "w", encoding="utf-8") as h:
                h.write(new)
    for f in sorted(glob.glob("docs/*.md") + ["README.md"]):
        with open(f, encoding="utf-8") as h:
            text = h.read()
        new = WORD.sub(lambda m: spelled(m.group()) if "-" in m.group() and m.group() in names and m.group() not in PROSE else m.group(), text)
        new = re.sub(r"`([a-z]+-[a-z-]+)`", lambda m: "`" + spelled(m.group(1)) + "`" if m.group(1) not in PROSE else m.group(), new)
        if new != text:
            with open(f, "w", encoding="utf-8") as h:
                h.write(new)


if __name__ == "__main__":
    sys.exit(main())
