#!/usr/bin/env python3
"""Brings the repository's own definitions and lemmas to today's spelling: words in snake case.

usage: tools/respell.py     once, at the top, after the kit's port.py

A definition in camel case (endpointRange) and a lemma with dashes (so-far-start) get underscores (endpoint_range, so_far_start);
`getD` in a name is `get_or`, as in the library. Where a lemma would get the name of a definition, it ends in _lem, and so does a
name that the library has. Names of src/, types, modules, the library's names and the names that the check makes stay. It rewrites
.antt files, the ghost lines, clauses and comments of .rt files, must-fail edits, and what stands between backticks in docs/ and README.
"""
import collections
import glob
import os
import re

TOKEN = re.compile(r"[^\s(){}\[\],;.@\"`|⟨⟩:]+")
CAMEL = re.compile(r"^[a-z][A-Za-z0-9']*[A-Z][A-Za-z0-9']*$")
DECLARED = re.compile(r"^\s*(?:abbrev |unfoldable |pub |private )*([^\s:(){}]+) :")
# made by the check, or of the library, in the form in which the kit's scripts leave them
MADE = re.compile(r"^(loop|returns|invariant|decreases|overflow|known|Need|After|In|At|Then|Else)\d*(-|$)|-requires(-\d+)?$|^(well-formed|ref-ptr|ghost-name|type-inv|items-fit)$")



def lowered(t):
    t = t.replace("getD", "get_or").replace("-", "_")
    return re.sub(r"(?<=[a-z0-9'])([A-Z])", r"_\1", t).lower()


def antt_files():
    return sorted(glob.glob("crates/*/specs/**/*.antt", recursive=True) + glob.glob("crates/*/proofs/**/*.antt", recursive=True))


def code_of(line):
    return "" if line.strip().startswith("--") else re.sub(r"\s--\s.*", "", line)


def collect():
    """Which own names are in use, and what each becomes."""
    seen, kit, camel, dashed = set(), set(), set(), set()
    for f in antt_files():
        with open(f, encoding="utf-8") as it:
            for line in it:
                code = code_of(line)
                m = re.match(r"\s*(?:pub )?use ([^\s{]+)\.\{(.*)\}", code)
                if m and (not m.group(1).startswith("Rattle.") or m.group(1).startswith("Rattle.std")):
                    kit.update(x.strip() for t in m.group(2).split(",") for x in t.split(" as "))
                for t in TOKEN.findall(code):
                    seen.add(t)
                    if CAMEL.match(t):
                        camel.add(t)
                m = DECLARED.match(code)
                if m and "-" in m.group(1)[1:] and re.match(r"^[a-z]", m.group(1)) and not MADE.search(m.group(1)):
                    dashed.add(m.group(1))
    names = {t: lowered(t) for t in sorted(camel - kit)}
    taken = set(names.values()) | {t for t in seen if t not in dashed}
    for t in sorted(dashed - kit):
        new = lowered(t)
        while new in taken or new in kit:
            new += "_lem"
        taken.add(new)
        names[t] = new
    return names


def mapped(text, names):
    return TOKEN.sub(lambda m: names.get(m.group(0), m.group(0)), text)


def camels(text, names):
    return TOKEN.sub(lambda m: names[m.group(0)] if m.group(0) in names and "-" not in m.group(0) else m.group(0), text)


def ticked(text, names):
    return re.sub(r"`[^`\n]*`", lambda m: mapped(m.group(0), names), text)


def comment(text, names):
    return camels(ticked(text, names), names)


def antt(text, names):
    out = []
    for line in text.split("\n"):
        if line.strip().startswith("--"):
            out.append(comment(line, names))
        else:
            m = re.search(r"\s--\s", line)
            cut = m.start() if m else len(line)
            out.append(mapped(line[:cut], names) + comment(line[cut:], names))
    return "\n".join(out)


def rust(text, names):
    out = []
    for line in text.split("\n"):
        if line.strip().startswith("//"):
            out.append(comment(line, names))
        else:
            out.append(line if '"' in line else mapped(line, names))
    return "\n".join(out)


def edit(text, names):
    return "\n".join(mapped(line, names) if not line.startswith("file:") else line for line in text.split("\n"))


def page(text, names):
    return ticked(text, names)


def main():
    names = collect()
    for files, turn in [(antt_files(), antt), (glob.glob("crates/*/src/**/*.rt", recursive=True), rust), (glob.glob("crates/*/must-fail/*"), edit), (["README.md"] + glob.glob("docs/**/*.md", recursive=True), page)]:
        for f in sorted(files):
            if os.path.basename(f).startswith("PORT"):
                continue
            with open(f, encoding="utf-8") as it:
                old = it.read()
            new = turn(old, names)
            if new != old:
                with open(f, "w", encoding="utf-8") as it:
                    it.write(new)
    print(f"{len(names)} names respelled")


if __name__ == "__main__":
    main()
