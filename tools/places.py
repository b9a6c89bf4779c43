#!/usr/bin/env python3
"""Counts, in src/ of every crate, the places of each point of docs/DESIGN-PASS.md, and with -v prints each.

    python3 tools/places.py [-v] [COMMIT]

Without COMMIT it reads the tree as it stands. What it finds are candidates by their text: the page says which of them are kept and why.
"""
import collections
import re
import subprocess
import sys

VERBOSE = "-v" in sys.argv
COMMIT = next((it for it in sys.argv[1:] if not it.startswith("-")), None)


def files():
    """Returns the path and the text of each .rt file."""
    if COMMIT:
        names = subprocess.run(["git", "ls-tree", "-r", "--name-only", COMMIT, "crates"], capture_output=True, text=True, check=True).stdout.split()
        for name in names:
            if name.endswith(".rt"):
                yield name, subprocess.run(["git", "show", f"{COMMIT}:{name}"], capture_output=True, text=True, check=True).stdout
    else:
        names = subprocess.run(["git", "ls-files", "crates"], capture_output=True, text=True, check=True).stdout.split()
        for name in names:
            if name.endswith(".rt"):
                with open(name, encoding="utf-8") as it:
                    yield name, it.read()


HEAD = re.compile(r"^( *)((?:pub )?(?:extern \"C\" )?)fn (\w+)", re.M)


def functions(text):
    """Returns for each function its name, whether it is public, its parameters, its result, its clauses and its body."""
    found = []
    for head in HEAD.finditer(text):
        at = text.index("(", head.end() - 1) if text[head.end()] != "<" else text.index("(", head.end())
        depth, end = 0, at
        while True:
            depth += (text[end] == "(") - (text[end] == ")")
            end += 1
            if depth == 0:
                break
        parameters = " ".join(text[at + 1 : end - 1].split()).rstrip(",")
        close = text.find(f"\n{head[1]}}}\n", end)
        opening = text.find(f"\n{head[1]}{{\n", end, close + 1 if close >= 0 else None)
        if close < 0 or opening < 0:
            continue
        middle, body = text[end:opening], text[opening + len(head[1]) + 2 : close]
        result = re.match(r"\s*->\s*(.*)", middle)
        clauses = re.findall(r"^\s*(requires|ensures)(?: \w+)? \{ (.*) \}\s*$", middle, re.M)
        found.append((head[3], "pub" in head[2], parameters, result[1].strip() if result else "()", clauses, body))
    return found


def normal(text):
    """Returns a function's text with its names and numbers taken out, so that twins are equal."""
    text = re.sub(r"//.*", "", text)
    names = {}
    keep = set("let mut if else match return for while in as true false usize u8 u16 u32 u64 bool".split())

    def name(found):
        word = found[0]
        return word if word in keep and not word.startswith("u") else names.setdefault(word, "n" if word[0].isdigit() else f"v{len(names)}")

    return " ".join(re.sub(r"\w+", name, text).split())


sources = list(files())
told = collections.OrderedDict((number, []) for number in range(1, 8))
bodies, required, groups = collections.defaultdict(list), collections.defaultdict(list), collections.defaultdict(list)
for path, text in sources:
    crate = path.split("/")[1]
    for found in re.finditer(r"^(?:pub )?enum (\w+) \{\n(.*?)^\}", text, re.M | re.S):
        cases = re.findall(r"^    (\w+)(\(.*\))?,", found[2], re.M)
        if 1 < len(cases) < 4 and any(it[1] for it in cases):
            told[1].append(f"{crate}: enum {found[1]} ({', '.join(it[0] + it[1] for it in cases)})")
    for found in re.finditer(r"^(?:pub )?struct (\w+) \{\n(.*?)^\}", text, re.M | re.S):
        fields = re.findall(r"^    (?:pub )?(\w+): (.*),", found[2], re.M)
        if len(fields) > 1 and any(it[0] in ("refusal", "fault", "answer", "number", "told", "event", "verdict") for it in fields):
            told[1].append(f"{crate}: struct {found[1]} ({', '.join(it[0] for it in fields)})")
    inside = ""
    for line in text.split("\n"):
        head = HEAD.match(line)
        inside = head[3] if head else inside
        if re.match(r" *(?:while|loop)\b", line):
            told[3].append(f"{crate}: {inside}: {line.strip()}")
    for name, is_public, parameters, result, clauses, body in functions(text):
        where = f"{crate}: {name}"
        is_export = "extern" in text and crate.startswith("stallbrook_")
        if result in ("u8", "u16", "u32") and re.search(r"refus|fault|told|_or_5|answer", name) and not is_export:
            told[1].append(f"{where} -> {result}")
        if re.search(r"\bkind: u8\b", parameters) and not is_export:
            told[1].append(f"{where}: kind by its number")
        if body.count("\n") > 2:
            bodies[normal(f"({parameters}) {body}")].append(where)
        elif re.fullmatch(r"\s*(\w+) as \w+\s*", body):
            told[4].append(f"{where}: {' '.join(body.split())}")
        if re.search(r"^\s*(?:if \w+ == \d+ \{\s*return \w+::\w+;\s*\}\s*){2,}", body):
            told[4].append(f"{where}: an enum of a number, by hand")
        for kind, clause in clauses:
            if kind == "requires":
                for part in re.findall(r"\(([^()]*(?:\([^()]*\))*[^()]*)\)", clause) or [clause]:
                    required[part.strip()].append(where)
        words = [it.strip() for it in re.split(r",\s*(?![^<\[(]*[>\])])", parameters) if ":" in it]
        for size in (4,):
            for i in range(len(words) - size + 1):
                groups[", ".join(words[i : i + size])].append(where)
        for array in re.findall(r"(\w+): &?(?:mut )?\[[^\]]*; ?\d+\], (\w+): (?:usize|u8)\b", parameters):
            told[6].append(f"{where}: {array[0]} with {array[1]} beside it")
        for line in re.findall(r"^ *match [\w.]*(?:phase|step|state)\b.*", body, re.M):
            told[7].append(f"{where}: {line.strip()}")
for body, names in sorted(bodies.items(), key=lambda it: -len(it[1])):
    if len(names) > 1:
        told[2].append(f"{len(names)} alike: {', '.join(names)}")
# one-line functions that stand in more than one crate
small = collections.defaultdict(list)
for path, text in sources:
    for name, _, parameters, result, clauses, body in functions(text):
        if body.count("\n") < 3:
            small[(parameters, result, " ".join(body.split()))].append(f"{path.split('/')[1]}: {name}")
for (parameters, result, body), names in sorted(small.items(), key=lambda it: -len(it[1])):
    if len(names) > 1:
        told[2].append(f"{len(names)} alike: fn({parameters}) -> {result} {body}: {', '.join(names)}")
for clause, names in sorted(required.items(), key=lambda it: -len(it[1])):
    if len(set(names)) > 2 and not re.fullmatch(r"[\w.]+", clause):
        told[5].append(f"{len(names)} contracts: {clause}: {', '.join(names[:6])}{' ..' if len(names) > 6 else ''}")
for words, names in sorted(groups.items(), key=lambda it: -len(it[1])):
    if len(set(names)) > 2:
        told[5].append(f"{len(names)} functions take ({words}): {', '.join(names[:6])}{' ..' if len(names) > 6 else ''}")
titles = {
    1: "own enums like Option or Result, a flag with a value beside it, numbers for kinds or refusals",
    2: "twins",
    3: "loops that count by hand",
    4: "conversions by hand",
    5: "facts and parameters that go together",
    6: "arrays with a length beside them",
    7: "a switch on which step to run",
}
for number, places in told.items():
    print(f"{number}. {titles[number]}: {len(places)}")
    if VERBOSE:
        print("".join(f"   {it}\n" for it in places), end="")
