#!/usr/bin/env python3
"""Brings this repository's own definitions and lemmas to today's spelling.

usage: python3 tools/names.py [--list]        at the top of the repository, once, after the kit's port.py

A word is in snake case, a fact is spelled like a type, and a dash stays where it joins a type to a
word or where the plain spelling is taken. Functions of src/ keep their names. Texts that cite the
names (the edits, the papers) are turned with the definitions. With --list it changes nothing and
prints the pairs.
"""

import glob
import re
import sys

# Names whose plain spelling is a parameter, a field or another word: what they are called instead.
CHOSEN = {
    "rowRoom": "room_of_row",
    "allDigits": "only_digits",
    "slotOf": "slot_of",
    "currentFrame": "current_frame_of",
}

WORD = r"[\w'′·-]"
DEFINITION = re.compile(
    r"\s*(?:(?:abbrev|unfoldable)\s+)?(?:pub\s+)?(?:(record|data|module|ruleset)\s+)?"
    r"([^\W\d][\w'-]*)\s*((?:\{[^}]*\}\s*|\([^)]*\)\s*)*)(:|=)(?=\s|$)(.*)"
)


def own_files():
    return sorted(
        glob.glob("crates/*/specs/**/*.antt", recursive=True) + glob.glob("crates/*/proofs/*.antt")
    )


def tokens(text):
    """The words that stand alone: no part of a path, and no field."""
    return re.findall(r"(?<![.\w])[^\s(){}\[\],;.:|]+(?!\.\w)", text)


def signature(lines, i):
    """The signature that begins at line i, with the lines that go on below it."""
    text = lines[i]
    for line in lines[i + 1 :]:
        if not line.startswith((" ", "\t")) or DEFINITION.match(line):
            break
        text += " " + line.strip()
    return text


def defined():
    """Each name that is defined here, and whether it is a fact."""
    names = {}
    for path in own_files():
        lines = open(path, encoding="utf-8").read().split("\n")
        for i, line in enumerate(lines):
            if line.lstrip().startswith("--"):
                continue
            m = DEFINITION.match(line)
            if not m or m.group(1) == "module":
                continue
            if m.group(4) == "=" and m.group(1) != "ruleset":
                continue
            text = signature(lines, i)
            fact = m.group(1) in ("record", "data") or text.rstrip().endswith("Type 0")
            names.setdefault(m.group(2), set()).add(fact)
    return names


def snake(name):
    name = re.sub(r"(?<=[a-z0-9])([A-Z])", lambda m: "_" + m.group(1).lower(), name)
    parts = name.split("-")
    out = parts[0]
    for before, part in zip(parts, parts[1:]):
        typed = before[:1].isupper() or part[:1].isupper() or not part or not part[0].isalpha()
        out += ("-" if typed else "_") + part
    return out


def camel(name):
    return "".join(p[:1].upper() + p[1:] for p in re.split(r"[-_]", name))


def taken():
    """Every word that the texts of the proofs and the clauses hold already."""
    seen = {}
    for path in glob.glob("crates/*/specs/**/*.antt", recursive=True) + glob.glob(
        "crates/*/proofs/**/*.antt", recursive=True
    ):
        for t in tokens(open(path, encoding="utf-8").read()):
            seen.setdefault(t, path)
    for path in glob.glob("crates/*/src/*.rt"):
        text = open(path, encoding="utf-8").read()
        # parameters, fields and the words of clauses
        for m in re.finditer(r"\b([a-z]\w*)\s*:(?!:)", text):
            seen.setdefault(m.group(1), path + " (a parameter or field)")
        for m in re.finditer(r"(?:requires|ensures|ghost)\b[^{;]*\{(.*?)\n", text):
            for t in tokens(m.group(1)):
                seen.setdefault(t, path + " (a clause)")
    return seen


def foreign():
    """Words that a file imports from a library that is not ours."""
    ours = {p.split("/")[1] for p in glob.glob("crates/*/src")}
    found = set()
    for path in glob.glob("crates/**/*.antt", recursive=True) + glob.glob("crates/*/src/*.rt"):
        text = open(path, encoding="utf-8").read()
        for m in re.finditer(r"\buse ([\w.·]+)\.\{([^}]*)\}", text):
            where = m.group(1).split(".")
            if where[0] == "Rattle" and len(where) > 1 and where[1] in ours:
                continue
            if where[0][:1].isupper() and where[0] not in ("Rattle", "Prim"):
                continue  # a module below this one
            for item in m.group(2).split(","):
                found.add(item.strip().split(" as ")[-1].strip())
    return found


def pairs(tell=False):
    names, seen, not_ours = defined(), taken(), foreign()
    chosen, used = {}, {}
    for name, facts in sorted(names.items(), key=lambda n: ("-" in n[0], n[0])):
        if name in CHOSEN:
            new = CHOSEN[name]
        elif True in facts:
            new = camel(name) if name[:1].islower() else name
        elif name[:1].isupper():
            new = name
        else:
            new = snake(name)
        if new == name:
            continue
        why = None
        if name in not_ours:
            why = "the library's too"
        elif new in seen and name not in CHOSEN:
            why = "taken: " + seen[new]
        elif new in used and name not in CHOSEN:
            why = "falls together with " + used[new]
        if why:
            if "-" in name:  # the dash stays, the rest is turned
                kept = re.sub(r"(?<=[a-z0-9])([A-Z])", lambda m: "_" + m.group(1).lower(), name)
                if tell:
                    print(f"keeps its dash: {name} ({why}) -> {kept}")
                new = kept
                if new == name or new in seen or new in used:
                    continue
            else:
                if tell:
                    print(f"LEFT: {name} -> {new} ({why})")
                continue
        used[new] = name
        chosen[name] = new
    return chosen


def turn(text, table, pattern):
    return pattern.sub(lambda m: table[m.group(0)], text)


def main():
    table = pairs("--list" in sys.argv)
    if "--list" in sys.argv:
        for a, b in table.items():
            print(a, b)
        return
    words = sorted(table, key=len, reverse=True)
    edge_l, edge_r = r"(?<![\w'′·◌-])", r"(?![\w'′·◌-])"
    whole = re.compile(edge_l + "(?:" + "|".join(map(re.escape, words)) + ")" + edge_r)
    # in the code only words that no Rust name has: a lower letter first, a capital within
    mixed = [w for w in words if re.search(r"[a-z0-9][A-Z]", w)]
    code = re.compile(edge_l + "(?:" + "|".join(map(re.escape, mixed)) + ")" + edge_r)
    said = re.compile(r"`[^`\n]*`")
    files = (
        [(p, whole) for p in glob.glob("crates/*/specs/**/*.antt", recursive=True)]
        + [(p, whole) for p in glob.glob("crates/*/proofs/**/*.antt", recursive=True)]
        + [(p, code) for p in glob.glob("crates/*/src/*.rt")]
        + [(p, code) for p in glob.glob("crates/*/must-fail/*.edit")]
        + [(p, code) for p in glob.glob("nightly/edits/*/*.edit")]
    )
    turned = 0
    for path, pattern in files:
        text = open(path, encoding="utf-8").read()
        new = turn(text, table, pattern)
        if new != text:
            open(path, "w", encoding="utf-8").write(new)
            turned += 1
    for path in ["README.md"] + glob.glob("docs/**/*.md", recursive=True):
        text = open(path, encoding="utf-8").read()
        new = said.sub(lambda m: turn(m.group(0), table, whole), text)
        if new != text:
            open(path, "w", encoding="utf-8").write(new)
            turned += 1
    print(f"{len(table)} names, {turned} files")


main()
