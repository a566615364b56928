#!/usr/bin/env python3
"""Brings this repository's own definitions and lemmas to the spelling of today's Rattle: definitions, fields and
constructors in snake case, facts and types in camel case, and in a lemma's name a dash only between two names.

usage: python3 tools/respell.py [--dry]      at the top, once, after the toolchain's own script
"""

import glob
import re
import sys

DASHED = re.compile(r"(?<![\w'◌-])(?:[A-Za-z_][\w']*)(?:-[\w']+)+(?![\w'◌-])")
DECLARED = re.compile(r"^\s*(?:(?:abbrev|unfoldable|pub|opaque|private)\s+)*((?:[A-Za-z_][\w'-]*\s+)*?[A-Za-z_][\w'-]*)\s*:(?!:)")
TYPE = re.compile(r"^\s*(?:pub\s+)?(?:record|data)\s+([A-Za-z_][\w'-]*)")
ALIAS = re.compile(r"\bas\s+((?:[A-Za-z_][\w']*)(?:-[\w']+)+)")
GENERATED = re.compile(r"^(returns|loop|overflow|bounds|slice|offset|invariant|decreases|nonzero|measure)-|-requires(-\d+)?$|-(init|preserved|smaller)$")
# Names of the library that a lemma's name is made of.
LIBRARY = set("length take drop append replicate map reverse max min true false mod get_or suc zero".split())


def texts(pattern):
    for path in sorted(glob.glob(pattern, recursive=True)):
        if "/out/" not in path:
            with open(path, encoding="utf-8") as f:
                yield path, f.read()


def declared(text):
    names = set()
    for line in text.split("\n"):
        found = TYPE.match(line)
        if found:
            names.add(found.group(1))
            continue
        found = DECLARED.match(line)
        if found and not line.lstrip().startswith("--"):
            names |= set(found.group(1).split())
    return names


def snake(name):
    return name.replace("getD", "get_or").replace("-", "_")


def camel(name):
    parts = name.split("-")
    return parts[0] + "".join(p[:1].upper() + p[1:] for p in parts[1:])


def lemma(name, definitions):
    """A dash stays between two names; a plain word is added with an underscore."""
    name = name.replace("getD", "get_or")
    parts, made, was_name, i = name.split("-"), "", False, 0
    while i < len(parts):
        j = next((j for j in range(len(parts), i, -1) if "-".join(parts[i:j]) in definitions or "_".join(parts[i:j]) in definitions), 0)
        is_name = j > 0
        j = j or i + 1
        word = "_".join(parts[i:j])
        made += word if i == 0 else ("-" if was_name and is_name else "_") + word
        was_name, i = is_name, j
    return made


def main():
    goals, specs, proofs = set(), set(), set()
    for path, text in texts("crates/**/*.antt"):
        goals |= set(re.findall(r"\bgoal\.([\w'-]+)", text))
        own = declared(text)
        if "/specs/" in path:
            specs |= own
        else:
            proofs |= own
    definitions = {n for n in specs} | LIBRARY
    new = {}
    for name in sorted(specs | proofs):
        if "-" not in name or name in goals or (name not in specs and GENERATED.search(name)):
            continue
        if name[0].isupper():
            new[name] = camel(name)
        elif name in specs:
            new[name] = snake(name)
        else:
            new[name] = lemma(name, definitions)
    for path, text in list(texts("crates/**/*.antt")) + list(texts("crates/**/*.rt")):
        for name in ALIAS.findall(text):
            new.setdefault(name, camel(name) if name[0].isupper() else snake(name))
    new = {a: b for a, b in new.items() if a != b}

    def turned(text, kept):
        return DASHED.sub(lambda m: new[m.group(0)] if m.group(0) in new and m.group(0) not in kept else m.group(0), text)

    dry = "--dry" in sys.argv
    everything = {}
    for path, text in texts("crates/**/*.antt"):
        everything[path] = text
    for path, text in texts("crates/**/*.rt"):
        everything[path] = text
    for path, text in everything.items():
        kept = set()
        for names in re.findall(r"use Rattle\.std\.[^{;\n]*\{([^}]*)\}", text):
            kept |= {n.strip().split(" as ")[0].strip() for n in names.split(",")}
        if path.endswith(".antt"):
            made = turned(text, kept)
        else:
            # A definition that would have the name of a function of the file goes by another there.
            functions = set(re.findall(r"\bfn ([a-z_0-9]+)", text)) | set(re.findall(r"^\s*(?:pub )?use (?!Rattle)[\w:]*::(\w+);", text, re.M))
            met = {a for a in DASHED.findall(text) if new.get(a) in functions and a not in kept and f"{a} as " not in text}
            if met:
                print(f"goes by another name in {path}: {', '.join(sorted(met))}")
            lines = []
            for line in text.split("\n"):
                code = line.lstrip()
                if code.startswith("//"):
                    lines.append(line)
                    continue
                for a in met:
                    spelled = new[a] + "_by" if not code.startswith("ghost use") else f"{new[a]} as {new[a]}_by"
                    line = re.sub(rf"(?<![\w'◌-]){re.escape(a)}(?![\w'◌-])", spelled, line)
                lines.append("".join(p if i % 2 else turned(p, kept) for i, p in enumerate(re.split(r'("(?:[^"\\]|\\.)*")', line))))
            made = "\n".join(lines)
        if made != text and not dry:
            with open(path, "w", encoding="utf-8") as f:
                f.write(made)
    back = {}
    for a, b in new.items():
        back.setdefault(b, []).append(a)
    for b, names in back.items():
        if len(names) > 1 or b in specs | proofs:
            print(f"falls together: {b}: {', '.join(names)}{' and ' + b if b in specs | proofs else ''}")
    if dry:
        for a, b in sorted(new.items()):
            print(a, b)
    print(f"{len(new)} names")


main()
