#!/usr/bin/env python3
"""Spells the repository's own antt names as today's Rattle does: words in snake case, types in camel case.

usage: python3 tools/respell.py [--list]      once, at the top, after the toolchain's port.py; --list writes the table and nothing else

- A name in lower camel case turns to snake case, as readFields to read_fields.
- A constructor or a field with a dash gets an underscore.
- In the name of a lemma a dash stays between two names that are defined, as in length-pack; before or after a plain word it becomes an underscore.
- A lemma, a constructor or a field that would have a definition's name gets _lem.
Goals' names (Proof, Answers, Invariants) and all names of src/ stay.
"""
import collections
import glob
import os
import re
import sys

DECLARED = re.compile(r'^( *)(?:(?:abbrev|unfoldable|pub|mutual) )*([^\s(){}.;,@"«»:]+)(?: \{[^{}\n]*\})* :(?= |$)')
WORD = re.compile(r'[^\s(){}.;,@"«»]+')
# What a rule would spell like something else: tooLarge like a constructor of Due.
TYPES = {"codingType": "CodingType", "tooLarge": "too_large_answer"}


def files(*endings):
    for top in ("crates", "tests/slips", "docs"):
        for folder, dirs, names in os.walk(top):
            dirs[:] = sorted(d for d in dirs if d != "out")
            yield from (os.path.join(folder, n) for n in sorted(names) if n.endswith(endings))
    if ".md" in endings:
        yield "README.md"


def of_goals(path):
    return "/proofs/" in path and os.path.basename(path) in ("Proof.antt", "Answers.antt", "Invariants.antt")


def hump(name):
    return re.sub(r"(?<=[a-z0-9])([A-Z])", lambda m: "_" + m[1].lower(), name)


declared, parts, of_proofs = set(), set(), set()
for path in files(".antt"):
    block = False
    for line in open(path, encoding="utf-8"):
        if line[:1].strip():
            block = bool(re.match(r"(pub )?(data|record)\b", line))
        declared.update(n for n in re.findall(r" as ([a-z][\w'-]*)[,}]", line) if hump(n) != n)
        m = DECLARED.match(line)
        if m and not of_goals(path) and re.match(r"[a-z]", m[2]):
            (parts if block and m[1] else declared).add(m[2])
            if "/proofs/" in path and not m[1]:
                of_proofs.add(m[2])
rust = set()
for path in files(".rt"):
    declared.update(n for n in re.findall(r" as ([a-z][\w'-]*)[,}]", open(path, encoding="utf-8").read()) if hump(n) != n)
    rust.update(re.findall(r"\b(?:fn|const|static|struct|enum|type|trait|mod) (\w+)", open(path, encoding="utf-8").read()))

STD = {"length", "take", "drop", "append", "zero", "suc", "sum", "map", "replicate", "get_or", "set_at", "min", "max", "filter", "reverse", "not", "and", "or"}
# What is defined in specs/ gives lemmas their names.
defined = {hump(n).replace("-", "_") for p in files(".antt") if "/specs/" in p for n in
           (m[2] for m in map(DECLARED.match, open(p, encoding="utf-8")) if m) if re.match(r"[a-z]", n)} | STD


def of_lemma(name):
    tokens, out = hump(name).split("-"), []
    while tokens:
        k = next((k for k in range(len(tokens), 0, -1) if "_".join(tokens[:k]) in defined), 0)
        out.append(("_".join(tokens[: max(k, 1)]), k > 0))
        tokens = tokens[max(k, 1):]
    text = out[0][0]
    for (_, before), (part, known) in zip(out, out[1:]):
        text += ("-" if before and known else "_") + part
    return text


table, wanted = dict(TYPES), set(TYPES.values())


def free(new):
    return new not in wanted and (new not in declared | parts or new in table)


# Definitions take the plain spelling, then what is said of them; a lemma that would have its function's name gets _lem.
humps = sorted(n for n in declared | parts if hump(n) != n and n not in table)
for name in humps:
    table[name] = hump(name) if name in declared and "-" not in name else of_lemma(name)
    wanted.add(table[name])
spelt_alike = sorted(n for n in declared & wanted if n not in table and n in of_proofs)
for name in sorted((declared | parts) - set(table)):
    new = name.replace("-", "_") if name in parts else of_lemma(name)
    if new == name:
        continue
    if not free(new):
        new += "_lem"
    table[name] = new
    wanted.add(new)
if len(set(table.values())) != len(table):
    raise SystemExit("respell: names fall together: " + str([n for n, k in collections.Counter(table.values()).items() if k > 1]))

if "--list" in sys.argv:
    for old, new in sorted(table.items()):
        print(old, new)
    for old in spelt_alike:
        print(old, old + "_lem")
    raise SystemExit


def antt(text):
    """The text with its names respelled; in a file that has a lemma spelled like a definition's new name, that lemma too."""
    here = {n: n + "_lem" for n in spelt_alike if re.search(rf"(?m)^(?:pub )?{n}(?: \{{[^{{}}\n]*\}})* :|^use \S+\.proofs\.\S*\{{(?:[^}}]*[ ,])?{n}[,}}]", text)}
    text = re.sub(r"(?m)(?<![^\s(){};,@\"«»])[^\s(){}.;,@\"«»]+", lambda m: here.get(m[0], m[0]) if not re.match(r"\s+(pub )?$", text[text.rfind("\n", 0, m.start()) + 1 : m.start()]) or not re.match(r"[^\n]* : ", text[m.end() :]) else m[0], text) if here else text
    return WORD.sub(lambda m: table.get(m[0], m[0]), text)


# In Rust's text only what Rust itself cannot spell or clauses alone can hold: no string, no comment but its code.
RUST_NAME = re.compile(r"(?<![\w'-])[a-z_][\w'-]*(?![\w'-])")
in_rust = {o: n for o, n in table.items() if o not in rust}


def rust_text(text):
    return RUST_NAME.sub(lambda m: in_rust.get(m[0], m[0]) if re.search(r"[A-Z-]", m[0]) else m[0], text)


def spans(text):
    return re.sub(r"(?<!`)`[^`\n]+`(?!`)", lambda m: rust_text(antt(m[0])) if "`" in m[0] else m[0], text)


changed = 0
for path in files(".antt", ".rt", ".edit", ".edits", ".md"):
    text = open(path, encoding="utf-8").read()
    new = text
    if path.endswith(".antt"):
        new = antt(text)
    elif path.endswith(".md"):
        new = spans(text)
    else:
        new = rust_text(text)
        if not path.endswith(".rt"):
            new = antt(new)
    if new != text:
        changed += 1
        with open(path, "w", encoding="utf-8") as f:
            f.write(new)
print(f"respell: {len(table)} names in {changed} files")
