#!/usr/bin/env python3
"""Brings the names that this repository declares in specs/ and proofs/ to the spelling of today's Rattle: functions, lemmas,
fields and variables in snake case, types in camel case. It was run once, right after /opt/rattle/port/port.py.

usage: python3 tools/respell.py [--dry]        at the top of the repository

A name is respelled if it has a dash and one of our .antt files declares it. Left alone are names that a file imports from
Rattle's own library, goals and steps that Rattle names after the code, comments, and texts in quotes.
"""

import os
import re
import sys

NAME = r"[A-Za-zℕℤΑ-Ωα-ω_][A-Za-z0-9_'₀-₉ℕℤΑ-Ωα-ω]*(?:-[A-Za-z0-9_'₀-₉ℕℤΑ-Ωα-ω]+)+"
WHOLE = re.compile(r"(?<![A-Za-z0-9_'₀-₉ℕℤΑ-Ωα-ω◌<>≤≡+*/-])" + NAME + r"(?![A-Za-z0-9_'₀-₉ℕℤΑ-Ωα-ω◌-])")
# what would fall together with another name, and what it is called instead
APART = {}


def files(root, endings):
    for folder, dirs, names in os.walk(os.path.join(root, "crates")):
        dirs[:] = sorted(d for d in dirs if d != "out")
        for n in sorted(names):
            if n.endswith(endings):
                yield os.path.join(folder, n)


def blank(text, mark):
    """The text with comments and quoted texts blanked, of the same length."""
    def white(m):
        return re.sub(r"[^\n]", " ", m[0])
    return re.sub(r'"(?:[^"\\\n]|\\.)*"|' + re.escape(mark) + r"[^\n]*", lambda m: white(m), text)


def code_of(path):
    with open(path, encoding="utf-8") as f:
        text = f.read()
    return text, blank(text, "--" if path.endswith(".antt") else "//")


def uses(code):
    """(module, names) of each use line."""
    for m in re.finditer(r"^\s*(?:ghost )?use ([\w.·'◌-]+?)\.\{([^}]*)\}", code, re.M):
        yield m[1], [n.strip() for n in m[2].split(",")]


def is_goal(path, code, name):
    """Whether a file of a function's proofs declares the answer to a goal by that name."""
    return re.search(r"^\s*(?:abbrev |unfoldable )?(?:pub )?" + re.escape(name) + r"\s*:\s*(?:\([^)]*\)\s*→\s*)*(?:goal|need)\.", code, re.M) is not None


def declared(path, code):
    found = set()
    for m in re.finditer(r"^[ \t]*(?:abbrev |unfoldable )*(?:pub )?(?:record |data |module )?((?:[^\s:(){}]+ )+):", code, re.M):
        found.update(w for w in m[1].split() if WHOLE.fullmatch(w))
    for m in re.finditer(r"^[ \t]*(?:abbrev |unfoldable )*(?:pub )?(?:record|data) (\S+)", code, re.M):
        found.update(w for w in [m[1]] if WHOLE.fullmatch(w))
    for m in re.finditer(r"[({]((?:[^\s:(){}]+ )+):", code):
        found.update(w for w in m[1].split() if WHOLE.fullmatch(w))
    for m in re.finditer(r"\blet (\S+)", code):
        found.update(w for w in [m[1]] if WHOLE.fullmatch(w))
    for m in re.finditer(r"λ ([^.\n()]+)\.", code):
        found.update(w for w in m[1].split() if WHOLE.fullmatch(w))
    return {n for n in found if not is_goal(path, code, n)}


def respelled(name):
    if name in APART:
        return APART[name]
    if name[0].isupper():
        return "".join(w[0].upper() + w[1:] for w in name.split("-"))
    return name.replace("-", "_")


def main():
    root, dry = os.getcwd(), "--dry" in sys.argv
    crates = set(os.listdir(os.path.join(root, "crates")))
    ours, foreign, present = set(), set(), set()
    for p in files(root, (".antt",)):
        _, code = code_of(p)
        ours |= declared(p, code)
        present |= set(re.findall(r"[A-Za-z_][A-Za-z0-9_']*", code))
    for p in files(root, (".antt", ".rt")):
        _, code = code_of(p)
        for module, names in uses(code):
            parts = module.split(".")
            if not (parts[0] == "Rattle" and len(parts) > 1 and parts[1] in crates):
                foreign.update(names)
    table = {n: respelled(n) for n in sorted(ours - foreign)}
    for n in sorted(ours & foreign):
        print(f"left: {n}, a name of the library too")
    seen = {}
    for n, new in table.items():
        if new in present:
            print(f"look: {n} falls together with {new}")
        if new in seen:
            print(f"look: {n} and {seen[new]} fall together as {new}")
        seen[new] = n
    count = 0
    for p in files(root, (".antt", ".rt")):
        text, code = code_of(p)
        in_proof_of_function = os.sep + "proofs" + os.sep in p and os.path.dirname(p).split(os.sep)[-1] != "proofs"
        goals = set()
        if in_proof_of_function:
            goals = {n for n in WHOLE.findall(code) if is_goal(p, code, n)}
        out, at = [], 0
        for m in WHOLE.finditer(code):
            n = m[0]
            if n not in table or n in goals:
                continue
            # a step of the code or a goal, in a path that Rattle made
            before = code[:m.start()]
            if in_proof_of_function and re.search(r"(?:\bc|\bl|\bgoal|\bgiven|\bw|\bGoals|\bGiven)(?:\.[\w'-]+)*\.$", before[-200:]):
                print(f"left: {n} in {os.path.relpath(p, root)}, in a path of Rattle's")
                continue
            out.append(text[at:m.start()] + table[n])
            at = m.end()
            count += 1
        if out and not dry:
            with open(p, "w", encoding="utf-8") as f:
                f.write("".join(out) + text[at:])
    print(f"respell: {len(table)} names in {count} places")


if __name__ == "__main__":
    main()
