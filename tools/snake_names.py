#!/usr/bin/env python3
"""Brings the names of this repository's own definitions, fields, constructors and lemmas to snake case.

usage: python3 tools/snake_names.py          in the repository, once, after the spelling of the language was turned

A name that begins with a small letter and has a hump or a dash (`isSide`, `modulo-laws`) becomes `is_side`, `modulo_laws`; a type keeps
its capitals, and a dash in its name goes. The names of functions, parameters and fields of src/ keep their spelling, and proofs cite
them by it. Strings, inputs and outputs are not touched. A lemma that would then have
the name of what it speaks of gets `_lem`. It says which names fall together, and which become the name of a function of src/.
"""
import os
import re
import sys

ROOT = os.path.dirname(os.path.dirname(os.path.realpath(__file__)))
TOKEN = re.compile(r"[^\W\d][\w'₀-₉-]*")
DECLARED = re.compile(r"^\s*(?:pub\s+)?(?:(?:abbrev|unfoldable|opaque)\s+)?(?:pub\s+)?((?:[^\W\d][\w'₀-₉-]*)(?:\s+[^\W\d][\w'₀-₉-]*)*)\s*:\s(?!=)")
NAMED = re.compile(r"^\s*(?:abbrev\s+)?(?:pub\s+)?(?:data|record)\s+([^\W\d][\w'₀-₉-]*)")
MADE = re.compile(r":\s*(?:goal|need)\.")
IMPORT = re.compile(r"(?:ghost )?use (Rattle\.(\w+)\.[\w.'+-]*)\.\{([^}]*)\}")


def files(*ends):
    for folder, dirs, names in os.walk(os.path.join(ROOT, "crates")):
        dirs[:] = sorted(d for d in dirs if d != "out")
        for n in sorted(names):
            if n.endswith(ends):
                yield os.path.join(folder, n)


def read(path):
    with open(path, encoding="utf-8") as f:
        return f.read()


def without_comments(text):
    return re.sub(r"--(?=\s|$).*", "", text)


def snake(name):
    if name[0].isupper():
        return "".join(p[:1].upper() + p[1:] for p in name.split("-"))
    name = re.sub(r"(?<=[a-z0-9₀-₉])([A-Z])", lambda m: "_" + m[1].lower(), name)
    return name.replace("-", "_")


def declared():
    """Name -> crates that declare it in specs/ or proofs/, without the answers to goals."""
    found = {}
    for path in files(".antt"):
        crate = os.path.relpath(path, os.path.join(ROOT, "crates")).split(os.sep)[0]
        for line in without_comments(read(path)).splitlines():
            m = NAMED.match(line)
            if m:
                found.setdefault(m[1], set()).add(crate)
                continue
            m = DECLARED.match(line)
            if m and not MADE.search(line) and not line.lstrip().startswith(("use ", "let ", "module ", "(")):
                for name in m[1].split():
                    found.setdefault(name, set()).add(crate)
    return found


def imported():
    """Names that come from outside the repository."""
    own = set(os.listdir(os.path.join(ROOT, "crates")))
    names = set()
    for path in files(".antt", ".rt"):
        for m in IMPORT.finditer(read(path)):
            if m[2] not in own:
                names |= {n.split(" as ")[-1].strip() for n in m[3].split(",")}
    return names


def source_names():
    """Crate -> names of src/ with an underscore: functions, parameters, locals, fields."""
    found = {}
    for path in files(".rt"):
        crate = os.path.relpath(path, os.path.join(ROOT, "crates")).split(os.sep)[0]
        text = re.sub(r'"(?:\\.|[^"\\])*"', '""', read(path))
        found.setdefault(crate, set()).update(re.findall(r"\b[a-z][a-z0-9]*(?:_[a-z0-9]+)+\b", text))
    return found


def main():
    outside = imported()
    names = declared()
    turned = {n: snake(n) for n in names if snake(n) != n and n not in ("_",)}
    for n in sorted(turned):
        if n in outside:
            print(f"left: {n}: std has this name too")
    turned = {n: t for n, t in turned.items() if n not in outside}
    by_new = {}
    for n, t in turned.items():
        by_new.setdefault(t, []).append(n)
    # a lemma that would have the name of what it speaks of
    for t, olds in list(by_new.items()):
        for n in olds:
            if "-" in n and (len(olds) > 1 or t in names) and t + "_lem" not in names:
                turned[n] = t + "_lem"
                print(f"lemma: {n} -> {turned[n]}")
    by_new = {}
    for n, t in turned.items():
        by_new.setdefault(t, []).append(n)
    for t, olds in sorted(by_new.items()):
        if len(olds) > 1 or t in names or t in outside:
            where = sorted(set().union(*(names[o] for o in olds)))
            print(f"together: {', '.join(olds)} -> {t} ({', '.join(where)})" + (f"; declared already in {sorted(names[t])}" if t in names else "") + ("; in std" if t in outside else ""))
    own = source_names()
    for c, all_names in own.items():
        for t, olds in by_new.items():
            if t in all_names:
                print(f"src: {c} has {t}, and {olds[0]} becomes it")

    def turn(text, spelled):
        def one(m):
            w = m[0]
            if w in turned:
                return turned[w]
            if spelled and "-" in w and w not in outside:
                return spelled(w)
            return w

        return TOKEN.sub(one, text)

    n = 0
    for path in files(".antt", ".rt", ".edit"):
        crate = os.path.relpath(path, os.path.join(ROOT, "crates")).split(os.sep)[0]
        old = read(path)
        if path.endswith(".antt"):
            dashed = sorted(((s.replace("_", "-"), s) for s in own.get(crate, ())), key=lambda p: -len(p[0]))

            def spelled(w):
                for d, s in dashed:
                    w = re.sub(r"(?<![^-])" + re.escape(d) + r"(?![^-])", s, w)
                return w

            new = turn(old, spelled)
        elif path.endswith(".rt"):
            parts = re.split(r'("(?:\\.|[^"\\\n])*"|b?\'(?:\\.|[^\'\\\n])\')', old)
            new = "".join(p if i % 2 else turn(p, None) for i, p in enumerate(parts))
        else:
            new = turn(old, None)
        if new != old:
            n += 1
            with open(path, "w", encoding="utf-8") as f:
                f.write(new)
    print(f"{len(turned)} names, {n} files")
    return 0


if __name__ == "__main__":
    sys.exit(main())
