#!/usr/bin/env python3
"""Brings the names of definitions and lemmas to today's spelling: words are joined by '_', types are in camel case.

usage: python3 tools/respell.py        once, at the top, right after /opt/rattle/port/port.py

A name turns if a file of specs/ or proofs/ declares it with a dash: a definition, a lemma, a field, a constructor, or a
helper in a function's proof; BY_HAND names a few more. It turns wherever it stands as a whole word in an .antt file, in the clauses and `ghost use`
items of an .rt file, in a comment whose file has it in its code, and in a code span of a page of docs/. What the library
or Rattle itself declares keeps its spelling, and so does the code of src/. Two names that would fall together are said,
and nothing is written.
"""
import os
import re
import sys

WORD = re.compile(r'[^\s(){}.;,@"«»`]+')
DECLARED = re.compile(r"^ *(?:(?:pub|abbrev|unfoldable|private) )*([^\s(){}.;,@\"]+) :(?= |$)", re.M)
CONSTRUCTOR = re.compile(r"^ *(?:pub )?([a-z][^\s(){}.;,@\"]*) :(?= |$)", re.M)
TYPE = re.compile(r"^ *(?:pub )?(?:record|data) ([^\s(){}.;,@\"]+)", re.M)
IMPORT = re.compile(r"^(?:ghost )?use ([^\s{]+)\.\{([^}]*)\}", re.M)
COMMENT = re.compile(r"--.*")


def files(ending):
    for folder, dirs, names in os.walk("crates"):
        dirs[:] = sorted(d for d in dirs if d not in ("out", "target"))
        for name in sorted(names):
            if name.endswith(ending):
                yield os.path.join(folder, name)


def read(path):
    with open(path, encoding="utf-8") as f:
        return f.read()


# names of an older spelling that no rule turns, and one that would fall together with a name of the library
BY_HAND = {
    "1-2-3-4": "route_1_2_3_4",
    "1-2-4": "route_1_2_4",
    "1-3-2-4": "route_1_3_2_4",
    "1-3-4": "route_1_3_4",
    "drop-put": "dropped_put",
    "flatMap-mem": "flat_map_mem",
    "getD-map-in": "get_or_map_in",
    "getD-map-numbers": "get_or_map_numbers",
    "getD-mem": "get_or_mem",
    "mem-flatMap": "mem_flat_map",
    "net-of": "net_with",
    "netOf": "net_of",
}


def turned(name):
    """`cost-column` is `cost_column`, and the type `Given-in` is `GivenIn`."""
    if name in BY_HAND:
        return BY_HAND[name]
    if name[0].isupper():
        head, *rest = name.split("-")
        return head + "".join(r[:1].upper() + r[1:] for r in rest)
    return name.replace("-", "_")


def is_own(module):
    """Whether a module is one of this repository's and not one that Rattle makes beside a function."""
    return module.startswith("Rattle.") and not module.startswith("Rattle.std.")


def table():
    own, foreign, every = set(), set(), set()
    paths = {part for path in files(".antt") for part in path.split(os.sep)}
    for path in files(".antt"):
        text = COMMENT.sub("", read(path))
        every |= set(WORD.findall(text))
        for name in DECLARED.findall(text) + CONSTRUCTOR.findall(text) + TYPE.findall(text):
            line = re.search(r"(?m)^ *(?:(?:pub|abbrev|unfoldable) )*" + re.escape(name) + r" : tie\.", text)
            if ("-" in name.strip("-") or name in BY_HAND) and not line:
                own.add(name)
    for path in list(files(".antt")) + list(files(".rt")):
        text = read(path)
        for module, names in IMPORT.findall(text):
            if not is_own(module):
                foreign |= {n.strip().split(" ")[0] for n in names.split(",")}
    spellings = {}
    for name in sorted(own - foreign):
        spellings[name] = turned(name)
    back = {}
    for name, new in spellings.items():
        back.setdefault(new, []).append(name)
    together = [f"{new}: {', '.join(old)}" for new, old in back.items() if len(old) > 1 or (new in every and new not in paths)]
    return spellings, together, sorted(own & foreign)


def antt(text, names):
    """Code, and in comments the names that the code has."""
    code = set(WORD.findall(COMMENT.sub("", text)))
    out, at = [], 0
    for m in COMMENT.finditer(text):
        out.append(swap(text[at : m.start()], names))
        out.append(swap(m[0], {n: names[n] for n in code & names.keys()}))
        at = m.end()
    return "".join(out) + swap(text[at:], names)


def swap(text, names):
    return WORD.sub(lambda m: names.get(m[0], m[0]), text)


CLAUSE = re.compile(r"\b(?:requires|ensures)\b\s*\*?\s*(?:\w+\s*)?\{|\bghost\s+\w+\s*:\s*\{|\bghost\s+use\b[^;]*;|\bghost\s+invariant\b[^{]*\{")


def rust(text, names):
    out, at = [], 0
    for m in CLAUSE.finditer(text):
        if m.start() < at:
            continue
        end = m.end()
        if m[0].endswith("{"):
            depth = 1
            while depth:
                depth += {"{": 1, "}": -1}.get(text[end], 0)
                end += 1
        out += [text[at : m.start()], swap(text[m.start() : end], names)]
        at = end
    return "".join(out) + text[at:]


def edit(text, names):
    """The lines of a must-fail edit that are code."""
    return re.sub(r"(?m)^(?:old|new): .*", lambda m: swap(m[0], names), text)


def page(text, names):
    return re.sub(r"`[^`\n]+`", lambda m: swap(m[0], names), text)


def main():
    names, together, both = table()
    if together:
        print("respell: these fall together:\n" + "\n".join(together))
        return 1
    for name in both:
        print("respell: stays, since the library has it too: " + name)
    how = {".antt": antt, ".rt": rust, ".edit": edit, ".md": page}
    paths = list(files(".antt")) + list(files(".rt")) + list(files(".edit")) + ["README.md"] + sorted("docs/" + f for f in os.listdir("docs") if f.endswith(".md"))
    changed = 0
    for path in paths:
        old = read(path)
        new = how[os.path.splitext(path)[1]](old, names)
        if new != old:
            changed += 1
            with open(path, "w", encoding="utf-8") as f:
                f.write(new)
    print(f"respell: {len(names)} names, {changed} files")
    return 0


if __name__ == "__main__":
    sys.exit(main())
