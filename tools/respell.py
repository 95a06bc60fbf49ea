#!/usr/bin/env python3
"""Spells this repository's own names as today's Rattle spells names, in every .rt and .antt file below crates/.

usage: python3 tools/respell.py        at the top, once, on what port.py left

Three rules, after port.py's own:
1. a definition or lemma in camel case, or a part of its name between dashes, is in snake case: winsOver is wins_over;
2. a field of a record has no dash: cost-small is cost_small. Where a lemma has the field's very name, the lemma keeps its dash;
3. a type has neither dash nor underscore: Kept-in is KeptIn.

Names of functions of src/, exported names, strings and files' names stay. A line 'meets:' says that a file has the new spelling of a
name already: a function, a clause or a local name, each beside a definition of its name.
"""

import os
import re
import sys

W = r"[^\s(){}.;,@\"«»\[\]]+"
DECLARED = re.compile(r"^( *)((?:(?:abbrev|unfoldable|pub) )*)(" + W + r")(?: \{[^{}\n]*\}| \([^()\n]*\))* :(?: |$)")
TOKEN = re.compile(r"--[^\n]*|//[^\n]*|\"(?:[^\"\\]|\\.)*\"|(?<![\w'′-])[A-Za-z_][\w'′₀-₉-]*")
CAMEL = re.compile(r"[a-z][a-z0-9]*(?:[A-Z][A-Za-z0-9]*)+")
TYPES = {"Found_at": "FoundAt", "Kept-in": "KeptIn", "Layers-in": "LayersIn"}


def texts():
    for folder, dirs, files in os.walk("crates"):
        dirs[:] = sorted(d for d in dirs if d != "out")
        for f in sorted(files):
            if f.endswith((".rt", ".antt")):
                yield os.path.join(folder, f)


def read(path):
    with open(path, encoding="utf-8") as f:
        return f.read()


def snake(word):
    return re.sub(r"(?<=[a-z0-9])[A-Z]", lambda m: "_" + m[0].lower(), word)


def fields_and_lemmas():
    """The dashed names of records' fields, and the names that are declared at the left margin."""
    fields, tops = set(), set()
    for path in texts():
        if not path.endswith(".antt"):
            continue
        in_record = False
        for line in read(path).splitlines():
            if re.match(r"\S", line):
                in_record = bool(re.match(r"(pub |abbrev )*record ", line))
            m = DECLARED.match(line)
            if m and not m[1]:
                tops.add(m[3])
            elif m and in_record and "pub" in m[2] and "-" in m[3]:
                fields.add(m[3])
    return fields, tops


def turned(path, fields, both, said):
    def one(m):
        w = m[0]
        if w.startswith(('"',)):
            return w
        if w.startswith(("--", "//")):
            return re.sub(r"(?<![\w'-])[A-Za-z_][\w'-]*", lambda n: named(n[0], "", ""), w)
        before, after = m.string[max(0, m.start() - 1) : m.start()], m.string[m.end() : m.end() + 3]
        return named(w, before, after)

    def named(w, before, after):
        if w in TYPES:
            return TYPES[w]
        if w in both:
            return w.replace("-", "_") if before == "." or after.startswith(" = ") else w
        if w in fields:
            return w.replace("-", "_")
        return "-".join(snake(p) if CAMEL.fullmatch(p) else p for p in w.split("-"))

    text = read(path)
    had = set(TOKEN.findall(text))
    new = TOKEN.sub(one, text)
    for w in sorted(had):
        n = named(w, "", "") if not w.startswith(('"', "--", "//")) else w
        if n != w and n in had:
            said.append(f"meets: {path}: {w} and {n}")
    return text, new


def main():
    fields, tops = fields_and_lemmas()
    both = fields & tops
    said, changed = [], 0
    for path in texts():
        old, new = turned(path, fields, both, said)
        if new != read(path):
            changed += 1
            if "--dry" not in sys.argv:
                with open(path, "w", encoding="utf-8") as f:
                    f.write(new)
    print("\n".join(said))
    print(f"respell: {changed} files; fields without their dash: {len(fields)}; lemmas of a field's name: {' '.join(sorted(both))}")


main()
