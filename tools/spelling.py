#!/usr/bin/env python3
"""Brings the names of this repository's definitions and lemmas to today's spelling: snake case, where they had dashes or capitals inside.

    python3 tools/spelling.py          in a checkout that port.py has just turned: renames in place, and lists what it did in tools/spelling.tsv

Names that come from the library or from Rattle's own text stay. Names that would fall together are told apart by FIXED.
"""
import glob
import os
import re
import sys

ROOT = os.path.dirname(os.path.dirname(os.path.abspath(__file__)))
CRATES = [line.split(":")[0] for line in open(os.path.join(ROOT, "crates.txt"), encoding="utf-8") if ":" in line and not line.startswith("#")]
# What would fall together with another name, by its old spelling.
FIXED = {}
DECLARED = re.compile(r"^\s*(?:(?:pub|abbrev|unfoldable|opaque|instance|private|irrelevant) )*([^\s:(){};,.\"λ∷=]+)(?: \{[^}]*\}| \([^)]*\))* :(?: |$)")
TOKEN = re.compile(r"[^\s(){}\[\];,.\"λ]+")
OWN = re.compile(r"Rattle\.(?:" + "|".join(CRATES) + r")\.")
HAND = re.compile(r"^(?:Need|After|Then|Else|In|At|Start|Join)-")


def snake(name):
    name = re.sub(r"(?<=[a-z0-9ₐ-ₜ₀-₉'])(?=[A-Z])", "_", name)
    head = name.lstrip("_")
    parts = re.split(r"[-_]", head)
    return "_".join(p if not p else p[0].lower() + p[1:] for p in parts)


def is_old(name):
    if not re.match(r"[a-z]", name) or name.startswith("-"):
        return False
    return "-" in name or re.search(r"[A-Z]", name) is not None


def files(ext):
    for folder, dirs, names in os.walk(os.path.join(ROOT, "crates")):
        dirs[:] = sorted(d for d in dirs if d != "out")
        for n in sorted(names):
            if n.endswith(ext):
                yield os.path.join(folder, n)


def read(path):
    with open(path, encoding="utf-8", newline="") as f:
        return f.read()


def imports(text):
    """The names that a file takes from elsewhere than this repository."""
    foreign, own = set(), set()
    for m in re.finditer(r"^\s*(?:pub |ghost )?use ([^\s{;]+?)(?:\.\{([^}]*)\})?(?: as (\S+?))?;?$", text, re.M):
        where, names = m.group(1), m.group(2) or ""
        into = own if OWN.match(where) else foreign
        for n in names.split(","):
            n = n.strip()
            if n:
                into.add(n.split(" as ")[-1])
    return foreign, own


def visible(text, path):
    """The names that a file declares or imports by name."""
    foreign, own = imports(text)
    here = {m.group(1) for m in map(DECLARED.match, text.splitlines()) if m} if path.endswith(".antt") else set()
    return foreign | own | here


def declared():
    names = {}
    for path in files(".antt"):
        rel = os.path.relpath(path, ROOT)
        if os.path.basename(path) == "Lib.antt":
            continue
        for line in read(path).splitlines():
            m = DECLARED.match(line)
            if m and not line.lstrip().startswith("--"):
                names.setdefault(m.group(1), set()).add(rel)
    return names


def main():
    names = declared()
    rename = {n: FIXED.get(n, snake(n)) for n in names if is_old(n)}
    # names that Rattle makes: the invariants and measures of loops, and the theorem of a function
    for n in list(rename):
        if re.match(r"(invariant|decreases)-", n):
            del rename[n]
    by_new = {}
    for n in set(rename) | set(names):
        by_new.setdefault(rename.get(n, n), set()).add(n)
    clash = {new: olds for new, olds in by_new.items() if len(olds) > 1}
    if "--clashes" in sys.argv:
        for new, olds in sorted(clash.items()):
            print(new, {o: sorted(names.get(o, []))[:4] for o in olds})
        return
    seen = {p: visible(read(p), p) for p in [*files(".antt"), *files(".rt")]}
    for new, olds in sorted(clash.items()):
        for o in sorted(olds):
            for q in sorted(olds):
                if o < q and any(o in t and q in t for t in seen.values()):
                    late = max(o, q, key=lambda n: (not re.search(r"[A-Z]", n), "-" in n))
                    rename[late] = FIXED.get(late, new + "_lem")
    if "--captures" in sys.argv:
        for p in sorted(seen):
            t = set(TOKEN.findall(read(p)))
            bare = set(re.findall(r"(?<![\w.'-])[a-z][\w']*", read(p)))
            for o in t & set(rename):
                if rename[o] in t or rename[o] in bare:
                    print(os.path.relpath(p, ROOT), o, rename[o])
        return
    if "--list" in sys.argv:
        for n, new in sorted(rename.items()):
            print(n, new, len(names[n]))
        return
    changed = 0
    for path in [*files(".antt"), *files(".rt"), *files(".edit")]:
        text = read(path)
        foreign, own = imports(text)
        mine = {o: n for o, n in rename.items() if (o not in foreign or o in own) and (is_old(o) or o in seen.get(path, ()))}

        def put(m):
            o = m.group(0)
            if not is_old(o) and "." in (m.string[max(0, m.start() - 1) : m.start()], m.string[m.end() : m.end() + 1]):
                return o  # a part of a path, or a field, with the spelling of the source
            return mine.get(o, o)

        lines = []
        for line in text.split("\n"):
            if path.endswith(".rt"):
                if line.lstrip().startswith("//"):
                    line = re.sub(r"`([^`]+)`", lambda m: "`" + TOKEN.sub(put, m.group(1)) + "`", line)
                else:
                    line = TOKEN.sub(put, line)
            elif line.lstrip().startswith("--"):
                line = re.sub(r"`([^`]+)`", lambda m: "`" + TOKEN.sub(put, m.group(1)) + "`", line)
            elif path.endswith(".edit") and not line.startswith(("old:", "new:")):
                pass
            else:
                line = apply(line, put)
            lines.append(line)
        new = "\n".join(lines)
        if new != text:
            changed += 1
            with open(path, "w", encoding="utf-8", newline="") as f:
                f.write(new)

    def named(m):
        """A name in a page: as it was renamed here, or as port.py had renamed it before."""
        o = m.group(0)
        return o if not is_old(o) else rename.get(o, snake(o) if snake(o) in names else o)

    for path in [os.path.join(ROOT, "README.md"), *glob.glob(os.path.join(ROOT, "docs", "**", "*.md"), recursive=True)]:
        text = read(path)
        new = re.sub(r"`([^`\n]+)`", lambda m: "`" + TOKEN.sub(named, m.group(1)) + "`", text)
        if new != text:
            changed += 1
            with open(path, "w", encoding="utf-8", newline="") as f:
                f.write(new)
    with open(os.path.join(ROOT, "tools", "spelling.tsv"), "w", encoding="utf-8") as f:
        f.writelines(f"{o}\t{n}\n" for o, n in sorted(rename.items()))
    print(f"spelling: {len(rename)} names, {changed} files")


def apply(line, put):
    """The line with its names put, outside its strings."""
    parts = re.split(r'("(?:[^"\\]|\\.)*")', line)
    return "".join(p if i % 2 else TOKEN.sub(put, p) for i, p in enumerate(parts))


main()
