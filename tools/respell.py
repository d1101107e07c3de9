#!/usr/bin/env python3
"""Brings the repository's own names to the spelling of today's Rattle, after the kit's port.py has run:

- definitions, lemmas, fields and constructors of specs/ and proofs/ are in snake case; types and modules keep their capital;
- the crate `log` is `run_log`, since the kit has a library of that name.

Names that Rattle makes (answers to goals, the steps of a function) and names of the library keep their spelling, and so do
functions, strings, inputs and outputs. Usage, at the top of the repository: python3 tools/respell.py [--look]
With --look nothing is written: it lists the names that would fall together with another in one file.
"""
import os
import re
import sys

CRATE = ("log", "run_log")
WORD = re.compile(r"[^\s(){}\[\];,.\"`|:*]+")
DECL = re.compile(r"^ *(?:(?:abbrev|unfoldable|pub|record|data) )*([^\s(){};,.:\"]+)(?: [^=]*?)? :(?: |$)")
PART = re.compile(r"^ *(?:pub )?(?:record|data) .* where$")
# parts that a word list of the kit has another word for
PARTS = {"getD": "get_or"}
# lemmas that port.py has turned already, beside a function of ours that gets this name
BESIDE = ["edges_by"]


def snake(name):
    for old, new in PARTS.items():
        name = name.replace(old, new)
    name = name.replace("′", "'").replace("-", "_")
    name = re.sub(r"(?<=[a-z0-9])(?=[A-Z])", "_", name)
    return name.lower() if re.search(r"[A-Z]", name) else name


def wants(name):
    """A name of ours that is not in snake case, and is no type."""
    if not re.match(r"[a-z]", name) or not re.search(r"[-A-Z′]", name):
        return False
    return not name.endswith("-")


def files(*ends):
    for folder, dirs, names in os.walk("crates"):
        dirs[:] = sorted(d for d in dirs if d != "out")
        for name in sorted(names):
            if name.endswith(ends):
                yield os.path.join(folder, name)


def read(path):
    with open(path, encoding="utf-8") as f:
        return f.read()


def declared(text):
    """Names that a file declares, answers to goals apart: (ours, made)."""
    ours, made = set(), set()
    fields = set()
    lines = text.split("\n")
    inside = None
    for line in lines:
        if inside is not None and line.strip() and len(line) - len(line.lstrip()) <= inside:
            inside = None
        m = DECL.match(line)
        if m:
            name = m.group(1)
            kind = line.split(" :", 1)[1].strip() if " :" in line else ""
            if re.match(r"(tie|lts|goal)\.|\{M : Type 1\} → statement", kind):
                made.add(name)
            elif wants(name):
                ours.add(name)
                if inside is not None:
                    fields.add(name)
        if PART.match(line):
            inside = len(line) - len(line.lstrip())
    return ours, made, fields


def imported(text, own):
    """Names that a file takes from the library."""
    names = set()
    for path, items in re.findall(r"(?m)^(?:ghost )?use ([^\s{;]+?)\.?\{([^}]*)\}", text):
        m = re.match(r"Rattle\.(\w+)\.", path)
        if m and m.group(1) in own:
            continue
        for item in items.split(","):
            names.add(item.split(" as ")[-1].strip())
    return names


def main(look):
    own = {d for d in os.listdir("crates") if os.path.isdir(os.path.join("crates", d))} | {CRATE[1]}
    texts = {p: read(p) for p in files(".antt")}
    ours, fields, made_in = set(), set(), {}
    for path, text in texts.items():
        a, b, c = declared(text)
        ours |= a
        fields |= c
        made_in[path] = b
    table = {n: snake(n) for n in ours}
    # a lemma that would have its function's name, and a field or lemma beside a function of that name
    plain = {m.group(1) for t in texts.values() for m in map(DECL.match, t.split("\n")) if m} - ours
    for name in sorted(ours):
        if "-" in name and (snake(name) in plain or any(table[n] == snake(name) for n in ours if "-" not in n)):
            table[name] = snake(name) + "_lem"
    table |= {n: n + "_lem" for n in BESIDE}
    said = 0

    def turned(text, keep, dotted):
        def one(m):
            word = m.group(0)
            if word in keep or word not in table:
                return word
            if text[m.start() - 1 : m.start()] == "." and word not in fields:
                return word
            return table[word]

        return WORD.sub(one, text)

    def crate(text):
        text = re.sub(r"(?<![\w.])Rattle\.log\.", "Rattle.run_log.", text)
        return text

    changes = {}
    for path, text in texts.items():
        lib = imported(text, own)
        keep = made_in[path] | lib
        new = crate(turned(text, keep, True))
        changes[path] = new
        # names that fall together: a turned name that the file has already, declared elsewhere or bound
        words = set(WORD.findall(text))
        for word in sorted(words & set(table) - keep):
            if table[word] in words and table[word] != word:
                said += 1
                print(f"together: {path}: {word} and {table[word]}")
            if table[word] in lib:
                print(f"library: {path}: {word}")
    back = {}
    for name, to in table.items():
        back.setdefault(to, []).append(name)
    for text in texts.values():
        for m in (DECL.match(line) for line in text.split("\n")):
            if m and m.group(1) not in table and m.group(1) in back:
                back[m.group(1)].append(m.group(1))
    for to, names in sorted(back.items()):
        if len(names) > 1:
            print("two names for", to, names)
    camel = {n: t for n, t in table.items() if re.search("[A-Z]", n)}
    for path in files(".rt"):
        text = read(path)
        out = []
        for line in text.split("\n"):
            # strings keep their text
            pieces = re.split(r'(b?"(?:[^"\\]|\\.)*")', line)
            for i in range(0, len(pieces), 2):
                def one(m):
                    word = m.group(0)
                    return table.get(word, word) if word in camel or "-" in word else word
                pieces[i] = WORD.sub(one, pieces[i])
                pieces[i] = re.sub(r"(?<![\w.:])log::", "run_log::", pieces[i])
                pieces[i] = re.sub(r"^use log;", "use run_log;", pieces[i])
            out.append(crate("".join(pieces)))
        changes[path] = "\n".join(out)
    # port.py turned some names in specs/ and proofs/ alone: edits and documents follow
    now = set(table.values()) | plain
    kept = r"[a-z][A-Za-z0-9]*[A-Z′-][A-Za-z0-9′-]*"

    def follow(word):
        if word in table:
            return table[word]
        return snake(word) if re.fullmatch(kept, word) and snake(word) in now else word

    for path in files(".edit"):
        text = read(path)
        new = crate(WORD.sub(lambda m: follow(m.group(0)), text))
        new = re.sub(r"(?<![\w.:])log::", "run_log::", new)
        changes[path] = new
    if look:
        return 0
    for path, text in changes.items():
        if text != read(path):
            with open(path, "w", encoding="utf-8") as f:
                f.write(text)
    if os.path.isdir(os.path.join("crates", CRATE[0])):
        os.rename(os.path.join("crates", CRATE[0]), os.path.join("crates", CRATE[1]))
    lines = read("crates.txt").split("\n")
    lines = [l if l.startswith("#") else re.sub(r"(?<![\w])log(?![\w])", CRATE[1], l) for l in lines]
    with open("crates.txt", "w", encoding="utf-8") as f:
        f.write("\n".join(lines))
    # the documents and the lints: names in code marks, and paths of the crate
    for path in ["README.md"] + [os.path.join("docs", n) for n in sorted(os.listdir("docs")) if n.endswith(".md") and n != "PORT.md"] + [
        os.path.join("docs", "landings", n) for n in sorted(os.listdir("docs/landings")) if n.endswith(".md")
    ]:
        text = read(path)
        pieces = text.split("`")
        for i in range(1, len(pieces), 2):
            if "\n" in pieces[i]:
                continue
            pieces[i] = follow(pieces[i])
            pieces[i] = re.sub(r"^log(?=/|$)", CRATE[1], pieces[i])
            pieces[i] = re.sub(r"^crates/log(?=/|$)", "crates/" + CRATE[1], pieces[i])
        new = "`".join(pieces)
        if new != text:
            with open(path, "w", encoding="utf-8") as f:
                f.write(new)
    return 0


if __name__ == "__main__":
    sys.exit(main("--look" in sys.argv[1:]))
