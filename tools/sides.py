#!/usr/bin/env python3
"""Puts old and new side by side for docs/DESIGN-PASS.md: tools/sides.py OLD NEW KIT.

OLD and NEW are folders with crates/, KIT the folder of the kit's contracts.py (`port/` of the kit). It goes by the
product's crates, those of crates.txt before the line of programs, and prints the lists of public functions, ghost
items and definitions whose text differs. A line break and a `pub` that came do not count.
"""
import collections
import os
import re
import sys
import textwrap

OLD, NEW, KIT = sys.argv[1:4]
sys.path.insert(0, KIT)
import contracts  # noqa: E402

WIDTH = 150


def product(root):
    text = open(os.path.join(root, "crates.txt"), encoding="utf-8").read()
    text = text.split("# Programs that show or try something")[0]
    return {m[1] for m in re.finditer(r"^(\w+)(?: \w+)?:", text, re.M)}


CRATES = product(OLD) | product(NEW)


def lines(sign, text):
    return textwrap.wrap(text, WIDTH, initial_indent=sign + " ", subsequent_indent=sign + "     ", break_long_words=False, break_on_hyphens=False)


def clause(sign, c):
    name = c[1] + " " if c[1] else ""
    return textwrap.wrap("%s %s{ %s }" % (c[0], name, c[2]), WIDTH, initial_indent=sign + "     ", subsequent_indent=sign + "         ", break_long_words=False, break_on_hyphens=False)


def shown(sign, key, f):
    name = (key[2] + "." if key[2] else "") + key[3]
    out = lines(sign, "%sfn %s%s" % ("pub " if f["pub"] else "", name, f["sign"]))
    for c in f["requires"] + f["ensures"]:
        out += clause(sign, c)
    return out


def plain(f):
    return [(k, x) for k, v in sorted(f.items()) for x in v if not x["test"] and not x["in tests"] and k[0] in CRATES]


def pairs(olds, news):
    tests = (
        lambda a, x, b, y: a == b and contracts.clauses(x) == contracts.clauses(y),
        lambda a, x, b, y: a == b,
        lambda a, x, b, y: (a[0], a[2], a[3]) == (b[0], b[2], b[3]),
        lambda a, x, b, y: a[2:] == b[2:] and contracts.clauses(x) == contracts.clauses(y),
        lambda a, x, b, y: (a[0], a[3]) == (b[0], b[3]) and contracts.clauses(x) == contracts.clauses(y),
        lambda a, x, b, y: (a[0], a[3]) == (b[0], b[3]),
    )
    left, found = list(range(len(news))), []
    for test in tests:
        by, alone = collections.defaultdict(list), []
        for i in left:
            by[news[i][0][3]].append(i)
        for a, x in olds:
            i = next((i for i in by[a[3]] if test(a, x, *news[i])), None)
            if i is None:
                alone.append((a, x))
            else:
                by[a[3]].remove(i)
                left.remove(i)
                found.append(((a, x), news[i]))
        olds = alone
    return found, olds, [news[i] for i in left]


def same_text(sign):
    return re.sub(r",? \)", ")", re.sub(r"\( ", "(", sign)).replace(", )", ")")


def functions(of, nf):
    found, gone, came = pairs(plain(of), plain(nf))
    changed = []
    for (a, x), (b, y) in found:
        if not (x["pub"] or y["pub"]):
            continue
        head = lambda f: same_text(f["sign"])  # noqa: E731
        facts = lambda f: [(c[0], c[2]) for c in f["requires"] + f["ensures"]]  # noqa: E731
        if head(x) != head(y) or sorted(facts(x)) != sorted(facts(y)) or (x["pub"] and not y["pub"]):
            where = "  %s %s" % b[:2] if a[:2] == b[:2] else "  %s %s → %s %s" % (*a[:2], *b[:2])
            changed.append([where] + shown("-", a, x) + shown("+", b, y))
    gone = [["  %s %s" % a[:2]] + shown("-", a, x) for a, x in gone if x["pub"]]
    came = [["  %s %s" % b[:2]] + shown("+", b, y) for b, y in came if y["pub"]]
    return changed, gone, came


def ghosts(og, ng):
    out = []
    for k in sorted(set(og) | set(ng)):
        if k[0] not in CRATES or k[1] == "const" or sorted(og.get(k, [])) == sorted(ng.get(k, [])):
            continue
        block = ["  %s %s: %s" % k]
        for t in og.get(k, []):
            block += lines("-", t)
        for t in ng.get(k, []):
            block += lines("+", t)
        out.append(block)
    return out


def specs(root):
    found = collections.defaultdict(list)
    for crate in sorted(CRATES):
        base = os.path.join(root, "crates", crate)
        for folder, dirs, names in os.walk(os.path.join(base, "specs")):
            dirs.sort()
            for f in sorted(names):
                if f.endswith(".antt"):
                    path = os.path.join(folder, f)
                    law = os.sep + "Laws" in path
                    for name, texts in contracts.definitions(open(path, encoding="utf-8").read()).items():
                        for t in texts:
                            found[crate, name].append((os.path.relpath(path, base), statement(name, t) if law else t))
    return found


def statement(name, text):
    """Of a law the statement: what stands before its first equation."""
    m = re.search(r" (?=%s(?: [^:=]*)? = )" % re.escape(name), text)
    if m and not re.match(r"(?:abbrev|unfoldable|pub (?:abbrev|unfoldable|record|data)|abbrev pub|unfoldable pub|record|data)\b", text):
        text = text[: m.start()]
        return text.split(" unfolding ")[0]
    return text


def bare(text):
    return re.sub(r"\bpub ", "", contracts.squeeze(text))


def definitions():
    old, new = specs(OLD), specs(NEW)
    everywhere = collections.defaultdict(list)
    for (crate, name), items in new.items():
        for path, text in items:
            everywhere[name].append((crate, path, text))
    same, changed, gone, moved = 0, [], [], collections.defaultdict(list)
    for (crate, name), items in sorted(old.items()):
        here = [bare(t) for _, t in new.get((crate, name), [])]
        for path, text in items:
            if bare(text) in here:
                same += 1
                continue
            elsewhere = [(c, p) for c, p, t in everywhere[name] if bare(t) == bare(text)]
            if elsewhere:
                moved[crate, "%s/%s" % elsewhere[0]].append(name)
                continue
            if here:
                mine = sorted(new[crate, name], key=lambda i: i[0] != path)[0]
                changed.append(["  %s %s: %s" % (crate, path, name)] + lines("-", text) + lines("+", mine[1]))
            else:
                block = ["  %s %s: %s (gone)" % (crate, path, name)] + lines("-", text)
                for c, p, t in everywhere[name][:3]:
                    block += lines("+", "%s %s %s" % (c, p, t))
                gone.append(block)
    return same, changed, gone, moved


def fenced(title, blocks):
    print("### %s\n\n```" % title)
    for block in blocks:
        print("\n".join(block))
    print("```\n")


def main():
    _, of, og, _, _, _ = contracts.read(OLD)
    _, nf, ng, _, _, _ = contracts.read(NEW)
    changed, gone, came = functions(of, nf)
    fenced("Public functions of the product whose signature or clauses changed", changed)
    fenced("Public functions that went", gone)
    fenced("Public functions that came", came)
    fenced("Ghost fields and invariants of types", ghosts(og, ng))
    same, changed, gone, moved = definitions()
    print("### Definitions, laws and theorems of specs/\n")
    whole = sum(len(v) for v in moved.values())
    text = (
        "%d are the same to the letter; of %d the text changed, %d went from their crate by this name, %d moved whole. Of a law "
        "the statement stands here, of a definition all of it. Most changes follow a type: an answer that was an enum of its crate "
        "is a `Result`, `ok` and `count` of a walk are one `Result`, and the parameters of the window engine are its machine."
    ) % (same, len(changed), len(gone), whole)
    print("\n".join(textwrap.wrap(text, 110)) + "\n\n```")
    for block in changed + gone:
        print("\n".join(block))
    print("```\n\nMoved whole:\n")
    for (crate, to), names in sorted(moved.items()):
        item = "- from `%s` to %s: %s" % (crate, to, ", ".join("`%s`" % n for n in names))
        print("\n".join(textwrap.wrap(item, 110, subsequent_indent="  ", break_on_hyphens=False)))


main()
