#!/usr/bin/env python3
"""Lists the places of docs/DESIGN-PASS.md in the sources of a checkout: tools/places.py [ROOT] [POINT..].

It goes by text, so a place that it names is one to read, and a line of the page says what came of it. Points:

1a  an enum with a case `Refused(..)`, or of two cases of which one or both hold a value
1b  a bool or a number for a refusal beside values: a field `ok`, `dropped`, `agreed`, `two`, `negative`, `refusal`, `relation`
1c  a function that answers a number for a refusal, a kind or a relation: `.. -> u8` by its name
1d  a constant or a parameter that stands for a refusal, for none or for a relation
3   a `while`
4a  a helper that compares, copies, converts or picks by hand: a function of one expression, by its body
4b  printing by hand: a call of the kit's `io` or of `show`
5   a fact that stands in the `requires` of three or more functions
5b  three or more parameters of the same names and types in three or more functions
6   an array with places: a field or a local `[T; N]`
"""
import re
import sys
from collections import defaultdict
from pathlib import Path


def sources(root):
    for path in sorted(Path(root, "crates").glob("*/src/**/*.rt")):
        yield path.relative_to(Path(root, "crates")), path.read_text()


def line_of(text, at):
    return text.count("\n", 0, at) + 1


def past(text, at, opens, closes):
    """The place behind the bracket that closes the one at `at`; the arrow of a result closes none."""
    deep = 0
    while at < len(text):
        deep += (text[at] == opens) - (text[at] == closes and text[at - 1 : at + 1] != "->")
        at += 1
        if not deep:
            break
    return at


def functions(text):
    for m in re.finditer(r"\bfn (\w+)", text):
        at = m.end()
        if text[at : at + 1] == "<":
            at = past(text, at, "<", ">")
        if text[at : at + 1] != "(":
            continue
        end = past(text, at, "(", ")")
        result = re.match(r"\s*->\s*([^\n{]+?)\s*(?=\n|\{)", text[end:])
        yield m.start(), m.group(1), text[at + 1 : end - 1], result.group(1).strip() if result else ""


def body(text, at):
    start = text.find("\n{", at)
    end = text.find("\n}", start)
    return text[start + 2 : end].strip() if start >= 0 else ""


def enums(text):
    for m in re.finditer(r"enum (\w+)(?:<[^>]*>)? \{(.*?)\n\}", text, re.S):
        cases = re.findall(r"^    (?:#\[.*\]\s*)?(\w+)( *[({].*)?", m.group(2), re.M)
        yield m.start(), m.group(1), cases


def point_1a(text):
    for at, name, cases in enums(text):
        held = [bool(values.strip(" ,")) for _, values in cases]
        if any(case == "Refused" for case, _ in cases) or (len(cases) == 2 and any(held)):
            yield at, "enum " + name


def point_1b(text):
    for m in re.finditer(r"^    (?:pub )?(ok|dropped|agreed|two|negative|refusal|relation): (bool|u8)", text, re.M):
        yield m.start(), m.group(0).strip()


def point_1c(text):
    for at, name, _, result in functions(text):
        if result == "u8" and re.search(r"refus|relation|compare|kind_for|first_of|place_of", name):
            yield at, "fn " + name


def point_1d(text):
    for m in re.finditer(r"const (EQUAL|FIRST_DOMINATES|SECOND_DOMINATES|INCOMPARABLE|TOO_MANY|NO_NODE)\b", text):
        yield m.start(), m.group(0)
    for at, name, parameters, _ in functions(text):
        for p in re.findall(r"\b(refusal|more|relation): u8|\b(none): usize", parameters):
            yield at, "fn %s(%s)" % (name, p[0] or p[1])


def point_3(text):
    for m in re.finditer(r"\bwhile\b(?! let)[^\n]*", text):
        if not text[: m.start()].rsplit("\n", 1)[-1].strip().startswith("//"):
            yield m.start(), m.group(0)


BY_HAND = [
    r"a (<=|<|==) b",
    r"if a (<=|<) b \{ [ab] \} else \{ [ab] \}",
    r"if \w+ == 0 \{ 0 \} else \{ \w+ - 1 \}",
    r"if b < a \{ a - b \} else \{ 0 \}",
    r"x as usize",
    r"if \w+ < \w+\.len\(\) \{ \w+\[\w+\] \} else \{ \w+ \}",
    r"if \w+ < \w+\.len\(\) \{\s*\w+\[\w+\] = \w+;\s*\}",
    r"if n <= limits::MAX_WISHES \{\s*n\s*\} else \{\s*limits::MAX_WISHES\s*\}",
    r"if \w+ == 0 \{\s*return 0;\s*\}\s*1",
    r"if \w+ != \w+ \{ 1 \} else \{ 0 \}",
]


def point_4a(text):
    for at, name, _, _ in functions(text):
        if any(re.fullmatch(p, body(text, at)) for p in BY_HAND):
            yield at, "fn " + name
    for m in re.finditer(r"^        Class::Unknown => true,", text, re.M):
        yield m.start(), "a match for =="


def point_4b(text):
    for m in re.finditer(r"\b(io::write_all|io::print_decimal|show::\w+)\(", text):
        yield m.start(), m.group(1)


def point_6(text):
    for m in re.finditer(r"^    (?:pub )?\w+: \[[^\]]+; [^\]]+\],|let (?:mut )?\w+(?:: [^=]+)? = \[[^\]]*; [^\]]+\]", text, re.M):
        yield m.start(), m.group(0).strip()


def repeated_facts(root):
    places = defaultdict(set)
    for path, text in sources(root):
        for m in re.finditer(r"requires(?: \w+)? \{(.*?)\}\n", text, re.S):
            clause = re.sub(r"\s+", " ", m.group(1)).strip()
            for fact in clause.split(" × "):
                places[fact.strip("() ")].add((str(path), line_of(text, m.start())))
    for fact, at in sorted(places.items()):
        if len(at) >= 3:
            yield fact, at


def repeated_parameters(root):
    places = defaultdict(set)
    for path, text in sources(root):
        for at, name, parameters, _ in functions(text):
            each = [re.sub(r"\s+", " ", p).strip() for p in parameters.split(",") if p.strip()]
            for i in range(len(each)):
                for n in range(3, len(each) - i + 1):
                    places[", ".join(each[i : i + n])].add((str(path), name))
    longest = [g for g in places if len(places[g]) >= 3]
    for group in sorted(longest):
        if not any(group != g and group in g and places[g] == places[group] for g in longest):
            yield group, places[group]


POINTS = {"1a": point_1a, "1b": point_1b, "1c": point_1c, "1d": point_1d, "3": point_3, "4a": point_4a, "4b": point_4b, "6": point_6}


def main(arguments):
    root = arguments[0] if arguments else "."
    for point in arguments[1:] or list(POINTS) + ["5", "5b"]:
        if point in ("5", "5b"):
            found = list((repeated_facts if point == "5" else repeated_parameters)(root))
            for what, at in found:
                print("%s: %s: %s" % (point, what, ", ".join("%s:%s" % place for place in sorted(at))))
            print("%s: %d" % (point, len(found)))
            continue
        count, product = 0, 0
        for path, text in sources(root):
            for at, what in POINTS[point](text):
                print("%s: %s:%d: %s" % (point, path, line_of(text, at), what))
                count += 1
                product += not str(path).startswith("test_")
        print("%s: %d, %d of them in the product" % (point, count, product))


if __name__ == "__main__":
    main(sys.argv[1:])
