#!/usr/bin/env python3
"""Brings the repository's own definitions and lemmas to the kit's spelling: words in snake case, a dash only between
two names. Run once, at the top, after the port's own scripts. It prints each name with its new spelling, and stops
before it writes anything where two names of one file would fall together."""
import os
import re
import sys

WORD = re.compile(r"[^\s(){}\[\].,;:λ|\"`«»@/]+")
DECLARED = re.compile(r"^\s*(?:(?:pub|abbrev|unfoldable|opaque) )*([^\s(){}.,;:]+(?: [^\s(){}.,;:]+)*) :(?:\s|$)")
PAGES = ["README.md", "docs/READING.md", "docs/TRACE.md", "docs/DECISIONS.md", "tests/README.md"]
# words of the library that a dash may join
LIBRARY = set("length set get_or take drop replicate append map sum reverse cond min max suc add mul sub eqb leb ltb".split())
# comments and paths, where a function of the code may have the name of a definition
BESIDE = re.compile(r"--.*|Rattle(?:\.[^\s.{}]+)+")
# names that two things have which stand apart: a field and a lemma, a local lemma and a definition
APART = {"same_code", "key_in"}
# a lemma that the port's own scripts gave the name of a definition; names that are not declared on a line of their own,
# or that name a word of the library by its older name
LEMMAS = {
    "count_at": "count_at_lem",
    "sumBy": "sum_by",
    "sumBy-places": "sum_by_places",
    "tabulateFrom": "tabulate_from",
    "listedN": "listed_n",
    "storeN": "store_n",
    "lentWindows": "lent_windows",
    "lentPlaces": "lent_places",
    "lentList": "lent_list",
    "outA": "out_a",
    "outB": "out_b",
    "outAB": "out_ab",
    "cutFree": "cut_free",
    "rowDue": "row_due",
    "childDue": "child_due",
    "beforeParent": "before_parent",
    "getD-all": "get_or_all",
    "getD-any": "get_or_any",
    "get_d_any": "get_or_any",
    "getD-flatten": "get_or_flatten",
    "getD-from": "get_or_from",
    "getD-set": "get_or_set",
    "get_d_set": "get_or_set",
    "getD-tabulate": "get_or_tabulate",
    "get_d_tabulate": "get_or_tabulate",
}
COMMENT = re.compile(r"(?m)(?:--|//).*$")
RESERVED = set("record data open in as use mod pub let elim where module unfolding abbrev result entry exit now old new".split())


def files(suffixes):
    for folder, dirs, names in os.walk("crates"):
        dirs[:] = sorted(d for d in dirs if d != "out")
        for name in sorted(names):
            if name.endswith(suffixes):
                yield os.path.join(folder, name)


def read(path):
    with open(path, encoding="utf-8") as f:
        return f.read()


def write(path, text):
    if text != read(path):
        with open(path, "w", encoding="utf-8") as f:
            f.write(text)


def declared(path):
    if "/src/" in path or path.endswith("/Proof.antt"):
        return
    for line in read(path).splitlines():
        m = DECLARED.match(line)
        if m and not line.lstrip().startswith(("--", "let ", "use ", "λ", "→", "module ")):
            yield from m.group(1).split()


def snake(part):
    if not part[:1].islower():
        return part
    return re.sub(r"(?<=[a-z0-9'₀-₉])([A-Z])", lambda m: "_" + m.group(1).lower(), part)


def plan(names, definitions):
    known = LIBRARY | {snake(n) for n in definitions}
    new = {}
    for n in sorted(names):
        parts = [snake(p) for p in n.split("-")]
        if "" in parts or not re.search(r"[A-Za-z]", n):
            continue
        to = parts[0]
        for left, right in zip(parts, parts[1:]):
            to += ("-" if left in known and right in known else "_") + right
        if to != n:
            new[n] = to + "_lem" if to in RESERVED else to
    return new


def main():
    names = {n for path in files((".antt",)) for n in declared(path)}
    definitions = {
        m.group(1)
        for path in files((".antt",))
        if "/specs/" in path
        for m in re.finditer(r"(?m)^ *(?:abbrev |unfoldable )(?:pub )?([^\s:-]+) :", read(path))
    }
    new = plan(names, definitions) | LEMMAS
    here = {path: set(WORD.findall(BESIDE.sub("", read(path)))) for path in files((".antt",))}
    # names that fall together: a lemma beside a definition of its name gets `_lem`
    for _ in range(3):
        bad = set()
        for path, words in here.items():
            seen = {}
            for w in sorted(words, key=lambda w: (w in new, "-" in w, w)):
                to = new.get(w, w)
                if to in seen and seen[to] != w and to not in APART:
                    bad.add(w)
                    print(f"together: {path}: {seen[to]} and {w}", file=sys.stderr)
                seen.setdefault(to, w)
        for w in bad:
            if w in new:
                new[w] += "_lem"
        if not bad:
            break
    else:
        raise SystemExit("names fall together")
    turned = {to for words in here.values() for to in (new.get(w, w) for w in words)}

    def word(w):
        # an edit's text stands in the older spelling of the names that the port's own scripts turned, too
        return new.get(w) or (snake(w) if w != snake(w) and snake(w) in turned else w)

    def name(m):
        return new.get(m.group(0), m.group(0))

    def in_comment(m):
        # a dash in plain words is no name's
        parts = re.split(r"(`[^`]*`)", m.group(0))
        plain = [WORD.sub(lambda w: w.group(0) if "-" in w.group(0) else name(w), p) for p in parts[::2]]
        parts[::2] = plain
        parts[1::2] = [WORD.sub(name, p) for p in parts[1::2]]
        return "".join(parts)

    for path in files((".antt", ".rt")):
        text, to, at = read(path), "", 0
        for m in COMMENT.finditer(text):
            to += WORD.sub(name, text[at : m.start()]) + in_comment(m)
            at = m.end()
        write(path, to + WORD.sub(name, text[at:]))
    for path in files((".edit",)):
        write(path, WORD.sub(lambda m: word(m.group(0)), read(path)))
    for path in PAGES:
        write(path, re.sub(r"`[^`\n]+`", lambda m: WORD.sub(lambda w: word(w.group(0)), m.group(0)), read(path)))
    for n, to in sorted(new.items()):
        print(n, to)


main()
