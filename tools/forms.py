#!/usr/bin/env python3
"""Lists the places of older forms in crates/*/src, by the points of docs/DESIGN-PASS.md.

usage: tools/forms.py [POINT..]      at the top of the repository; prints each place, and a count for each list
"""
import collections
import difflib
import glob
import re
import sys


def functions(path):
    """The functions of a file outside its tests: name, line, parameters, result, contract, body."""
    text = open(path).read().split("#[cfg(test)]")[0]
    for m in re.finditer(r"^( *)(?:pub )?(?:extern \"C\" )?fn (\w+)", text, re.M):
        indent = m.group(1)
        end = re.search(r"^" + indent + r"\}", text[m.start():], re.M)
        whole = text[m.start():m.start() + end.end()] if end else text[m.start():]
        cut = re.search(r"^" + indent + r"\{$|\) (?:-> [^\n]*)?\{$", whole, re.M)
        head, body = (whole[:cut.start()], whole[cut.start():]) if cut else (whole, "")
        sig = re.split(r"\n *(?:requires|ensures)\b", head)[0]
        params = re.findall(r"(?:mut )?(\w+): ", re.sub(r"^[^(]*", "", sig, count=1))
        result = re.search(r"-> (.*)", sig)
        yield dict(name=m.group(2), line=text[:m.start()].count("\n") + 1, path=path, params=params,
                   result=result.group(1).strip() if result else "", contract=head[len(sig):], body=body)


def show(title, places):
    print("%s: %d" % (title, len(places)))
    for p in places:
        print("    " + p)


def at(f):
    return "%s:%d %s" % (f["path"], f["line"], f["name"])


def lines(pattern):
    out = []
    for path in FILES:
        for k, line in enumerate(open(path).read().split("#[cfg(test)]")[0].split("\n"), 1):
            code = re.sub(r"//.*", "", line)
            if not code.startswith("ghost use") and re.search(pattern, code):
                out.append("%s:%d %s" % (path, k, line.strip()))
    return out


def point1():
    enums = []
    for path in FILES:
        for m in re.finditer(r"enum (\w+)[^{]*\{(.*?)\n\}", open(path).read(), re.S):
            variants = re.findall(r"^    (\w+)([({]?)", m.group(2), re.M)
            if any(v[1] for v in variants) and any(not v[1] for v in variants):
                enums.append(path + " " + m.group(1))
    show("1a enums with a variant that holds nothing beside variants that hold something", enums)
    show("1b a code or a count in a struct beside what it tells of", lines(r"^    (pub )?(code|count): "))
    number = r"^(u8|u16|u32|usize)$"
    named = r"refus|code|fault"
    show("1c functions that answer a number for a refusal",
         [at(f) for f in FUNCTIONS if re.match(number, f["result"]) and re.search(named, f["name"])])
    show("1d functions that take such a number", [at(f) for f in FUNCTIONS if "code" in f["params"]])
    show("1e functions that answer 0 for `not right`", [at(f) for f in FUNCTIONS if "_if_ok" in f["contract"] and re.match(number, f["result"])])


def tokens(f):
    return re.findall(r"\w+|[^\w\s]", " ".join(f["params"]) + " " + f["result"] + " " + f["body"])


def point2():
    pairs = []
    own = [(f, tokens(f)) for f in FUNCTIONS]
    for i, (f, a) in enumerate(own):
        for g, b in own[i + 1:]:
            short, long = sorted((len(a), len(b)))
            if short >= 12 and short * 3 >= long * 2:
                m = difflib.SequenceMatcher(None, a, b, autojunk=False)
                if m.quick_ratio() >= 0.8 and m.ratio() >= 0.8:
                    pairs.append("%s ~ %s" % (at(f), at(g)))
    show("2a pairs of functions with at least four tokens in five alike", pairs)
    show("2b functions of one call only, with a constant put in",
         [at(f) for f in FUNCTIONS if re.fullmatch(r"\{\s*[\w:]+\((?:\w+, )*\w+::\w+(?:, \w+)*\)\s*\}", f["body"])])


def point3():
    show("3 `while` and `loop`", lines(r"^ *while |\bloop \{"))


def point4():
    show("4a casts by `as`", lines(r" as (u8|u16|u32|u64|usize)\b"))
    show("4b wrapping by hand or by a free function", lines(r"4294967296|wrapping_\w+_u"))
    show("4c a match of an enum to numbers", lines(r"^ *\w+::\w+ => \d+,"))


def point5():
    groups = collections.defaultdict(set)
    facts = collections.defaultdict(set)
    for f in FUNCTIONS:
        ps = f["params"]
        for i in range(len(ps)):
            for j in range(i + 2, len(ps) + 1):
                groups[tuple(ps[i:j])].add(at(f))
        for m in re.finditer(r"requires(?: \w+)? \{(.*?)\}", f["contract"], re.S):
            for word in re.findall(r"\b([A-Z]\w+)\b", m.group(1))[:1]:
                facts[word].add(at(f))
    kept = {g: s for g, s in groups.items() if len(s) >= 3}
    maximal = [g for g in kept if not any(g != h and len(kept[h]) >= len(kept[g]) and
                                          any(h[k:k + len(g)] == g for k in range(len(h))) for h in kept)]
    show("5a parameters that stand together in three functions or more",
         ["%3d functions: %s" % (len(kept[g]), ", ".join(g)) for g in sorted(maximal, key=lambda g: -len(kept[g]))])
    show("5b facts required by three functions or more",
         ["%3d functions: %s" % (len(s), w) for w, s in sorted(facts.items(), key=lambda x: -len(x[1])) if len(s) >= 3])


def point6():
    show("6a functions over a buffer and a position in it",
         [at(f) for f in FUNCTIONS if "at" in f["params"] and ("out" in f["params"] or "s" in f["params"] or "sheet" in f["params"])])
    show("6b functions over three slices or more that are read or written by one index",
         [at(f) for f in FUNCTIONS if len(set(f["params"]) & {"from", "to", "loss", "opens", "closes", "best", "last", "joints"}) >= 3])
    show("6c arrays of a fixed size in a struct", lines(r"^    (pub )?\w+: \[\w+; \w+\]"))


def point7():
    show("7 a match whose arms each call a function", lines(r"=> \w+\(.*\),$"))


def point8():
    answers = glob.glob("crates/*/proofs/**/Answers.antt", recursive=True)
    text = [open(p).read() for p in answers]
    show("8 files of answers", [])
    print("    %d files, %d lines, %d answers, %d of them `search rules` alone" % (
        len(text), sum(t.count("\n") for t in text), sum(len(re.findall(r"^pub [\w-]+ : goal", t, re.M)) for t in text),
        sum(len(re.findall(r"= search rules$", t, re.M)) for t in text)))


FILES = sorted(glob.glob("crates/*/src/**/*.rt", recursive=True))
FUNCTIONS = [f for path in FILES for f in functions(path)]
for p in sys.argv[1:] or "12345678":
    globals()["point" + p]()
