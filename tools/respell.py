#!/usr/bin/env python3
"""Brings the repository's own names to the spelling of today's Rattle, once, after port.py: words in snake case (edgesOf, drift-limit: edges_of, drift_limit).

usage: tools/respell.py            at the top of the repository

It renames what the files of specs/ and proofs/ declare: there, in the clauses, ghost imports and comments of src/, in README.md and in the pages of docs/ that name
definitions. Functions of src/, strings, types and modules keep their names. A lemma that would meet a definition gets `_lem`. Generated names stay.
"""
import collections
import glob
import os
import re

NAME = r"[^\s(){}.;,@\"«»\[\]]+"
SIGNATURE = re.compile(r"^ *(?:(?:abbrev|unfoldable|pub|data|record|ruleset) )*(" + NAME + r")(?: \([^()]*(?:\([^()]*\))?[^()]*\)| \{[^{}]*\})* :(?![:=])")
RULESET = re.compile(r"^ *(?:pub )?ruleset (" + NAME + r") =")
GENERATED = re.compile(r"(invariant|decreases|loop|returns)(-.*|\d*)$")
ALIASES = {
    "List·Memᴰ·cases-cons": "Memᴰ-cases_cons",
    "List·Memᴰ·head": "Memᴰ-head",
    "List·Memᴰ·tail": "Memᴰ-tail",
    "List·Memᴰ·not-nil": "Memᴰ-not_nil",
    "List-as-Memᴰ": "Memᴰ",
    "List·Memᴰ": "Memᴰ",
    "List·getD-eq-default": "get_or-eq_default",
    "List·getD-map": "get_or-map",
    "List·getD-append": "get_or-append",
}
# a lemma that would meet another name
LEMMAS = {"is_digit": "is_digit_lem", "row_words": "row_words_lem"}

# names as they are declared before this script, for the pages
NOW = set()


def snake(name):
    if not name[0].isupper():
        name = re.sub(r"(?<=[a-z0-9])[A-Z]", lambda m: "_" + m[0].lower(), name)
    return name.replace("-", "_").replace("′", "'")


def files():
    found = []
    for kind in ("specs", "proofs"):
        found += glob.glob(f"crates/*/{kind}/**/*.antt", recursive=True)
    return sorted(found)


def declared(paths):
    names = collections.defaultdict(set)
    for path in paths:
        with open(path, encoding="utf-8") as f:
            for line in f:
                m = SIGNATURE.match(line) or RULESET.match(line)
                if m and m[1] not in ("use", "module", "where", "let", "in") and "◌" not in m[1] and not GENERATED.match(m[1]):
                    names[m[1]].add(path)
    return names


def table(names):
    to = {n: snake(n) for n in names if snake(n) != n}
    back = collections.defaultdict(list)
    for n in names:
        back[to.get(n, n)].append(n)
    for new, olds in back.items():
        if len(olds) > 1:
            lemmas = [n for n in olds if "-" in n]
            for n in lemmas:
                to[n] = new + "_lem"
    for old, new in LEMMAS.items():
        to[old] = new
    to.update(ALIASES)
    return to


def aligned(was, now):
    """The glosses of a table in a comment stand below one another again: where `==` stood in one column, give or take what port.py moved."""
    olds, news = was.split("\n"), now.split("\n")
    at = 0
    while at < len(news):
        end = at
        while end < len(news) and news[end].startswith("--   ") and " == " in news[end]:
            end += 1
        run = range(at, end)
        columns = collections.Counter(olds[i].index(" == ") for i in run)
        if len(run) > 1:
            column = columns.most_common(1)[0][0]
            rows = [i for i in run if abs(olds[i].index(" == ") - column) <= 3]
            if columns.most_common(1)[0][1] > 1:
                width = max(len(news[i][: news[i].index(" == ")].rstrip()) for i in rows)
                for i in rows:
                    left, right = news[i].split(" == ", 1)
                    news[i] = left.rstrip().ljust(width) + " == " + right
        at = max(end, at + 1)
    return "\n".join(news)


def respell(text, to):
    def turned(m):
        name = m[0]
        if name in LEMMAS and (text[m.start() - 1 : m.start()] == "." or text[m.end() : m.end() + 1] == "."):
            return name
        return to.get(name, name)

    now = re.sub(NAME, turned, text)
    # an alias that has the library's name is none
    now = re.sub(r"(?<=[{ ])(\S+) as \1(?=[,}])", r"\1", now)
    return aligned(text, now)


def in_source(text, to):
    """Clauses, ghost imports and comments; strings stay."""
    return re.sub(r'"(?:[^"\\\n]|\\.)*"|' + NAME, lambda m: m[0] if m[0][0] == '"' else to.get(m[0], m[0]), text)


def in_page(text, to):
    """Names of a page; some were respelled by port.py before."""
    dashed = {o: n for o, n in to.items() if "-" in o}
    known = NOW | set(to.values())
    text = re.sub(r"(?<![\w/.-])([a-z]\w*[a-z0-9][A-Z]\w*)(?![\w(-])", lambda m: to.get(m[1]) or (snake(m[1]) if snake(m[1]) in known else m[1]), text)
    return re.sub(r"`([^`\n]+)`", lambda m: "`" + re.sub(r"(?<![\w/.-])" + r"[a-z][\w-]*-[\w-]+", lambda n: dashed.get(n[0], n[0]), m[1]) + "`", text)


def main():
    paths = files()
    names = declared(paths)
    NOW.update(names)
    to = table(names)
    rust = {o: n for o, n in to.items() if o not in LEMMAS}
    jobs = [(p, respell, to) for p in paths]
    jobs += [(p, in_source, rust) for p in sorted(glob.glob("crates/*/src/**/*.rt", recursive=True))]
    jobs += [(p, in_page, rust) for p in ["README.md", *(f"docs/{d}.md" for d in ("CLAIMS", "DECISIONS", "TRACE", "BENCHMARKS"))]]
    for path, how, map_ in jobs:
        with open(path, encoding="utf-8") as f:
            was = f.read()
        now = how(was, map_)
        if now != was:
            with open(path, "w", encoding="utf-8") as f:
                f.write(now)
    for o, n in sorted(to.items()):
        print(o, n)


if __name__ == "__main__":
    main()
