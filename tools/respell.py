#!/usr/bin/env python3
"""Respells the repository's own names as today's Rattle spells them: words in snake case, types and modules in camel case.

usage: python3 tools/respell.py        at the top, once, right after port.py

A name is own if a file of specs/ or proofs/ declares it: a definition, a lemma, in a section too, a member of a record, a constructor. Names of functions in
src/, exported names, strings and comments keep their spelling. It stops, and writes nothing, where two names would fall together.
"""
import collections
import pathlib
import re
import sys

TOKEN = re.compile(r"[^\s(){}\[\];,.\"]+")
HEAD = re.compile(r"((?:abbrev |unfoldable |pub )*)(record |data )?([^\s:(){}]+)(?=[ :({])")
INNER = re.compile(r"\s+(?:abbrev |unfoldable |pub )*([^\s:(){}]+) :(?= |$)")
SKIP = ("--", "use ", "pub use", "mod ", "pub mod", "unfolding", "ruleset", " ")


def respelled(name):
    """Snake case for a word; a type keeps its camel case."""
    if not re.match(r"[a-z0-9]", name):
        return name
    name = name.replace("\u2032", "'").replace("-", "_")
    return re.sub(r"(?<=[a-z0-9_])([A-Z])", lambda m: ("" if m.string[m.start() - 1] == "_" else "_") + m[1].lower(), name)


def declared(files):
    own = collections.defaultdict(set)
    for path in files:
        for line in path.read_text().split("\n"):
            inner = INNER.match(line)
            if inner:
                own[inner[1]].add(path)
            if not line or line.startswith(SKIP):
                continue
            head = HEAD.match(line)
            if head and (head[2] or " : " in line or line.endswith(" :")):
                own[head[3]].add(path)
    return own


def brought_in(files, crates):
    """Names that a `use` line takes from a library that is not one of the repository's crates."""
    names = set()
    for path in files:
        for module, them in re.findall(r"(?m)^(?:pub )?(?:ghost )?use ([^\s{]+)\.\{([^}]*)\}", path.read_text()):
            part = module.split(".")
            if not (part[0] == "Rattle" and part[1] in crates):
                names |= {t.strip().split(" as ")[0] for t in them.split(",")}
    return names


def code_and_rest(line):
    at = line.find("//")
    return (line, "") if at < 0 else (line[:at], line[at:])


def turned(text, new, comment):
    """The text with the new names. A snake case lemma has the name of a function's step too, behind a dot, and of a function of src/."""

    def turn(m):
        if m.string[: m.start()].endswith(".") or (comment and respelled(m[0]) == m[0]):
            return respelled(m[0]) if m[0] in new else m[0]
        return new.get(m[0], m[0])

    out = []
    for line in text.split("\n"):
        code, rest = (line, "") if comment is None else code_and_rest(line)
        if comment is None and line.lstrip().startswith("--"):
            code, rest = "", line
        parts = code.split('"')
        parts[::2] = [TOKEN.sub(turn, p) for p in parts[::2]]
        out.append('"'.join(parts) + rest)
    return "\n".join(out)


def main():
    top = pathlib.Path(".")
    crates = {p.name for p in (top / "crates").iterdir()}
    antt = sorted(p for p in top.glob("crates/*/*/**/*.antt") if "out" not in p.parts)
    plain = [p for p in antt if p.name != "Proof.antt"]
    sources = sorted(top.glob("crates/*/src/**/*.rt"))
    own = declared(plain)
    foreign = brought_in(antt + sources, crates)
    new = {n: respelled(n) for n in own if respelled(n) != n}
    # a lemma that would have its function's name
    camel = {n for n in new if re.search("[a-z][A-Z]", n)}
    words = {respelled(n) for n in camel} | (set(own) - set(new))
    dashed = set(new) - camel
    lemmas = {n for n in dashed if respelled(n) in words} | {respelled(n) for n in camel} & set(own)
    new |= {n: respelled(n) + "_lem" for n in lemmas}
    both = sorted(set(new) & foreign)
    if both:
        print("own and of the library, left as they are:", *both)
    new = {n: m for n, m in new.items() if n not in both}
    places = collections.defaultdict(set)
    for n in set(own) | set(new):
        places[new.get(n, n)].add(n)
    met = {m: ns for m, ns in places.items() if len(ns) > 1 or (m in foreign and m in new.values())}
    if met:
        for m, ns in sorted(met.items()):
            print("falls together:", m, sorted(ns), "also of the library" if m in foreign else "")
        return 1
    for path in antt + sources:
        text = path.read_text()
        turn = turned(text, new, None if path.suffix == ".antt" else "//")
        if turn != text:
            path.write_text(turn)
    print(len(new), "names respelled")
    return 0


if __name__ == "__main__":
    sys.exit(main())
