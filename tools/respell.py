#!/usr/bin/env python3
"""Respells this repository's own ghost names: facts and types in upper camel case, all else in snake case, with a dash only where a
lemma's name joins two names. Names that the prover makes keep the spelling of the source names in them. Run it once, at the top.

usage: python3 tools/respell.py [--list]
"""

import collections
import os
import re
import sys

ROOT = os.path.join(os.path.dirname(os.path.dirname(os.path.realpath(__file__))), "crates")
OWN = sorted(d for d in os.listdir(ROOT) if os.path.isdir(os.path.join(ROOT, d, "src")))
NAME = re.compile(r"[^\W\d_·][\w'?≢≡≤≥<→*+-]*|_[\w'-]+")
DECLARED = re.compile(r"\s*(?:(?:unfoldable|abbrev|pub|record) )*([^\s(){}]+) *(?:[({].*)?:(?:\s|$)")
NO_NAME = ("module", "|", "(", "λ", "let", "use", "data", "where", "in ", "[", "]", "where")
PATH = re.compile(r"Rattle\.(" + "|".join(OWN) + r")\.")
LET = re.compile(r"\blet ([\w'-]*-[\w'-]*) *[:=]")
BINDER = re.compile(r"[({]([\w' -]*-[\w' -]*) : ")
LAMBDA = re.compile(r"λ ((?:[\w'-]+ )*[\w'-]*-[\w'-]*(?: [\w'-]+)*)\.")
# dashes that stand for a Rust name's underscores are found in the sources; these are Rattle's own
MADE = {"overflow-add": "overflow_add", "overflow-sub": "overflow_sub", "overflow-mul": "overflow_mul", "in-ok": "in_ok", "in-err": "in_err", "in-default": "in_default"}
# what lemmas of the library speak of
WORDS = {"true", "false", "zero", "append", "push", "take", "drop", "set", "map", "filter", "length", "select", "nth", "ltb", "eqb", "le", "lt"}
# plain words that no dash comes before
PLAIN = {"comm", "assoc", "refl", "same", "other", "more", "less", "none", "is", "on", "of", "at", "in", "by", "first", "last", "next", "left", "places", "levels", "cost", "inner", "above", "ways", "few", "parts"}


def paths(end):
    for folder, dirs, names in os.walk(ROOT):
        dirs[:] = sorted(d for d in dirs if d != "out")
        for n in sorted(names):
            if n.endswith(end):
                yield os.path.join(folder, n)


def read(path):
    with open(path, encoding="utf-8") as f:
        return f.read()


def is_answers(path):
    return os.path.basename(path) in ("Answers.antt", "Invariants.antt")


ALIAS = re.compile(r" as ([^\s,}]*-[^\s,}]*)")


def collect():
    """The own names with a dash: name -> its kinds ('fact', 'word', 'lemma', 'local'), and all names without one."""
    kinds, plain, made = collections.defaultdict(set), set(), set()
    for p in paths(".antt"):
        for line in read(p).split("\n"):
            text = line.strip()
            if text.startswith("--"):
                continue
            use = re.match(r"\s*(?:ghost )?use (\S+?)\.\{(.*)\}", line)
            if use:
                if not PATH.match(use[1] + "."):
                    for n in re.split(r",| as ", use[2]):
                        plain.add(n.strip())
                for n in ALIAS.findall(line):
                    kinds[n].add("fact" if n[0].isupper() else "local")
                continue
            m = None if text.startswith(NO_NAME) else DECLARED.match(line)
            if m:
                name = m[1]
                if re.search(r":\s*goal\.", line):
                    made.add(name)
                elif "-" not in name and name[0].isupper() and name[1:2].islower() and "_" in name:
                    kinds[name].add("fact")
                elif "-" not in name:
                    if re.match(r"\s*(unfoldable|abbrev)\b|  pub \w+ : ", line) and "/specs/" in p:
                        plain.add(name)
                elif name[0].isupper():
                    kinds[name].add("fact")
                elif re.match(r"\s*(unfoldable|abbrev)\b", line) or " record " in line:
                    kinds[name].add("word")
                elif "/specs/" in p and line.startswith("  pub ") and "≡" not in line and "→" not in line:
                    kinds[name].add("word")
                else:
                    kinds[name].add("lemma")
            for m in LET.finditer(line):
                kinds[m[1]].add("local")
            for m in BINDER.finditer(line):
                for n in m[1].split():
                    if "-" in n:
                        kinds[n].add("local")
            for m in LAMBDA.finditer(line):
                for n in m[1].split():
                    if "-" in n:
                        kinds[n].add("local")
    for p in paths(".rt"):
        for line in read(p).split("\n"):
            if line.strip().startswith("ghost use"):
                for n in ALIAS.findall(line):
                    kinds[n].add("fact" if n[0].isupper() else "local")
    return kinds, plain, made


def sources():
    """The names with an underscore in the code, by their spelling with dashes."""
    found = {}
    for p in paths(".rt"):
        for line in read(p).split("\n"):
            if "ghost" in line or "ensures" in line or "requires" in line or line.strip().startswith("//"):
                continue
            for n in re.findall(r"\b[a-z][a-z0-9]*(?:_[a-z0-9]+)+\b", line):
                found[n.replace("_", "-")] = n
    return found


def camel(name):
    return "".join(w[:1].upper() + w[1:] for w in re.split("[-_]", name))


def snake(name):
    return name.replace("-", "_")


def lemma(name, known):
    """A dash stays where a known name comes before it and another after it."""
    parts = name.split("-")
    out, head = parts[0], parts[0]
    i = 1
    while i < len(parts):
        rest = None
        for j in range(len(parts), i, -1):
            for join in ("_", "-"):
                if join.join(parts[i:j]) in known and parts[i] not in PLAIN:
                    rest = "_".join(parts[i:j])
                    break
            if rest:
                break
        if rest and (head in known or snake(head) in known):
            out, head = out + "-" + rest, rest
            i = j
        else:
            out, head = out + "_" + parts[i], head + "_" + parts[i]
            i += 1
    return out


def table():
    kinds, plain, made = collect()
    known = set(plain) | {snake(n) for n, k in kinds.items() if k & {"word", "fact"}} | WORDS
    new = {}
    for name, k in sorted(kinds.items()):
        if name in made and not k - {"local"}:
            continue
        if "fact" in k:
            new[name] = camel(name)
        elif k == {"lemma"}:
            new[name] = lemma(name, known)
        else:
            new[name] = snake(name)
    new.update({a: "get_or-" + b[5:] for a, b in new.items() if a.startswith("getD-")})
    return {a: b for a, b in new.items() if a != b}, made, plain


def made_name(name, from_source):
    """A name that Rattle makes, with the source names in it as the source spells them."""
    out = name
    for dashed, spelled in sorted([*from_source.items(), *MADE.items()], key=lambda x: -len(x[0])):
        out = re.sub(r"(?<![\w])" + re.escape(dashed) + r"(?![\w])", spelled, out)
    return out


def turn_line(line, new, from_source, ghost):
    comment = line.find("--") if ghost == "antt" else line.find("//")
    body, tail = (line, "") if comment < 0 else (line[:comment], line[comment:])

    def one(m):
        name = m[0]
        before = body[: m.start()]
        if re.search(r"\bRattle(\.\w+)*\.$|[.]$", before) and name not in FIELDS:
            return made_name(name, from_source) if ghost == "antt" else name
        if name in new:
            return new[name]
        if ghost == "antt" and "-" in name and name in MADE_NAMES:
            return made_name(name, from_source)
        return name

    def word(m):
        return new.get(m[0], m[0])

    body = NAME.sub(one, body)
    tail = re.sub(r"(?<![\w.-])[A-Za-z][\w'-]*-[\w'-]*[\w']", word, tail) if ghost == "antt" else tail
    return body + tail


def main(argv):
    global FIELDS, MADE_NAMES
    new, made, plain = table()
    from_source = sources()
    FIELDS = set(new)
    MADE_NAMES = made | {n for p in paths(".antt") if "/proofs/" in p for n in NAME.findall(read(p)) if "-" in n and n not in new}
    together = collections.defaultdict(set)
    for a, b in new.items():
        together[b].add(a)
    for b, those in sorted(together.items()):
        if len(those) > 1 or b in plain:
            print("falls together:", b, "<-", ", ".join(sorted(those)), "(stands already)" if b in plain else "")
    if "--list" in argv:
        for a, b in sorted(new.items()):
            print(a, "->", b)
        return 0
    for p in [*paths(".antt"), *paths(".rt")]:
        text = read(p)
        if p.endswith(".antt"):
            lines = [turn_line(l, new, from_source, "antt") for l in text.split("\n")]
        else:
            lines, in_clause = [], False
            for l in text.split("\n"):
                ghost = re.match(r"\s*(pub )?ghost\b|\s*(requires|ensures)\b", l)
                lines.append(turn_line(l, new, {}, "rt") if ghost else l)
        turned = "\n".join(lines)
        if turned != text:
            with open(p, "w", encoding="utf-8") as f:
                f.write(turned)
    return 0


if __name__ == "__main__":
    raise SystemExit(main(sys.argv[1:]))
