#!/usr/bin/env python3
"""Brings the names of definitions and lemmas to one spelling: words in snake case, types in camel case.

usage: python3 tools/spell_names.py      at the top

Turned is each name with a dash that a file right in specs/ or proofs/ of a crate declares: a definition, a
field, a constructor, a lemma. A name with a capital loses its dashes and `_` (`Table-for` is `TableFor`), another
one has `_` in their place (`end-at` is `end_at`). In the name of a lemma the dash stays where it joins the
names of two definitions (`spelled-length`). A name that is taken from the library somewhere, or whose new spelling is
a name already, stays as it is and is printed. Strings, comments without quotes and the code of functions stay.
"""
import glob
import os
import re

DECLARED = re.compile(r"^(?:abbrev |unfoldable )?(?:pub )?(?:abbrev |unfoldable )?(?:pub )?(record |data )?([^\s:(){}=;,.]+)(.*)$")
MEMBER = re.compile(r"^ +(?:pub )?([^\s:(){}=;,.]+(?: [^\s:(){}=;,.]+)*) :")
WHOLE = re.compile(r"[^\s(){}\[\];,\"`«»]+")
INSIDE = re.compile(r"^ +(?:pub |abbrev |unfoldable |record |data )*([^\s:(){}=;,.]+)(?: \([^)]*\)| \{[^}]*\})* :")
TOKEN = re.compile(r"[^\s(){}\[\];,.\"`«»]+")


def declared(path):
    found = []
    for line in open(path, encoding="utf-8"):
        if line.startswith("  "):
            m = MEMBER.match(line)
            if m and m.group(1).split()[0] not in ("abbrev", "unfoldable", "record", "data", "let", "where", "section"):
                found += m.group(1).split()
            else:
                m = INSIDE.match(line) or re.match(r"^ +(?:pub )?(?:record|data) ([^\s:(){}=;,.]+)", line)
                if m:
                    found.append(m.group(1))
        elif line[:1] not in ("-", "\n", "\t", ""):
            m = DECLARED.match(line)
            if m and ":" in m.group(3) or m and m.group(1):
                found.append(m.group(2))
    return found


def library(crates):
    """The names that are taken from modules of no crate of ours."""
    names = set()
    for p in files():
        text = open(p, encoding="utf-8").read()
        for path, items in re.findall(r"\buse ([^\s{;]+?)\.\{([^}]*)\}", text):
            if not (path.startswith("Rattle.") and path.split(".")[1] in crates):
                names.update(re.split(r"[\s,]+| as ", items))
    return names - {""}


def camel(name):
    return "".join(p[:1].upper() + p[1:] for p in re.split("[-_]", name))


def snake(name):
    return name.replace("-", "_")


def lemma(name, definitions):
    parts = name.split("-")
    for i in range(len(parts) - 1, 0, -1):
        left, right = "_".join(parts[:i]), "_".join(parts[i:])
        if left in definitions and right in definitions:
            return left + "-" + right
    return snake(name)


def new_names():
    specs, proofs, kept = set(), set(), set()
    for p in sorted(glob.glob("crates/*/specs/*.antt")):
        specs.update(declared(p))
    for p in sorted(glob.glob("crates/*/proofs/*.antt")):
        proofs.update(declared(p))
    theirs = library({os.path.basename(c) for c in glob.glob("crates/*")})
    definitions = {snake(n) for n in specs if n[:1].islower()} | {"length", "map", "drop", "take", "append", "filter"}
    used = set()
    for p in files():
        # the name of a function of src/ is a part of paths in proofs, and no name of a definition
        if p.endswith(".antt") and not re.search("/proofs/[^/]*/", p):
            text = open(p, encoding="utf-8").read()
            used.update(WHOLE.findall(re.sub(r"(?m)(?:^|\s)--(?:\s.*)?$|^(?:pub )?mod .*$", "", text)))
    turned, why = {}, {}
    for n in sorted(specs | proofs):
        if not ("-" in n.strip("-") or n[:1].isupper() and "_" in n) or n in theirs:
            if "-" in n and n in theirs:
                kept.add((n, "the library has it"))
            continue
        if n[:1].isupper():
            to = camel(n)
        elif n in specs:
            to = snake(n)
        else:
            to = lemma(n, definitions)
        if to == n:
            continue
        if to in used or to in theirs or to in why:
            kept.add((n, "`%s` is a name already" % to))
            continue
        turned[n], why[to] = to, n
    return turned, kept


def files():
    for pattern in ("crates/*/specs/*.antt", "crates/*/proofs/*.antt", "crates/*/proofs/*/*.antt", "crates/*/src/*.rt"):
        yield from sorted(glob.glob(pattern))


def in_names(text, turned):
    return TOKEN.sub(lambda m: turned.get(m.group(0), m.group(0)), text)


def in_quotes(text, turned):
    return re.sub(r"`[^`\n]*`", lambda m: in_names(m.group(0), turned), text)


def turn_antt(text, turned):
    out = []
    for line in text.split("\n"):
        m = re.search(r"(?:^|\s)--(?:\s|$)", line)
        at = m.start() if m else len(line)
        out.append(in_names(line[:at], turned) + in_quotes(line[at:], turned))
    return "\n".join(out)


def turn_rt(text, turned):
    out, depth, ghost = [], 0, False
    for line in text.split("\n"):
        code, note = line, ""
        m = re.match(r"^(\s*)//", line)
        if m:
            out.append(in_quotes(line, turned))
            continue
        if re.match(r"^\s*ghost use\b", line):
            ghost = True
        opens = re.match(r"^\s*(requires|ensures)\b", line)
        if ghost or opens or depth > 0:
            out.append(in_names(line, turned))
            if not ghost:
                depth += line.count("{") - line.count("}")
            if ghost and line.rstrip().endswith(";"):
                ghost = False
        else:
            out.append(line)
    return "\n".join(out)


def main():
    turned, kept = new_names()
    for p in files():
        text = open(p, encoding="utf-8").read()
        new = turn_rt(text, turned) if p.endswith(".rt") else turn_antt(text, turned)
        if new != text:
            open(p, "w", encoding="utf-8").write(new)
    for p in sorted(glob.glob("docs/*.md")) + ["README.md", "CONTRIBUTING.md"]:
        text = open(p, encoding="utf-8").read()
        new = in_quotes(text, turned)
        if new != text:
            open(p, "w", encoding="utf-8").write(new)
    with open("tools/names.tsv", "w", encoding="utf-8") as f:
        f.write("".join("%s\t%s\n" % (n, turned[n]) for n in sorted(turned)))
    print("%d names turned" % len(turned))
    for n, reason in sorted(kept):
        print("kept: %s: %s" % (n, reason))


main()
