#!/usr/bin/env python3
"""Brings the definitions and lemmas of specs/ and proofs/ to snake case, once, after the kit's own port script.

Run at the top of the repository, right after port.py. Types, modules and facts keep their capitals; functions of
src/, strings, inputs and outputs are not touched. A lemma whose spelling is taken gets `_lem`.
"""
import glob
import os
import re
import sys

TOKEN = re.compile(r"[^\s(){}\[\];,.]+")
DEF = re.compile(r"^(?:unfoldable |abbrev |pub |syntax )*([^\s:(){}]+)(?: [^:]*)? :(?: |$)")
FIELD = re.compile(r"^\s+(?:pub )?([^\s:(){}]+) : ")
MADE = re.compile(r"^([^\s:(){}]+) : tie\.")


def snake(name):
    head = re.sub(r"(?<=[a-z0-9])([A-Z])", lambda m: "_" + m.group(1).lower(), name)
    return head.replace("-", "_")


def is_old(name):
    if not name[0].isalpha() or name[0].isupper() and "-" not in name:
        return False
    if name.startswith(("invariant-", "decreases-", "Need-")):
        return False
    return bool(re.search(r"[a-z0-9][A-Z]", name)) or "-" in name


def files(pattern):
    return sorted(glob.glob(pattern, recursive=True))


def lemma_files():
    found = files("crates/*/specs/**/*.antt") + files("crates/*/proofs/**/*.antt")
    return found


def is_proof(path):
    return path.endswith("/Proof.antt")


def definitions():
    names, fields, plain = set(), set(), set()
    for path in lemma_files():
        lines = open(path).read().split("\n")
        made = {m.group(1) for m in map(MADE.match, lines) if m}
        for line in lines:
            m = DEF.match(line)
            if m and is_old(m.group(1)) and not (is_proof(path) and m.group(1) in made):
                names.add(m.group(1))
            m = None if is_proof(path) else FIELD.match(line)
            if m and is_old(m.group(1)):
                fields.add(m.group(1))
            for m in (DEF.match(line), m or (None if is_proof(path) else FIELD.match(line))):
                if m and "_" in m.group(1) and not is_old(m.group(1)):
                    plain.add(m.group(1))
    # what the kit's script respelled already, where it now has another definition's name
    clash = {snake(n) for n in names | fields if "-" not in n} & plain
    return names | fields | clash, fields | clash


def used_names():
    used = set()
    for path in lemma_files():
        used.update(TOKEN.findall(open(path).read()))
    return used


def renames():
    names, fields = definitions()
    used = used_names()
    taken = {snake(n) for n in names if "-" not in n and snake(n) != n}
    turned = {}
    for name in sorted(names, key=lambda n: ("-" in n, n == snake(n), n)):
        new = snake(name)
        if new == name or "-" in name and (new in taken or new in used):
            new += "_lem"
        while new in turned.values():
            new += "_lem"
        turned[name] = new
    return turned, fields


def respell_code(code, names, fields, made):
    def turn(m):
        name = m.group(0)
        after_dot = m.start() > 0 and code[m.start() - 1] == "."
        if name not in names or name in made or (after_dot and "-" in name and name not in fields):
            return name
        return names[name]

    return TOKEN.sub(turn, code)


def respell_proof(text, names, fields, made):
    out = []
    for line in text.split("\n"):
        code, mark, comment = line.partition("-- ")
        if mark and code.strip() and not code.endswith(" "):
            code, mark, comment = line, "", ""
        code = respell_code(code, names, fields, made)
        comment = TOKEN.sub(lambda m: names.get(m.group(0), m.group(0)) if "-" not in m.group(0) else m.group(0), comment)
        out.append(code + mark + comment)
    return "\n".join(out)


GHOST = re.compile(r"^\s*(ghost|requires|ensures|invariant)\b")


def respell_source(text, names, fields):
    """The clauses and ghost items of a source file; its code and strings stay."""
    out, depth = [], 0
    for line in text.split("\n"):
        if depth > 0 or GHOST.match(line):
            depth += line.count("{") - line.count("}")
            line = respell_code(line, names, fields, set())
        out.append(line)
    return "\n".join(out)


def respell_edit(text, names, fields):
    out = []
    for line in text.split("\n"):
        if line.startswith(("old: ", "new: ")):
            line = line[:5] + respell_code(line[5:], names, fields, set())
        out.append(line)
    return "\n".join(out)


# Rattle makes a module specs.contracts, so no file of specs/ has that name.
MODULE = (("specs.Contracts", "specs.Clauses"), ("pub mod Contracts", "pub mod Clauses"))


def respell_modules(text):
    for old, new in MODULE:
        text = text.replace(old, new)
    return text


def write(path, text):
    if text != open(path).read():
        open(path, "w").write(text)


def main():
    names, fields = renames()
    if "--list" in sys.argv:
        for name in sorted(names):
            print(name, names[name])
        return
    for path in lemma_files():
        text = open(path).read()
        made = {m.group(1) for m in map(MADE.match, text.split("\n")) if m} if is_proof(path) else set()
        write(path, respell_modules(respell_proof(text, names, fields, made)))
    for path in files("crates/*/src/**/*.rt"):
        write(path, respell_modules(respell_source(open(path).read(), names, fields)))
    for path in files("crates/*/must-fail/*.edit"):
        write(path, respell_modules(respell_edit(open(path).read(), names, fields)))
    for path in files("crates/*/specs/Contracts.antt"):
        os.rename(path, path.replace("Contracts.antt", "Clauses.antt"))


if __name__ == "__main__":
    main()
