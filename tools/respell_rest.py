#!/usr/bin/env python3
"""Brings the names that tools/respell.py did not see, local ones for the most part, to snake case: once, at the top."""
import glob
import re

TOKEN = re.compile(r"[^\s(){}\[\];,.]+")
USE = re.compile(r"(?:pub )?use ([\w.'+-]+)\.\{(.*)\}")
CRATES = {path.split("/")[1] for path in glob.glob("crates/*")}


def lemma_files():
    return sorted(glob.glob("crates/*/specs/*.antt") + glob.glob("crates/*/proofs/*.antt"))


def function_files():
    return sorted(set(glob.glob("crates/*/proofs/**/*.antt", recursive=True)) - set(glob.glob("crates/*/proofs/*.antt")))


def code_of(line):
    code, mark, rest = line.partition("-- ")
    return (code, mark + rest) if not code or code.endswith(" ") else (line, "")


def is_ours(module):
    parts = module.split(".")
    return parts[0] == "Rattle" and len(parts) > 1 and parts[1] in CRATES and not module.endswith((".Goals", ".Given"))


def imported(text):
    theirs, ours = set(), set()
    for line in text.split("\n"):
        m = USE.match(line)
        if m:
            names = {n.strip().split(" as ")[-1] for n in m.group(2).split(",")}
            (ours if is_ours(m.group(1)) else theirs).update(names)
    return theirs, ours


def is_old(name):
    if not re.fullmatch(r"[A-Za-z][\w'₀₁₂₃₄₅₆₇₈₉-]*", name) or name.startswith(("then-", "else-")):
        return False
    return bool(re.match(r"[a-z]", name) and re.search(r"[a-z0-9][A-Z]", name)) or "-" in name


def snake(name):
    head = re.sub(r"(?<=[a-z0-9])([A-Z])", lambda m: "_" + m.group(1).lower(), name)
    return head.replace("-", "_")


def main():
    texts = {path: open(path).read() for path in lemma_files() + function_files()}
    theirs = {path: imported(text)[0] for path, text in texts.items()}
    where = {}
    for path in lemma_files():
        for line in texts[path].split("\n"):
            if USE.match(line):
                continue
            for m in TOKEN.finditer(code_of(line)[0]):
                if is_old(m.group(0)) and m.group(0) not in theirs[path]:
                    where.setdefault(m.group(0), set()).add(path)
    tokens = {path: set(TOKEN.findall(text)) for path, text in texts.items()}
    names = {}
    for name in sorted(where):
        new = snake(name)
        users = where[name] | {p for p in function_files() if name in imported(texts[p])[1]}
        while any(new in tokens[p] for p in users) or new in names.values():
            new += "_here"
        names[name] = new
    for path, text in texts.items():
        mine = {n for n in names if path in where[n]} if path in lemma_files() else imported(text)[1] & set(names)
        if not mine:
            continue
        lines = []
        for line in text.split("\n"):
            code, comment = code_of(line)
            code = TOKEN.sub(lambda m: names[m.group(0)] if m.group(0) in mine else m.group(0), code)
            lines.append(code + comment)
        open(path, "w").write("\n".join(lines))
    for name in names:
        if names[name].endswith("_here"):
            print(name, names[name])
    print(len(names))


if __name__ == "__main__":
    main()
