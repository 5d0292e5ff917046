#!/usr/bin/env python3
"""Brings the repository's own definitions and lemmas to today's spelling: words in snake case, `_` before a plain word, `-` between two names.

usage: python3 tools/respell/respell.py [TOP]     (once, after the toolchain's port.py; TOP: the checkout, by default this one)

It goes by two tables beside it, a line each `OLD NEW`: names.txt, what it turns; ported.txt, what port.py turned already, which edits and
pages still have in its old form. Whole names only. In .antt files everywhere but in strings; in .rt files in ghost lines and clauses, so
that functions, fields and parameters of the code keep theirs; in edits everywhere, with the forms that port.py turns in sources; in pages
and comments the names that no English word is spelled as.
"""
import os
import re
import sys

HERE = os.path.dirname(os.path.realpath(__file__))
NAME = r"[^\s(){}.;,\[\]\"`]+"
CRATES = r"[a-z_]+"


def table(name):
    with open(os.path.join(HERE, name), encoding="utf-8") as f:
        return dict(line.split() for line in f if line.strip())


NEW = table("names.txt")
PORTED = table("ported.txt")
BOTH = {old: NEW.get(new, new) for old, new in PORTED.items()} | NEW
PLAIN = {old: new for old, new in BOTH.items() if re.fullmatch(r"[a-z]+\d*(?:[A-Z][A-Za-z0-9]*)+(?:-\w+)*", old)}


def turned(text, names):
    return re.sub(NAME, lambda m: names.get(m.group(), m.group()), text)


def outside_strings(text, names):
    return "".join(part if k % 2 else turned(part, names) for k, part in enumerate(re.split(r'("[^"\n]*")', text)))


def antt(text):
    lines = []
    for line in text.split("\n"):
        code, dashes, comment = line.partition("--") if re.match(r"\s*--(\s|$)", line) else re.match(r"(.*?)(\s--\s|$)(.*)", line).groups()
        lines.append(outside_strings(code, NEW) + dashes + turned(comment, PLAIN))
    return "\n".join(lines)


def clause_end(text, at):
    depth = 0
    for k in range(at, len(text)):
        depth += {"{": 1, "}": -1}.get(text[k], 0)
        if depth == 0:
            return k + 1
    return len(text)


def rt(text):
    out, at = [], 0
    for m in re.finditer(r"^\s*ghost use [^;]*;|^\s*(?:requires|ensures)\b[^{\n]*\{|^\s*(?:pub )?ghost \w+: \{|//[^\n]*", text, re.M):
        if m.start() < at:
            continue
        out.append(text[at:m.start()])
        comment = m.group().startswith("//")
        end = clause_end(text, m.end() - 1) if m.group().endswith("{") and not comment else m.end()
        out.append(turned(text[m.start():end], PLAIN if comment else NEW))
        at = end
    return "".join(out) + text[at:]


def edit(text):
    text = re.sub(rf"Rattle·({CRATES})·(specs|proofs)\.\2\b", r"Rattle.\1.\2", text)
    text = re.sub(rf"Rattle·({CRATES})\b", r"Rattle.\1", text)
    text = re.sub(r"\((\w[\w.]*) \.(\w+)\)", r"\1.\2", text)
    text = re.sub(r"(\w) \.(\w+)", r"\1.\2", text)
    return "\n".join(line if line.startswith(("#", "file:")) else outside_strings(line, BOTH) for line in text.split("\n"))


def page(text):
    text = re.sub(r"[A-Za-z][A-Za-z0-9']*(?:-\w+)*", lambda m: PLAIN.get(m.group(), m.group()), text)
    return re.sub(r"`[^`\n]+`", lambda m: outside_strings(m.group(), BOTH), text)


def main(top):
    changed = 0
    for folder, dirs, files in os.walk(top):
        dirs[:] = [d for d in dirs if d not in (".git", "out", "target")]
        if os.path.join("tools", "respell") in folder:
            continue
        for name in files:
            how = {".antt": antt, ".rt": rt, ".edit": edit, ".md": page}.get(os.path.splitext(name)[1])
            if how:
                path = os.path.join(folder, name)
                with open(path, encoding="utf-8") as f:
                    old = f.read()
                new = how(old)
                if new != old:
                    changed += 1
                    with open(path, "w", encoding="utf-8") as f:
                        f.write(new)
    print(f"respell: {changed} files changed")


if __name__ == "__main__":
    main(sys.argv[1] if len(sys.argv) > 1 else os.path.dirname(os.path.dirname(HERE)))
