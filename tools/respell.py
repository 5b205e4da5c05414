#!/usr/bin/env python3
"""Brings this repository's own definitions and lemmas to today's spelling: words in snake case, once, over the whole tree.

Run it at the top, right behind the kit's port.py. A word is a name that an .antt file of a crate defines: camel case (`roleOf`)
and dashes (`room-left`) become underscores. Where a lemma would then have its definition's name it ends in `_lem`. The goals of
a function's proof (`returns-2`) and the parts of a generated path keep their names, and so do strings and the code of src/.
The crate `logbook`, whose name the kit has taken, becomes `logfile`.
"""
import collections
import glob
import os
import re

TOKEN = re.compile(r"[^\s(){}\[\].,;\"«»⟨⟩`]+")
CAMEL = re.compile(r"^[a-z][a-z0-9]*(?:[A-Z][A-Za-z0-9]*)+['′]*$")
DASHED = re.compile(r"^[a-z][A-Za-z0-9_']*(-[A-Za-z0-9_'≤≡]+)+$")
DEFINED = re.compile(r"^\s*(?:(?:abbrev|unfoldable|pub|rec|mutual|private|opaque)\s+)*(\S+)\s+:\s*(.*)$")
GOAL = re.compile(r"tie\.|.*\bNeed-")
# names that are bound by a lambda or a parameter alone
LOCAL = {"laidOver"}
# port.py gave these lemmas a definition's name: in these files the word is the lemma
MERGED = {
    "named_by": ("crates/settings/specs/Laws.antt", "crates/demands/specs/Proofs/Addressed.antt"),
    "laid_in": None,
}


def snake(word):
    word = re.sub(r"([A-Z])", lambda m: "_" + m.group(1).lower(), word)
    return word.replace("-", "_")


def texts(*patterns):
    return sorted(f for p in patterns for f in glob.glob(p, recursive=True))


def spelling(antt):
    names = set(LOCAL)
    defined = set()
    for f in antt:
        for line in open(f):
            m = DEFINED.match(line)
            if m and not GOAL.match(m.group(2)):
                defined.add(m.group(1))
    names |= {n for n in defined if CAMEL.match(n) or DASHED.match(n)}
    wanted = collections.defaultdict(set)
    for n in names:
        wanted[snake(n)].add(n)
    table = {}
    for new, olds in wanted.items():
        kept = {n for n in olds if CAMEL.match(n)}
        for n in olds:
            together = DASHED.match(n) and (kept or new in defined)
            table[n] = new + ("_lem" if together else "")
    return table, {snake(n) for n in defined}


def respell(line, table, dashes, walked):
    out, at = [], 0
    for m in TOKEN.finditer(line):
        word = m.group()
        new = table.get(word)
        if new is None or (DASHED.match(word) and not dashes):
            continue
        before = line[: m.start()]
        if walked and before.endswith(".") and DASHED.match(word):
            continue
        if before.count('"') % 2:
            continue
        out.append(line[at : m.start()] + new)
        at = m.end()
    return "".join(out) + line[at:]


def parted(line, mark):
    k = line.find(mark)
    return (line, "") if k < 0 else (line[:k], line[k:])


def rename_crate(old, new):
    if os.path.isdir(f"crates/{old}"):
        os.rename(f"crates/{old}", f"crates/{new}")
    for f in texts("crates.txt", "crates/**/*.rt", "crates/**/*.antt", "crates/**/*.edit", "README.md", "docs/**/*.md"):
        with open(f) as it:
            text = it.read()
        turned = re.sub(rf"\b{old}\b", new, text)
        if turned != text:
            with open(f, "w") as it:
                it.write(turned)


def main():
    rename_crate("logbook", "logfile")
    antt = texts("crates/*/specs/**/*.antt", "crates/*/proofs/**/*.antt")
    table, words = spelling(antt)
    for f in antt:
        walked = f.endswith("/Proof.antt")
        lines = []
        for line in open(f):
            code, comment = parted(line, "-- ")
            for word, where in MERGED.items():
                if where is None or f in where:
                    code = re.sub(rf"(?<![\w'-]){word}(?![\w'-])", word + "_lem", code)
            code = respell(code, table, True, walked)
            lines.append(code + respell(comment, table, False, False))
        open(f, "w").writelines(lines)
    for f in texts("crates/*/src/**/*.rt"):
        lines = []
        for line in open(f):
            code, comment = parted(line, "//")
            lines.append(respell(code, table, True, False) + respell(comment, table, False, False))
        open(f, "w").writelines(lines)
    for f in texts("crates/*/must-fail/*.edit"):
        lines, antt_edit = [], False
        for line in open(f):
            if line.startswith("file:"):
                antt_edit = line.rstrip().endswith(".antt")
            dashes = antt_edit and line.startswith(("old:", "new:"))
            lines.append(respell(line, table, dashes, False))
        open(f, "w").writelines(lines)
    # the pages also have names that port.py turned in the files
    quoted = re.compile(r"`[^`\n]+`")
    for f in ["README.md", *texts("docs/**/*.md")]:
        text = open(f).read()
        for word in set(TOKEN.findall(text)):
            if (CAMEL.match(word) or DASHED.match(word)) and word not in table and snake(word) in words:
                lemma = word in ("named-by", "laid-in")
                table[word] = snake(word) + ("_lem" if lemma else "")
        open(f, "w").write(quoted.sub(lambda m: respell(m.group(), table, True, False), text))


if __name__ == "__main__":
    main()
