#!/usr/bin/env python3
"""Spells the repository's own definitions, fields, constructors and lemmas in snake case.

usage: python3 tools/respell.py        at the top of the repository, once, after the kit's port.py

What turns: each name in lower camel case or with dashes that a file of specs/ or proofs/ declares, wherever it
stands as a whole word in .antt files, in clauses and comments of .rt files, in the old: and new: lines of
must-fail edits, and in code spans of .md files. Names of the kit keep theirs, and so do types, modules, Rust's own
names and words of plain text with dashes. Where a definition and a lemma would fall together, the lemma gets
`_lem` at its end. It proves nothing.
"""

import collections
import glob
import re

NAME = r"[^\s(){}.;,@\"«»:`]+"
WORD = re.compile(r"[^\s(){}\[\].;,@\"«»:`']+'*")
MARKS = r"(?:(?:pub|abbrev|unfoldable|pattern) +)*(?:data +|record +|ruleset +)?"
BINDERS = r"(?: +\{[^{}]*\}| +\([^()]*(?:\([^()]*(?:\([^()]*\)[^()]*)*\)[^()]*)*\))*"
DECLARED = re.compile(rf"^ *{MARKS}({NAME}){BINDERS} *:(?!=)")
LET = re.compile(rf"\blet ({NAME}) *(?::|=)")
USE = re.compile(r"^ *(?:pub )?use +([\w.·']+?)\.\{([^{}]*)\}", re.M)
COMMENT = re.compile(r"(^|(?<=\s))--[^\n]*", re.M)
SPAN = re.compile(r"`[^`\n]*`")


def snake(name):
    return re.sub(r"(?<=\w)[A-Z]", lambda m: "_" + m[0].lower(), name).replace("-", "_")


def turns(name):
    return name[0].islower() and (re.search("[A-Z]", name) or re.search(r"\w-\w", name))


def read(path):
    with open(path, encoding="utf-8") as f:
        return f.read()


def texts(ending, *folders):
    return sorted(p for d in folders for p in glob.glob(f"crates/*/{d}/**/*.{ending}", recursive=True))


def tables():
    own, kits = collections.defaultdict(set), set()
    for path in texts("antt", "specs", "proofs"):
        text = read(path)
        for line in COMMENT.sub("", text).split("\n"):
            found = DECLARED.match(line)
            if found:
                own[found[1]].add(path)
            for name in LET.findall(line):
                own[name].add(path)
        for root, names in USE.findall(text):
            if not root.startswith("Rattle.") or root.startswith("Rattle.std"):
                kits |= {it.strip().split(" as ")[-1].split(".")[-1] for it in names.split(",")}
    return own, kits


def spellings():
    own, kits = tables()
    to = {name: snake(name) for name in own if turns(name) and name not in kits}
    met = collections.defaultdict(set)
    for name in own:
        met[to.get(name, name)].add(name)
    for new, olds in met.items():
        if len(olds) < 2:
            continue
        # The definition, in specs/, keeps the plain name.
        stays = min(olds, key=lambda it: (not any("/specs/" in p for p in own[it]), "-" in it, it))
        for it in olds - {stays}:
            to[it] = new + "_lem"
    return to


def words(text, to):
    return WORD.sub(lambda m: to.get(m[0], m[0]), text)


def camel(to):
    return {old: new for old, new in to.items() if "-" not in old}


def antt(text, to):
    plain = camel({k: v for k, v in to.items() if turns(k)})

    def comment(m):
        spans = SPAN.sub(lambda s: words(s[0], to), m[0])
        return words(spans, plain)

    parts, at = [], 0
    for m in COMMENT.finditer(text):
        parts += [words(text[at : m.start()], to), comment(m)]
        at = m.end()
    return "".join(parts + [words(text[at:], to)])


def rust(text, to):
    plain = camel({k: v for k, v in to.items() if turns(k)})
    quiet = re.compile(r"b?\"(?:\\.|[^\"\\])*\"|//[^\n]*")
    parts, at = [], 0
    for m in quiet.finditer(text):
        parts.append(words(text[at : m.start()], plain))
        parts.append(words(SPAN.sub(lambda s: words(s[0], to), m[0]), plain) if m[0].startswith("//") else m[0])
        at = m.end()
    parts.append(words(text[at:], plain))
    return "".join(parts)


def edit(text, to):
    kept = {k: v for k, v in to.items() if turns(k)}
    rt = re.search(r"^file: .*\.rt$", text, re.M)
    lines = text.split("\n")
    for i, line in enumerate(lines):
        if re.match("(old|new):", line):
            lines[i] = words(line, camel(kept)) if rt else words(line, to)
    return "\n".join(lines)


def main():
    to = spellings()
    dashed = {k: v for k, v in to.items() if turns(k)}
    jobs = [(p, antt(read(p), to)) for p in texts("antt", "specs", "proofs")]
    jobs += [(p, rust(read(p), to)) for p in texts("rt", "src")]
    jobs += [(p, edit(read(p), to)) for p in texts("edit", "must-fail")]
    pages = ["README.md"] + sorted(glob.glob("docs/**/*.md", recursive=True))
    jobs += [(p, SPAN.sub(lambda s: words(s[0], dashed), read(p))) for p in pages if p not in SKIPPED]
    for path, text in jobs:
        if text != read(path):
            with open(path, "w", encoding="utf-8") as f:
                f.write(text)
    for old in sorted(to):
        print(f"{old}\t{to[old]}")


SKIPPED = {"docs/PORT.md"}

if __name__ == "__main__":
    main()
