#!/usr/bin/env python3
"""Spells this repository's own definitions and lemmas as today's Rattle does, by the rows of respelled.tsv beside it.

usage: tools/respell.py            at the top of the repository, after the kit's port.py

A row is an old name, a tab, a new name, and for a few rows a third word: the one file under crates/ that it is for.
What turns: the code of .antt files, clauses and `ghost use` items of .rt files, names in backquotes and names with a
capital inside in comments, code spans of README.md and docs/*.md. Functions, fields and strings of src/ stay.
Run it once. `respell.py --table` prints the rows that the declarations of a tree ask for.
"""

import collections
import os
import re
import sys

HERE = os.path.dirname(os.path.realpath(__file__))
WORD = re.compile(r'[^\s(){}.;,@"«»`]+')
DECLARED = re.compile(
    r'( *)(?:(?:abbrev|pub|unfoldable|data|record|ruleset)\s+)*([^\s(){}.;,@"«»:]+)(?: +[({][^:]*.*)? :(?: |$)(.*)'
)
CLAUSE = re.compile(r"\b(?:requires|ensures)\*?(?:\s+\w+)?\s*\{|\bghost\s+\w+\s*[:=]\s*\{")
GHOST_USE = re.compile(r"\bghost\s+use\b[^;]*;")

# Where a lemma would get the name of a definition, and other names that would fall together.
BY_HAND = {
    "rules": "plain_rules",
    "sameKeys": "are_keys_same",
    "too-tall": "too_tall_row",
    "all_read": "all_read_lem",
    "in-hand": "in_hand",
    "no-more": "no_more",
    "plan-of": "plan_of",
}
# The same word is something else in other files.
BY_FILE = {
    ("crates/lists/proofs/Nodes.antt", "is_state"): "is_state_lem",
    ("crates/planner/specs/Called.antt", "no_steps"): "no_steps_lem",
}


def snake(name):
    """Plain underscores, but where a dash joins a name to a type's."""
    parts = name.replace("′", "'").split("-")
    out = ""
    for at, part in enumerate(parts):
        if re.match("[a-z]", part):
            part = re.sub("(?<=[a-z0-9])[A-Z]", lambda m: "_" + m[0].lower(), part)
        if at:
            out += "-" if parts[at - 1][:1].isupper() or part[:1].isupper() else "_"
        out += part
    return out


def files(root, *endings):
    for folder, dirs, names in os.walk(os.path.join(root, "crates")):
        dirs[:] = sorted(d for d in dirs if d != "out")
        for name in sorted(names):
            if name.endswith(endings):
                yield os.path.join(folder, name)


def table(root):
    """The rows that the tree's declarations ask for."""
    names = set()
    for path in files(root, ".antt"):
        for line in open(path, encoding="utf-8"):
            m = DECLARED.match(line.rstrip("\n"))
            if m and not line.strip().startswith("--") and not m[3].startswith("tie."):
                names.add(m[2])
    rows = {n: snake(n) for n in names if snake(n) != n}
    made = collections.defaultdict(list)
    for old, new in rows.items():
        made[new].append(old)
    for new, olds in made.items():
        for old in olds:
            if "-" in old and (len(olds) > 1 or new in names):
                rows[old] = new + "_lem"
    rows.update(BY_HAND)
    return rows


def spelled(word, rows):
    if word in rows:
        return rows[word]
    bare = word.rstrip("'′")
    return rows[bare] + "'" * (len(word) - len(bare)) if bare in rows else word.replace("′", "'")


def code(text, rows):
    def one(m):
        before = text[: m.start()]
        if m[0] == "rules":
            after = text[m.end() :]
            if after.startswith(" : ℕ →"):
                return rows["rules"]
            if before.endswith((".", "search ", "search (", "Rules.{")) or after.startswith((" =", " :")):
                return m[0]
        return spelled(m[0], rows)

    return WORD.sub(one, text)


def comment(text, rows):
    text = re.sub("`[^`\n]*`", lambda m: code(m[0], rows), text)
    return WORD.sub(lambda m: rows[m[0]] if re.search("[a-z0-9][A-Z]", m[0]) and m[0] in rows else m[0], text)


def antt(text, rows):
    out = []
    for line in text.split("\n"):
        m = re.search(r"(?:^|(?<=\s))--(?=\s|$)", line)
        at = m.start() if m else len(line)
        out.append(code(line[:at], rows) + comment(line[at:], rows))
    return "\n".join(out)


def closing(text, at):
    depth = 1
    while depth:
        depth += {"{": 1, "}": -1}.get(text[at], 0)
        at += 1
    return at


def rt(text, rows):
    out, at = [], 0
    while at < len(text):
        if text.startswith("//", at):
            end = text.find("\n", at)
            end = len(text) if end < 0 else end
            out.append(comment(text[at:end], rows))
        elif text[at] == '"':
            end = re.compile(r'"(?:\\.|[^"\\])*"', re.S).match(text, at).end()
            out.append(text[at:end])
        elif (at == 0 or not (text[at - 1].isalnum() or text[at - 1] == "_")) and (m := GHOST_USE.match(text, at)):
            end = m.end()
            out.append(code(m[0], rows))
        elif (at == 0 or not (text[at - 1].isalnum() or text[at - 1] == "_")) and (m := CLAUSE.match(text, at)):
            end = closing(text, m.end())
            out.append(m[0] + code(text[m.end() : end], rows))
        else:
            end = at + 1
            out.append(text[at])
        at = end
    return "".join(out)


def page(text, rows):
    parts = re.split(r"(^```.*?^```$)", text, flags=re.S | re.M)
    return "".join(
        p if p.startswith("```") else re.sub("`[^`\n]*`", lambda m: code(m[0], rows), p) for p in parts
    )


def of_a_library(text, crates):
    """The names that a file imports from a library: they keep the library's spelling in that file."""
    names = set()
    for m in re.finditer(r"\buse ([^\s;{]+)\{([^}]*)\}", text):
        steps = m[1].split(".")
        if steps[0] != "Rattle" or steps[1] not in crates:
            names.update(w for item in m[2].split(",") for w in item.split(" as ")[0].split())
    return names


def main():
    root = os.getcwd()
    crates = set(os.listdir(os.path.join(root, "crates")))
    if sys.argv[1:] == ["--table"]:
        for old, new in sorted(table(root).items()):
            print(f"{old}\t{new}")
        for (path, old), new in sorted(BY_FILE.items()):
            print(f"{old}\t{new}\t{path}")
        return
    rows, own = {}, collections.defaultdict(dict)
    for line in open(os.path.join(HERE, "respelled.tsv"), encoding="utf-8"):
        words = line.rstrip("\n").split("\t")
        (own[words[2]] if len(words) > 2 else rows)[words[0]] = words[1]
    pages = [os.path.join(root, "README.md")]
    pages += [os.path.join(f, n) for f, _, ns in os.walk(os.path.join(root, "docs")) for n in sorted(ns) if n.endswith(".md")]
    turned = 0
    for path, turn in [(p, antt) for p in files(root, ".antt")] + [(p, rt) for p in files(root, ".rt")] + [(p, page) for p in pages]:
        text = open(path, encoding="utf-8").read()
        at = rows | own.get(os.path.relpath(path, root), {})
        if turn is not rt and "rules" in at and not re.search(r"Machine\.\{[^}]*\brules\b|^abbrev pub rules :", text, re.M):
            at = {k: v for k, v in at.items() if k != "rules"}
        if turn is rt and not re.search(r"Machine\.\{[^}]*\brules\b", text):
            at = {k: v for k, v in at.items() if k != "rules"}
        for name in of_a_library(text, crates) if turn is not page else ():
            at.pop(name, None)
        new = turn(text, at)
        if new != text:
            turned += 1
            with open(path, "w", encoding="utf-8") as f:
                f.write(new)
    print(f"{turned} files turned")


main()
