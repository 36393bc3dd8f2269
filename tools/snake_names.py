#!/usr/bin/env python3
"""Brings the repository's own definitions, lemmas and fields to snake case, once, after the toolchain's port.py.

usage: python3 tools/snake_names.py [--check]

A name is ours if a file of some crate's specs/ or proofs/ declares it, as a definition, a lemma, a field or a
constructor. Types and facts begin with a capital and stay; every other name is written in words joined by `_`. The
same words are then turned in specs/, proofs/, the clauses and comments of src/, the must-fail edits, and in the code
spans of README.md and docs/. Functions of src/, strings, inputs and outputs keep what they have.

It prints each new name that a file would hold twice ('meets:'). --check writes nothing.
"""

import collections
import os
import re
import sys

NAME = r"[^\s(){}.;,@\"«»:λ]+"
DECLARED = re.compile(
    r"(?m)^(?:(?:abbrev|unfoldable|pub|ruleset) )*(" + NAME + r")(?: \{[^{}\n]*\}| \([^()\n]*\))* :(?= |\n)"
)
MEMBER = re.compile(r"(?m)^  (?:pub )?(" + NAME + r")(?: \{[^{}\n]*\}| \([^()\n]*\))* :(?= |\n)")
WORD = re.compile(r"(?<![^\s(){}.;,@\"«»:λ`←])" + NAME.replace("λ", "λ`←"))
# A field and a definition that would have one name: the field is the longer one.
CHOSEN = {"built_in": "built_in_accepted"}
PROSE = ("README.md", "docs/DECISIONS.md", "docs/READING.md", "tests/second/README.md")


def files(root, endings):
    for folder, dirs, names in os.walk(os.path.join(root, "crates")):
        dirs[:] = sorted(d for d in dirs if d != "out")
        for name in sorted(names):
            if name.endswith(endings):
                yield os.path.join(folder, name)


def read(path):
    with open(path, encoding="utf-8") as f:
        return f.read()


def in_snake_case(name):
    words = re.sub(r"(?<=[a-z0-9'])([A-Z])", lambda m: "_" + m[1].lower(), name)
    words = re.sub(r"(?<=[a-z])(?=[ℕℤ])", "_", words)
    return words.replace("-", "_")


def ours(root):
    """The names that our files declare, those of one function's proof apart; with their new spelling."""
    shared, local, members, kept = {}, {}, set(), set()
    for path in files(root, ".antt"):
        text = re.sub(r"--.*", "", read(path))
        own = path.endswith("/Proof.antt")
        for kind, found in (("d", DECLARED.findall(text)), ("f", MEMBER.findall(text))):
            for name in found:
                if not re.match(r"[a-z]", name) or in_snake_case(name) == name:
                    kept.add(name)
                    continue
                if own:
                    local.setdefault(path, {})[name] = in_snake_case(name)
                else:
                    shared[name] = in_snake_case(name)
                    if kind == "f":
                        members.add(name)
    # A lemma or a field that would have a definition's name gets `_lem`.
    words = kept | {new for old, new in shared.items() if "-" not in old}
    for table in (shared, *local.values()):
        for old, new in table.items():
            if "-" in old and new in words:
                table[old] = new + "_lem"
    shared.update(CHOSEN)
    return shared, local, members


def turned(text, table, members):
    """The text with the table's words turned; behind a dot only fields and camel case, which no generated name has."""

    def one(m):
        word = m[0]
        if word not in table:
            return word
        behind = text[m.start() - 1 : m.start()] == "."
        if behind and word not in members and "-" in word:
            return word
        return table[word]

    return WORD.sub(one, text)


def spans(text, table):
    """Prose: the words of code spans, and camel case anywhere."""
    camel = {old: new for old, new in table.items() if "-" not in old}
    text = re.sub(r"`[^`\n]+`", lambda m: turned(m[0], table, table), text)
    return re.sub(r"(?<![\w-])[a-z]+[a-z0-9]*(?:[A-Z][A-Za-z0-9]*)+(?![\w-])", lambda m: camel.get(m[0], m[0]), text)


def antt(text, table, members):
    lines = []
    for line in text.split("\n"):
        code, dashes, note = line.partition("--") if line.lstrip().startswith("--") or " -- " in line else (line, "", "")
        lines.append(turned(code, table, members) + dashes + spans(note, table))
    return "\n".join(lines)


def source(text, table):
    """Clauses alone have names of ours in camel case; a name with a dash stands in clauses alone, within braces."""
    camel = {old: new for old, new in table.items() if "-" not in old}
    out = []
    for line in text.split("\n"):
        code, slashes, note = line.partition("//")
        parts = re.split(r'("(?:[^"\\]|\\.)*")', code)
        parts[::2] = [turned(p, camel, camel) for p in parts[::2]]
        out.append("".join(parts) + slashes + spans(note, table))
    return "\n".join(out)


FIELD = re.compile(r"  (?:pub )?(" + NAME + r")(?: \{[^{}\n]*\}| \([^()\n]*\))* :(?= |$)")


def hides(path, text):
    """A field that another line of its record names without a dot: there it hides what that line means."""
    for block in re.findall(r"(?ms)^(?:pub )?record .*?(?=^\S|\Z)", re.sub(r"--.*", "", text)):
        lines = block.split("\n")
        for i, line in enumerate(lines):
            m = FIELD.match(line)
            if m:
                rest = "\n".join(lines[i + 1 :])
                if re.search(r"(?<![^\s(){},;])" + re.escape(m[1]) + r"(?![^\s(){}.;,])(?! :)", rest):
                    print(f"hides: {path}: {m[1]}")


def meets(path, before, after, table):
    """New names that a file would hold for two old ones."""
    made = collections.defaultdict(set)
    for word in set(WORD.findall(before)):
        made[table.get(word, word)].add(word)
    for new, olds in sorted(made.items()):
        if len(olds) > 1:
            print(f"meets: {path}: {', '.join(sorted(olds))} -> {new}")


def main():
    root = os.path.dirname(os.path.dirname(os.path.abspath(__file__)))
    check = "--check" in sys.argv[1:]
    shared, local, members = ours(root)
    for path in files(root, (".antt", ".rt", ".edit")):
        before = read(path)
        table = {**shared, **local.get(path, {})}
        if path.endswith(".antt"):
            after = antt(before, table, members | set(local.get(path, {})) & members)
        elif path.endswith(".rt"):
            after = source(before, table)
        else:
            after = turned(before, table, members)
        if after != before:
            meets(os.path.relpath(path, root), before, after, table)
            hides(os.path.relpath(path, root), after)
            if not check:
                with open(path, "w", encoding="utf-8") as f:
                    f.write(after)
    for name in PROSE:
        path = os.path.join(root, name)
        if os.path.exists(path):
            before = read(path)
            after = "\n".join(spans(line, shared) for line in before.split("\n"))
            if after != before and not check:
                with open(path, "w", encoding="utf-8") as f:
                    f.write(after)
    print(f"snake_names: {len(shared)} shared names, {sum(map(len, local.values()))} in proofs of one function")


if __name__ == "__main__":
    main()
