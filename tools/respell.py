#!/usr/bin/env python3
"""Brings the repository's own definitions and lemmas to today's spelling: words in snake case, facts and types in camel case.

usage: python3 tools/respell.py [--list]      at the top of the repository, once, after the kit's port.py

A name is the repository's own where an .antt file declares it, as a definition, a lemma, a field, a constructor, a parameter or a
variable of its own. Names that the checker makes of the code (goals and steps) are left alone, as are names of the library.
"""
import glob
import re
import sys

DECLARES = re.compile(r"\s*(?:(?:abbrev|unfoldable|pub|record|data|ruleset)\s+)*([^\s(){}\[\],;.:«»]+)\s*:(?!:)\s*(.*)")
KIND = re.compile(r"\s*(?:(?:abbrev|unfoldable|pub)\s+)*(?:record|data|ruleset)\s+(?:pub\s+)?([^\s(){}]+)")
BINDERS = re.compile(r"[({]((?:[^\s(){}\[\],;.:«»]+\s+)+):\s")
LETS = re.compile(r"(?:\blet|\bin let)\s+([^\s(){}\[\],;.:«»]+)\s*[:=]")
LAMBDA = re.compile(r"λ ((?:[^\s(){}\[\],;.:«»]+ ?)+)\.")
TOKEN = re.compile(r"[^\s(){}\[\],;.:«»`]+")
GENERATED = re.compile(r"^(goal|need|given|needs)\.")


def code_of(line, comment):
    """The line's code and its comment."""
    at = line.find(comment)
    return (line, "") if at < 0 else (line[:at], line[at:])


def is_answer(path):
    return path.endswith(("/Answers.antt", "/Invariants.antt", "/Proof.antt"))


def own_names():
    own, generated = set(), set()
    for path in glob.glob("crates/**/*.antt", recursive=True):
        if "/out/" in path:
            continue
        for line in open(path, encoding="utf-8"):
            code, _ = code_of(line, "--")
            if code.startswith("use "):
                continue
            found = DECLARES.match(code)
            if found:
                (generated if GENERATED.match(found.group(2)) else own).add(found.group(1))
            found = KIND.match(code)
            if found:
                own.add(found.group(1))
            for pattern in (BINDERS, LETS, LAMBDA):
                for names in pattern.findall(code):
                    own.update(names.split())
            if not is_answer(path):
                head = re.match(r"\s*([^\s(){}\[\],;.:«»]+)((?: [^\s(){}\[\],;.:«»=]+)*) =", code)
                if head:
                    own.update(head.group(2).split())
    return {n for n in own if "-" in n.strip("-") and n not in generated and "◌" not in n}


def spelled(name):
    words = name.split("-")
    if name[0].isupper() and not (len(words[0]) == 1 and words[0] not in ("A",)):
        return "".join(w[:1].upper() + w[1:] for w in words)
    return "_".join(words)


def respell(text, names, comment, strings):
    lines = []
    for line in text.split("\n"):
        code, rest = code_of(line, comment)
        parts = re.split(r'("(?:[^"\\]|\\.)*")', code) if strings else [code]
        for i in range(0, len(parts), 2):
            parts[i] = TOKEN.sub(lambda m: names.get(m.group(0), m.group(0)), parts[i])
        lines.append("".join(parts) + rest)
    return "\n".join(lines)


def main():
    names = {n: spelled(n) for n in own_names()}
    if "--list" in sys.argv:
        for old, new in sorted(names.items()):
            print(old, new)
        return
    for pattern, comment, strings in (("*.antt", "--", False), ("*.rt", "//", True), ("*.edit", "//", True)):
        for path in glob.glob("crates/**/" + pattern, recursive=True):
            if "/out/" in path:
                continue
            text = open(path, encoding="utf-8").read()
            new = respell(text, names, comment, strings)
            if new != text:
                open(path, "w", encoding="utf-8").write(new)
    for path in glob.glob("docs/*.md") + ["README.md"]:
        text = open(path, encoding="utf-8").read()
        new = re.sub(r"`[^`\n]+`", lambda m: TOKEN.sub(lambda t: names.get(t.group(0), t.group(0)), m.group(0)), text)
        if new != text:
            open(path, "w", encoding="utf-8").write(new)


main()
