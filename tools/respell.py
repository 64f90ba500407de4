#!/usr/bin/env python3
"""Brings the project's own definitions and lemmas to the spelling of today's Rattle: words in snake case, types and modules in camel case.

usage: tools/respell.py [--check]     at the top of the repository, once, after the kit's port.py; --check only says what would change

It renames what specs/ and proofs/ declare: `dayOf` becomes `day_of`, `below-next` becomes `below_next`. A dash stays between two names
of definitions or words of the library, as in `length-append`. What src/ declares keeps its name, and so do the names that Rattle makes.
"""

import collections
import glob
import re
import sys

TOKEN = re.compile(r"[^\s(){}\[\],;.:\"]+")
HEAD = re.compile(r"^(\s*)((?:(?:pub|abbrev|unfoldable)\s+)*)([^\s(){}\[\],;.:\"]+)(?:\s+:\s|\s*$|\s+:$)")
# Words of the library that a dash may join, as its own lemmas have them.
WORDS = {"length", "append", "take", "drop", "set", "get_or", "pos", "negsuc", "to_z", "of_z", "all_below", "map", "filter", "lookup"}
# What a name gets behind it where the plain one is that of a function of src/, or of a definition.
RULE, LEMMA = "_rule", "_lem"


def files(*kinds):
    found = [path for kind in kinds for path in glob.glob("crates/*/" + kind, recursive=True)]
    return sorted(path for path in set(found) if "/out/" not in path and "/target/" not in path)


def read(path):
    with open(path, encoding="utf-8") as file:
        return file.read()


def bare(line):
    """A line without its comment."""
    return re.sub(r"(^|\s)--(\s.*|$)", r"\1", line)


def declared():
    """Each name that specs/ or proofs/ declare, with the files that do; and the goals that a file answers under a name of Rattle's."""
    names, goals = collections.defaultdict(set), collections.defaultdict(set)
    for path in files("specs/**/*.antt", "proofs/**/*.antt"):
        answers = "/proofs/" in path and path.count("/") > 3
        for line in read(path).split("\n"):
            text = bare(line)
            block = re.match(r"^(\s*)(?:(?:pub|abbrev|unfoldable)\s+)*(record|data|ruleset)\s+([^\s(){}]+)", text)
            if block:
                if not answers:
                    names[block[3]].add(path)
                continue
            head = HEAD.match(text)
            if not head or head[3] in ("use", "where", "module", "elim", "let", "in", "=", "unfolding"):
                continue
            if re.search(r":\s*(tie|goal|given)\.(Need|InvT|MeasureT|invariant|decreases|[a-z])", text) and "/proofs/" in path:
                goals[path].add(head[3])
                continue
            if not answers:
                names[head[3]].add(path)
    return names, goals


def camel(name):
    return re.search(r"[a-z0-9][A-Z]", name) and not name[0].isupper()


def snake(name):
    return re.sub(r"([a-z0-9])([A-Z])", lambda m: m[1] + "_" + m[2].lower(), name)


def spelled(name, definitions):
    if name.startswith("-") or name.endswith("-") or re.search(r"[◌⇒∣⊞⊟⊠⟨⟩]", name) and "-" not in name and not camel(name):
        return name
    parts = [snake(part) if camel(part) else part for part in name.split("-")]
    out = parts[0]
    for i in range(1, len(parts)):
        # a dash stays between two names
        old_left, old_right = "-".join(name.split("-")[:i]), "-".join(name.split("-")[i:])
        joins = name.split("-")[i - 1] in definitions and name.split("-")[i] in definitions
        out += ("-" if joins and "_" not in (old_left, old_right) else "_") + parts[i]
    return out


def functions():
    """Each function of src/."""
    return {name for path in files("src/**/*.rt") for name in re.findall(r"\bfn (\w+)", read(path))}


def plan():
    names, goals = declared()
    definitions = {name for name, paths in names.items() if any("/specs/" in path for path in paths) and len(name) > 1 and "-" not in name and "_" not in name} | WORDS
    definitions = {name for name in definitions if len(name) > 2}
    renamed, taken, source = {}, set(names), functions()
    ruled = {name for name, paths in names.items() if any("/specs/" in path for path in paths)}
    for name in sorted(names, key=lambda name: (name not in ruled, name)):
        if not (camel(name) or "-" in name) or not re.match(r"^[a-zA-Zα-ωΑ-Ω⇒]", name):
            continue
        new = spelled(name, definitions)
        if new == name:
            continue
        if new in source or new in taken and name in ruled:
            new += RULE if name in ruled else LEMMA
        elif new in taken:
            new += LEMMA
        taken.add(new)
        renamed[name] = new
    return names, goals, renamed


def turned(path, text, renamed, goals):
    mine = goals.get(path, set())

    def one(match):
        token = match[0]
        if token in mine:
            return token
        before = text[max(0, match.start() - 5) : match.start()]
        if before.endswith(("tie.", "goal.", "lts.")):
            return token
        return renamed.get(token, token)

    return TOKEN.sub(one, text)


def ghost_only(path, text, renamed):
    """Of a source file the ghost lines and the clauses alone."""
    out, depth, clause = [], 0, False
    for line in text.split("\n"):
        starts = re.match(r"^\s*(requires|ensures)\*?\s*(\w+\s*)?\{", line) or re.match(r"^\s*(ghost use|ghost \w+:)", line)
        if starts or clause:
            line = TOKEN.sub(lambda m: renamed.get(m[0], m[0]), line)
            depth = (depth if clause else 0) + line.count("{") - line.count("}")
            clause = depth > 0
        out.append(line)
    return "\n".join(out)


def main():
    check = "--check" in sys.argv[1:]
    names, goals, renamed = plan()
    news = collections.defaultdict(set)
    for old, new in renamed.items():
        news[new].add(old)
    bad = 0
    tokens = {}
    for path in files("specs/**/*.antt", "proofs/**/*.antt", "src/**/*.rt"):
        tokens[path] = set(TOKEN.findall("\n".join(bare(line) for line in read(path).split("\n"))))
    for new, olds in sorted(news.items()):
        if len(olds) > 1:
            print("falls together: %s: %s" % (new, " ".join(sorted(olds))))
            bad += 1
        for path, has in tokens.items():
            if new in has and olds & has:
                print("stands already: %s (from %s) in %s" % (new, " ".join(sorted(olds & has)), path))
                bad += 1
    print("%d names, %d to look at" % (len(renamed), bad))
    if check:
        return
    for path in files("specs/**/*.antt", "proofs/**/*.antt", "src/**/*.rt"):
        text = read(path)
        new = ghost_only(path, text, renamed) if path.endswith(".rt") else turned(path, text, renamed, goals)
        if new != text:
            with open(path, "w", encoding="utf-8") as file:
                file.write(new)
    for path in ["README.md"] + sorted(glob.glob("docs/*.md")):
        text = read(path)
        new = re.sub(r"`[^`\n]+`", lambda m: TOKEN.sub(lambda n: renamed.get(n[0].strip("`"), n[0].strip("`")) if "`" not in n[0] else n[0].replace(n[0].strip("`"), renamed.get(n[0].strip("`"), n[0].strip("`"))), m[0]), text)
        if new != text:
            with open(path, "w", encoding="utf-8") as file:
                file.write(new)


main()
