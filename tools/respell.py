#!/usr/bin/env python3
"""Spells the definitions and lemmas of this repository in one way.

usage: tools/respell.py --write        at the top of the repository; without --write, or with --list, it only says what it would do

Types and facts are in upper camel case, all else is in snake case. A dash stays only between two names of definitions,
as in length-drop. Names that Rattle makes, such as those of goals, and names of src/ keep their spelling. A new
spelling that would meet another name is refused, and nothing is written.
"""

import glob
import os
import re
import sys

NAME = r"[^\s(){}.;,@\"«»\[\]|]+"
WORD = re.compile(r'(?<![^\s(){}.;,@"«»\[\]|])' + NAME)
HEAD = re.compile(r"( *)(?:(?:abbrev|opaque|unfoldable|pub)\s+)*(?:(record|data)\s+(?:pub\s+)?)?(" + NAME + r"(?:\s+" + NAME + r")*?)\s*((?:\{[^}]*\}\s*|\([^)]*\)\s*)*):(?:\s|$)(.*)")
KEYWORDS = {"use", "mod", "open", "let", "λ", "module", "pub", "abbrev", "data", "record", "where", "mutual", "unfolding", "--"}
# Words of the library that a lemma's name may be joined of.
LIBRARY = set("length take drop append cons nil get_or sum reverse".split())
# New spellings that are not the rule's, since that one is another name already.
CHOSEN = {"for-scope": "for_scope_lem", "scope-after": "scope_after_lem", "is-waiting": "while_waiting", "main-name": "main_lexeme", "ofChar": "is_of_char", "is-zero": "is_zero_lem", "same-name": "same_name_lem"}
# Lemmas that give way to a function whose new spelling they have.
GIVE_WAY = {"args_end": "argsEnd"}
# Heads behind which the next name is one that Rattle makes.
MADE = re.compile(r"(?:^|[\s(,;])(?:goal|c|w|l|g|v|u|x|y)\.$")


def texts():
    for path in sorted(glob.glob("crates/*/specs/**/*.antt", recursive=True) + glob.glob("crates/*/proofs/**/*.antt", recursive=True)):
        with open(path, encoding="utf-8") as f:
            yield path, f.read()


def declared(text):
    """Each name that the text declares: name, kind, whether it is a definition, its line."""
    lines = text.split("\n")
    inside, depth = None, 0
    for i, line in enumerate(lines):
        if re.match(r"\s*--", line) or not line.strip():
            continue
        m = HEAD.match(line)
        if not m or m[3].split()[0] in KEYWORDS:
            continue
        indent, names = len(m[1]), m[3].split()
        if m[2]:
            inside, depth = m[2], indent
            yield names[0], "type", True, i
        elif inside and indent > depth:
            for name in names:
                yield name, "part", False, i
        else:
            if inside and indent <= depth:
                inside = None
            sign, j = m[5], i + 1
            while j < len(lines) and re.match(r" {%d,}\S" % (indent + 2), lines[j]):
                sign += " " + lines[j].strip()
                j += 1
            if sign.lstrip().startswith("goal."):
                continue
            fact = re.search(r"Type \S+\s*$", sign) is not None
            for name in names:
                yield name, "type" if fact and indent == 0 else "value", "abbrev" in line or "unfoldable" in line, i


def words_of(name):
    return re.sub(r"(?<=[a-z0-9])[A-Z]+", lambda m: "_" + m[0].lower(), name)


def respelled(name, kind, definitions):
    if kind == "type":
        return "".join(it[:1].upper() + it[1:] for it in re.split(r"[-_]", name)) if "-" in name or name[:1].islower() else name
    parts = [it if it[:1].isupper() else words_of(it) for it in name.split("-")]
    out = parts[0]
    for before, after in zip(parts, parts[1:]):
        out += ("-" if before in definitions and after in definitions else "_") + after
    return out


def main():
    found, files = {}, dict(texts())
    for path, text in files.items():
        for name, kind, defines, _ in declared(text):
            before = found.get(name)
            found[name] = (kind if before is None or before[0] == kind else "value" if "value" in (kind, before[0]) else "part", defines or bool(before and before[1]))
    definitions = {words_of(n) if n[:1].islower() else n for n, (_, defines) in found.items() if defines} | LIBRARY
    table = {}
    for name, (kind, _) in found.items():
        new = name + "_lem" if GIVE_WAY.get(name) in found else CHOSEN.get(name) or respelled(name, kind, definitions)
        if new != name:
            table[name] = new
    sources = {p: open(p, encoding="utf-8").read() for p in sorted(glob.glob("crates/*/src/**/*.rt", recursive=True))}
    # Names that the library has too stay in the files that take them from there.
    taken = {}
    for path, text in {**files, **sources}.items():
        for source, items in re.findall(r"\buse (?:Rattle\.(?:std|core)|lib|mathlib|Prim|borrow|denote|sem)[\w.·]*?((?:\.[\w-]+)*)\.\{([^}]*)\}", text):
            taken.setdefault(path, set()).update(WORD.findall(items))
    foreign = set().union(*taken.values()) if taken else set()
    for name in sorted(set(table) & foreign):
        print(f"stays, since the library has it too: {name}")
        del table[name]
    everywhere = {}
    for path, text in files.items():
        code = re.sub(r"--.*", "", re.sub(r"(?m)^use \S+", "", text))
        for word in WORD.findall(code):
            everywhere.setdefault(word, set()).add(path)
    for old, new in sorted(table.items()):
        # A lemma that would have its function's name.
        for lemma in [it for it in found if it != old and table.get(it, it) == new and not found[it][1]]:
            if (found[old][1] or re.search("[a-z][A-Z]", old)) and found[lemma][0] == "value":
                table[lemma] = new + "_lem"
    bad, news = 0, {}
    for old, new in sorted(table.items()):
        if new in news:
            print(f"meet: {old} and {news[new]} would both be {new}")
            bad += 1
        news[new] = old
        if new not in table and (new in found or everywhere.get(new, set()) & everywhere.get(old, set())):
            print(f"meets: {old} would be {new}, in {sorted(everywhere.get(new, set()))[:2]}")
            bad += 1
    print(f"{len(table)} names, {bad} meet others")
    if "--list" in sys.argv:
        for old, new in sorted(table.items()):
            print(old, new)
    if bad or "--write" not in sys.argv:
        return 1 if bad else 0
    for path, text in {**files, **sources}.items():
        made = re.search(r"/(Answers|Invariants)\.antt$", path)

        out = []
        for line in re.split(r"(?<=\n)", text):
            code, comment = line, ""
            m = re.search(r"--(?=\s|$)" if path.endswith(".antt") else r"//", line)
            if m:
                code, comment = line[: m.start()], line[m.start() :]
            out.append(turned(code, made, table) + comment)
        new = "".join(out)
        if new != text:
            with open(path, "w", encoding="utf-8") as f:
                f.write(new)
    for path in sorted(glob.glob("docs/*.md")) + ["README.md"]:
        with open(path, encoding="utf-8") as f:
            text = f.read()
        new = re.sub(r"`[^`\n]*`", lambda m: WORD.sub(lambda w: table.get(w[0], w[0]), m[0].strip("`")).join("``"), text)
        if new != text:
            with open(path, "w", encoding="utf-8") as f:
                f.write(new)
    return 0


def turned(code, made, table):
    """The line with its names spelled anew; the modules of a path stay."""
    path = re.match(r"\s*(?:pub\s+|ghost\s+)*use\s+[^\s{;]+", code)
    if path:
        return path[0] + turned_words(code[path.end() :], made, table)
    return turned_words(code, made, table)


def turned_words(code, made, table):
    def turn(m):
        if made and MADE.search(code[max(0, m.start() - 12) : m.start()]):
            return m[0]
        return table.get(m[0], m[0])

    return WORD.sub(turn, code)


if __name__ == "__main__":
    raise SystemExit(main())
