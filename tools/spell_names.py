#!/usr/bin/env python3
"""Spells the repository's own names in antt as today's Rattle does: words in snake case, types and facts in camel case, a dash only between two names.

usage: python3 tools/spell_names.py [--list]     at the top of the repository, once, after the library's own port.py

What turns: each name that a file of specs/ or proofs/ declares. A name whose type ends in `Type N` is a fact, and is spelled as a type. In a lemma's name a
dash stays where it joins two names (of definitions here, or of the library), and is else an underscore; a field of specs/ has underscores alone, where no definition has that name. The proof of a Rattle function f is `f_spec`. Names of
Rattle code, goals (behind `tie.`) and texts in quotes stay. --list prints the table and changes nothing; a name that would meet another is printed and stays.
"""
import glob
import os
import re
import sys

WORD = re.compile(r'[^\s(){}.;,@"«»\x60:!?\'/]+\'*')
DECLARED = re.compile(r"^(\s*)((?:unfoldable |abbrev |pub )*)((?:data |record )?)([^\s(){}.;,@\"«»:]+)((?: \{[^{}\n]*\}| \([^()\n]*\))*) :(?: |$)(.*)$")
CAMEL = re.compile(r"[a-z0-9]([A-Z])")
FACT = re.compile(r"(^|→ )Type \d+(\s+where)?\s*$")


def antt():
    return sorted(glob.glob("crates/*/specs/**/*.antt", recursive=True) + glob.glob("crates/*/proofs/**/*.antt", recursive=True))


def declarations(path):
    """(depth, words before, name, type) of each declaration of a file; the type with its further lines."""
    lines = open(path, encoding="utf-8").read().split("\n")
    for i, line in enumerate(lines):
        if line.lstrip().startswith("--"):
            continue
        m = DECLARED.match(line)
        if not m:
            continue
        depth = len(m.group(1))
        text = m.group(6)
        for more in lines[i + 1:]:
            if not more.strip() or len(more) - len(more.lstrip()) <= depth or more.lstrip().startswith("--"):
                break
            text += " " + more.strip()
        yield depth, m.group(2) + m.group(3), m.group(4), text


def snake(word):
    return re.sub(r"([a-z0-9])([A-Z])", lambda m: m[1] + "_" + m[2].lower(), word)


def table():
    facts, words, lemmas, fields, specs_of = set(), set(), set(), set(), {}
    library, all_words = set(), {}
    for path in antt():
        text = open(path, encoding="utf-8").read()
        for m in re.finditer(r"^use ((?!Rattle\.)[\w.+]+|Rattle\.(?:std|core)[\w.]*)\.\{([^}]*)\}", text, re.M):
            library |= {w.strip() for w in m.group(2).split(",")}
        walks = path.endswith("/Proof.antt")
        for depth, before, name, kind in declarations(path):
            if name in ("_", "use", "open", "where") or not re.match(r"[a-z]", name):
                continue
            if FACT.search(kind) and not walks:
                facts.add(name)
            elif CAMEL.search(name) and "-" not in name:
                words.add(name)
            if "-" not in name and ("/specs/" in path or "abbrev" in before or "unfoldable" in before):
                specs_of.setdefault(name, path)
            if "-" in name:
                if "/specs/" in path:
                    fields.add(name)
                elif not walks:
                    lemmas.add(name)
                elif name.endswith("-spec"):
                    specs_of.setdefault(name, path)
    rows = {}
    for name in words - facts:
        rows[name] = snake(name)
    # variables, and names that stand several to a line
    for path in antt():
        for line in open(path, encoding="utf-8"):
            if not line.lstrip().startswith("--"):
                rows.update({w: snake(w) for w in WORD.findall(line) if re.fullmatch(r"[a-z][a-z0-9]*[A-Z][A-Za-z0-9]*", w) and w not in facts and w not in library})
    for name in facts:
        if CAMEL.search(name) or re.match(r"[a-z]+$", name):
            rows[name] = name[0].upper() + name[1:]
    names = {n for n in specs_of if "-" not in n} | {n for n in library if "-" not in n and "_" not in n} | set(rows)
    for name in lemmas:
        parts = name.split("-")
        out = ""
        for i, part in enumerate(parts):
            if i:
                out += "-" if parts[i - 1] in names and part in names else "_"
            out += rows.get(part, snake(part))
        if out != name:
            rows[name] = out
    for name in fields:
        plain = snake(name).replace("-", "_")
        if plain not in names and plain not in rows.values():
            rows[name] = plain
    for name, path in specs_of.items():
        if name.endswith("-spec"):
            rows[name] = os.path.basename(os.path.dirname(path)) + "_spec"
    return {o: n for o, n in rows.items() if o not in library and o != n}


# Lemmas that have, in their file, the new name of a function that they speak of.
LEMMAS = {
    "crates/packed/proofs/Pairing.antt": {"digit_value": "digit_value_lem"},
    "crates/desk_cases/proofs/RoundTrip.antt": {"is_digit": "is_digit_lem", "is_field": "is_field_lem"},
}


def targets():
    yield from antt()
    yield from sorted(glob.glob("crates/*/src/**/*.rt", recursive=True))


def turn(text, rows):
    def word(m):
        before = text[max(0, m.start() - 4):m.start()]
        if before.endswith("tie.") or m[0] not in rows:
            return m[0]
        return rows[m[0]]

    out, at = [], 0
    for m in re.finditer(r'"(?:[^"\\\n]|\\.)*"', text):
        out.append((text[at:m.start()], True, at))
        out.append((m[0], False, m.start()))
        at = m.end()
    out.append((text[at:], True, at))
    result = ""
    for piece, code, start in out:
        if not code:
            result += piece
            continue
        result += re.sub(WORD, lambda m: rows[m[0]] if m[0] in rows and not piece[:m.start()].endswith("tie.") else m[0], piece)
    return result


def main():
    rows = table()
    # a new spelling that some file with the old one has already
    clash = set()
    by_new = {}
    for o, n in rows.items():
        by_new.setdefault(n, []).append(o)
    for n, olds in by_new.items():
        if len(olds) > 1:
            for o in olds:
                if "-" in o:
                    rows[o] += "_lem"  # a lemma that would have its function's name
    texts = {p: open(p, encoding="utf-8").read() for p in targets()}
    for p, lem in LEMMAS.items():
        texts[p] = turn(texts[p], lem).replace("{ is_field_lem =", "{ is_field =").replace("; is_field_lem =", "; is_field =")
    for p, t in texts.items():
        code = "\n".join(l for l in t.split("\n") if not l.lstrip().startswith(("--", "//")))
        if p.endswith(".rt"):
            code = "\n".join(re.findall(r"ghost use [^;]*;", code))
        code = re.sub(r"(?m)^((?:ghost )?use )[\w.+]*?(\.\{|$)", r"\1\2", code)
        fields = set(re.findall(r"(?:[{;]|^ +(?:pub )?)\s*([a-z_0-9]+) (?:=|:) ", code, re.M))
        have = {m[0] for m in WORD.finditer(code) if code[m.start() - 1:m.start()] != "."} - fields
        for o in have & set(rows):
            if rows[o] in have:
                print("meets:", p, o, "->", rows[o])
                clash.add(o)
    for o in clash:
        rows.pop(o, None)
    if "--list" in sys.argv:
        for o in sorted(rows):
            print(o, rows[o], sep="\t")
        return
    changed = 0
    for p, t in texts.items():
        new = turn(t, rows)
        if new != open(p, encoding="utf-8").read():
            open(p, "w", encoding="utf-8").write(new)
            changed += 1
    print(len(rows), "names in", changed, "files")


main()
