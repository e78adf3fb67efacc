#!/usr/bin/env python3
"""Respells this repository's own definitions and lemmas: run it once, at the top, right after port.py.

usage: python3 tools/respell.py [--names]

Functions, lemmas, fields and constructors that specs/ and proofs/ declare get snake case: `leAt` becomes `le_at`. A dash stays where it
joins two names, as in `length-over`, and a plain word is joined by `_`, as in `copy_end`. Types, facts and modules keep their capitals.
Names of src/, strings, inputs and outputs stay. --names prints the table and writes nothing. It stops where two names would fall together.
"""
import os
import re
import sys

W = r"[^\s(){}.;,@\"«»\[\]\\`:]+"
TOKEN = re.compile(W)
MADE = re.compile(r"(?:Goals|Given|Tie|Lts|tie|goal|Statement|Met)$")
# Lemmas and fields that would take the name of a function: a lemma gets `_lem`.
APART = {n: re.sub("-", "_", n) + "_lem" for n in "runs_after no_room part-unit how-many in_one goes_on by-addr by-size-then-addr of_one".split()}
APART.update({n: re.sub("-", "_", n) + "_lem" for n in "refused-text empty-lists gave-as kept-as and-then or-else by-kind is_free in_list all-groups used-by".split()})
APART.update({"message-len": "message_long", "of_size": "part_size"})
STD = """length take drop map get_or set append reverse sum max min filter concat zip replicate count_by add sub mul div mod pow suc zero
le lt eq ltb leb eqb and or not cons nil repeat""".split()


def files(ends):
    for top in ("crates",):
        for folder, folders, names in os.walk(top):
            folders[:] = sorted(f for f in folders if f not in ("out", "data"))
            for name in sorted(names):
                if name.endswith(ends):
                    yield os.path.join(folder, name)


def read(path):
    with open(path, encoding="utf-8") as f:
        return f.read()


def snake(word):
    if word[0].isupper():
        return word
    return re.sub(r"(?<=[a-z0-9])([A-Z])(?=[a-z])", lambda m: "_" + m[1].lower(), word)


def declared():
    """The names that specs/ and proofs/ declare: definitions of specs/ with their constructors, lemmas, and fields of records; and of
    those in specs/ the ones that stand outside a block, whose names a dash joins."""
    defined, lemmas, fields, outer = set(), set(), set(), set()
    for path in files(".antt"):
        of_function = os.path.basename(path) in ("Proof.antt", "Answers.antt", "Invariants.antt")
        to = defined if "/specs/" in path else lemmas
        of_record = False
        for line in read(path).split("\n"):
            of_record = bool(re.match(r" *(?:pub )?record ", line)) or (of_record and (line.startswith(" ") or not line.strip()))
            m = re.match(r"use \S+ as ([a-z]\w*[A-Z]\w*)$", line)
            if m:
                lemmas.add(m[1])
                continue
            m = re.match(r"(?:(?:abbrev|unfoldable|pub) )*(%s) :(?: (.*)|$)" % W, line)
            if m:
                if not (of_function and (re.match(r"tie\.", m[2] or "") or re.search(r"[-_]spec$", m[1]))):
                    to.add(m[1])
                    outer.update([m[1]] if to is defined else [])
                continue
            m = re.match(r" +((?:(?:abbrev|unfoldable|pub) )*)(%s) :(?: |$)" % W, line) if not of_function else None
            if m:
                (fields if of_record else to).add(m[2])
                outer.update([m[2]] if to is defined and m[1] in ("", "pub ") else [])
    return defined, lemmas, fields, outer


def table():
    defined, lemmas, fields, outer = declared()
    names = {snake(n) for n in outer if "-" not in n} | set(STD)
    out = {}
    for name in sorted(defined | lemmas | fields):
        if name in APART:
            out[name] = APART[name]
            continue
        if name[0].isupper() and "-" not in name:
            continue
        parts = [snake(p) if p else p for p in re.sub("^getD(?=-)", "get_or", name).split("-")]
        new = parts[0]
        for at in range(1, len(parts)):
            left = any(re.split("-", "_".join(parts[k:at]))[0] in names for k in range(at)) if parts[at - 1] else True
            left = left or bool(re.match(r"[A-Z]", parts[at - 1] or "x"))
            right = any("_".join(parts[at:k]) in names for k in range(at + 1, len(parts) + 1)) or bool(re.match(r"[A-Z]", parts[at] or "X"))
            symbol = not re.match(r"\w", parts[at] or "-") or not re.search(r"[\w'₀-₉]$", parts[at - 1] or "-")
            if name in fields and name not in defined | lemmas:
                left = symbol = False
            new += ("-" if (left and right) or symbol else "_") + parts[at]
        if new != name:
            out[name] = new
    return out, together(out, defined | lemmas | fields)


def together(names, every):
    """The new names that two old ones get in one file."""
    found = set()
    for path in files((".antt", ".rt")):
        olds = {}
        for word in set(TOKEN.findall(read(path))):
            if word in every:
                olds.setdefault(names.get(word, word), set()).add(word)
        found.update((new, path) for new, words in olds.items() if len(words) > 1)
    return sorted(found)


def of_libraries(text):
    """What a file takes from another library than this repository's crates."""
    out = set()
    for module, words in re.findall(r"(?m)^ *(?:pub |ghost )?use ([^\s{]+)\.\{([^}]*)\}", text):
        own = re.match(r"Rattle\.(\w+)\.", module)
        if not own or not os.path.isdir(os.path.join("crates", own[1])):
            out.update(w.split(" as ")[0].strip() for w in words.split(","))
    return out


def antt(text, names, of_function):
    names = {a: b for a, b in names.items() if a not in of_libraries(text)}

    def one(m):
        word = m[0]
        if word not in names:
            return word
        before = text[max(0, m.start() - 120) : m.start()]
        if of_function and before.endswith("."):
            head = re.search(r"(%s)\.$" % W, before)
            # a field of what the check made for a function: its steps, goals and arguments keep the names that the check gives
            if not head or not re.match(r"[A-Z]", head[1]) or MADE.match(head[1]):
                if "-" in word:
                    return word
        if re.search(r"(?:Goals|Given|Tie|Lts[\w.-]*)\.\{[^}]*$", before):
            return word
        return names[word]

    return TOKEN.sub(one, text)


def source(text, names):
    names = {a: b for a, b in names.items() if a not in of_libraries(text)}
    parts = re.split(r"(\"(?:[^\"\\\n]|\\.)*\")", text)
    return "".join(p if p.startswith('"') else TOKEN.sub(lambda m: names.get(m[0], m[0]), p) for p in parts)


def page(text, names):
    def span(m):
        return TOKEN.sub(lambda t: names.get(t[0], t[0]), m[0])

    return re.sub(r"`[^`\n]*`", span, text)


def main():
    names, alike = table()
    if "--names" in sys.argv:
        print("\n".join(f"{a}\t{b}" for a, b in sorted(names.items())))
        return
    if alike:
        raise SystemExit("names fall together: " + ", ".join(f"{n} in {p}" for n, p in alike))
    for path in files((".antt", ".rt", ".edit")):
        text = read(path)
        if path.endswith(".antt"):
            new = antt(text, names, os.path.basename(path) in ("Proof.antt", "Answers.antt", "Invariants.antt"))
        else:
            new = source(text, names)
        if new != text:
            with open(path, "w", encoding="utf-8") as f:
                f.write(new)
    pages = ["README.md"] + [os.path.join(d, n) for d, _, ns in os.walk("docs") for n in ns if n.endswith(".md")]
    for path in pages:
        text = read(path)
        new = page(text, names)
        if new != text:
            with open(path, "w", encoding="utf-8") as f:
                f.write(new)


if __name__ == "__main__":
    main()
