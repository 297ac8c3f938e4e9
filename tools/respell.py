#!/usr/bin/env python3
"""Brings the repository's own definitions and lemmas to snake case: markRow is mark_row, putLe-out is put_le-out.

usage: tools/respell.py [--list]        at the top, once, right after port.py

It goes by words: a word is renamed where the repository's specs/ or proofs/ declare it. Types, functions of src/, strings, comments' prose and
the kit's own names stay. OTHER has the names that would fall together with one that a file already uses."""
import os, re, sys, collections

WORD = re.compile(r"[^\s(){}.;,@\"«»\[\]\\:]+")
DECLARED = re.compile(r"^\s*(?:abbrev |unfoldable |private )*(?:pub )?(?:abbrev |unfoldable )?([^\s:(){}]+) :(?!:) ")
CAMEL = re.compile(r"[a-z][a-z0-9_]*[A-Z]")
OTHER = {"elementsIn": "ElementsIn", "isInput": "IsInput", "handsOut": "word_handed_out", "kindFits": "kind_fit"}
# Lemmas and names of one file that would fall together with a definition used there.
LEMMAS = {
    "theorem_refusals/proofs/Reflect.antt": {"in_memory": "in_memory_lem"},
    "machine/proofs/MemoryLaws.antt": {"in_memory": "lies_inside"},
    "image_salvage/proofs/KeepLaws.antt": {"runs_of": "runs_of_lem"},
    "image_salvage/proofs/Keeps.antt": {"runs_of": "runs_of_lem"},
    "image_salvage/proofs/FreshLaws.antt": {"runs_of": "runs_of_lem"},
    "run_start/proofs/tests/is_lying/Proof.antt": {"a_in": "a_in_lem"},
    "text_read/proofs/goes_on/Proof.antt": {"is_digit": "is_digit_lem"},
    "text_read/proofs/is_first/Proof.antt": {"is_digit": "is_digit_lem"},
    "unit_table/proofs/TableLaws.antt": {"fresh_in": "fresh_in_lem"},
}


def snake(word):
    return re.sub(r"(?<=[a-z0-9])([A-Z]+)", lambda m: "_" + m.group(1).lower(), word)


def files(root):
    for folder, folders, names in os.walk(os.path.join(root, "crates")):
        folders[:] = sorted(f for f in folders if f != "out")
        for name in sorted(names):
            if name.endswith((".rt", ".antt")):
                yield os.path.join(folder, name)


def renamed(texts):
    """Returns the new name of each part of a declared word that is in camel case."""
    kit = set()
    for path, text in texts.items():
        for line in re.findall(r"^\s*(?:pub )?(?:unfoldable )?use [^\n]*", text, re.M):
            if "Rattle.std." in line or " Rattle.core." in line or not re.search(r"use Rattle\.", line):
                kit.update(WORD.findall(line))
    parts = set()
    for path, text in texts.items():
        if path.endswith(".antt"):
            for line in text.split("\n"):
                m = DECLARED.match(line)
                if m and not line.startswith(("use ", "--")):
                    parts.update(it for it in m.group(1).split("-") if CAMEL.match(it))
    return {it: OTHER.get(it, snake(it)) for it in parts - kit}, parts & kit


def turned(text, names, rt):
    def one(m):
        return "-".join(names.get(it, it) for it in m.group(0).split("-"))

    out, at = [], 0
    quoted = re.compile(r"//[^\n]*|b?\"(?:[^\"\\]|\\.)*\"|b?'(?:\\.[^'\n]*|[^'\\\n])'" if rt else r"\"(?:[^\"\\]|\\.)*\"")
    for m in quoted.finditer(text):
        out.append(WORD.sub(one, text[at : m.start()]))
        # comments name definitions too
        out.append(WORD.sub(one, m.group(0)) if m.group(0).startswith("//") else m.group(0))
        at = m.end()
    return "".join(out) + WORD.sub(one, text[at:])


def main():
    texts = {}
    for path in files("."):
        with open(path, encoding="utf-8") as f:
            texts[path] = f.read()
    names, left = renamed(texts)
    if "--list" in sys.argv:
        for old in sorted(names):
            print(old, names[old])
        return
    for path, lemmas in LEMMAS.items():
        path = os.path.join(".", "crates", path)
        if path in texts:
            for old, new in lemmas.items():
                texts[path] = re.sub(r"(?<![\w.-])%s(?![\w'-])" % old, new, texts[path])
    before = {path: open(path, encoding="utf-8").read() for path in texts}
    for path, text in texts.items():
        new = turned(text, names, path.endswith(".rt"))
        if new != before[path]:
            with open(path, "w", encoding="utf-8") as f:
                f.write(new)
    print(len(names), "names; left as they are:", " ".join(sorted(left)))


main()
