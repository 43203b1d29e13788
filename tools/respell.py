#!/usr/bin/env python3
"""Brings the names of definitions and lemmas to snake case: python3 tools/respell.py [ROOT]

It is run once, right after /opt/rattle/port/port.py. tools/respell.tsv has the old and the new name of each. A lemma that would get its definition's name
ends in _lem. A name with a dash is replaced in antt text alone: in comments and documents only between backquotes.
"""
import os
import re
import sys

HERE = os.path.dirname(os.path.realpath(__file__))
ROOT = sys.argv[1] if len(sys.argv) > 1 else os.path.dirname(HERE)
NAME = re.compile(r"(?<![\w'◌\-])[\w◌](?:[\w'◌]|-(?=[\w◌]))*")
# Where a definition gets the name of a lemma that port.py had put into snake case: the lemma in these files.
LOCAL = {
    "crates/model/proofs/Operands.antt": {"all_pass": "all_pass_lem"},
    "crates/model/proofs/Fields.antt": {"in_use": "in_use_lem"},
    "crates/model/proofs/SumFirst.antt": {"sum_number": "sum_number_lem"},
    "crates/sharing/proofs/Outcomes.antt": {"sum_number": "sum_number_lem"},
    "crates/model/proofs/CallReading.antt": {"with_byte": "with_byte_lem"},
}


def table():
    with open(os.path.join(HERE, "respell.tsv"), encoding="utf-8") as f:
        return dict(line.rstrip("\n").split("\t") for line in f)


def renamed(text, names, dashes):
    def one(m):
        word = m.group(0)
        tail = ""
        while word not in names and word.endswith("'"):  # a prime, or a quote in a comment
            word, tail = word[:-1], "'" + tail
        if word not in names or ("-" in word and not dashes):
            return m.group(0)
        if names[word] == word + "_lem" and text.startswith(" = ", m.end()):  # a field of that name
            return m.group(0)
        return names[word] + tail

    return NAME.sub(one, text)


def quoted(text, names):
    return re.sub(r"`[^`\n]*`", lambda m: renamed(m.group(0), names, True), text)


def commented(line, names):
    return quoted(renamed(line, names, False), names)


def split_comment(line, mark):
    m = re.search(r"(?:^|(?<=\s))" + mark + r"(?=\s|$)", line)
    return (line[: m.start()], line[m.start() :]) if m else (line, "")


def lines(text, names, mark):
    out = []
    for line in text.split("\n"):
        code, comment = split_comment(line, mark)
        out.append(renamed(code, names, True) + commented(comment, names))
    return "\n".join(out)


def edit(text, names):
    return "\n".join(
        commented(line, names) if line.startswith("#") else lines(line, names, "(?!)x") for line in text.split("\n")
    )


def main():
    names = table()
    for folder, dirs, files in os.walk(ROOT):
        dirs[:] = [d for d in dirs if d not in (".git", "out", "target", "reference", "tools")]
        for name in files:
            path = os.path.join(folder, name)
            rel = os.path.relpath(path, ROOT)
            here = {**names, **LOCAL.get(rel, {})}
            if name.endswith((".antt", ".rt", ".edit", ".md")):
                with open(path, encoding="utf-8") as f:
                    text = f.read()
                if name.endswith(".antt"):
                    new = lines(text, here, "--")
                elif name.endswith(".rt"):
                    new = lines(text, here, "//")
                elif name.endswith(".edit"):
                    new = edit(text, here)
                else:
                    new = quoted(text, here)
                if new != text:
                    with open(path, "w", encoding="utf-8") as f:
                        f.write(new)


main()
