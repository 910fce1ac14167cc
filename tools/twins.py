#!/usr/bin/env python3
"""Lists functions of src/ whose bodies differ only in names and numbers; with --together, parameters that
stand together in three or more functions. Used by hand when twins are looked for; nothing runs it."""
import itertools
import pathlib
import re
import sys

WORDS = {"if", "else", "match", "for", "in", "return", "while", "let", "mut", "as", "self", "Some", "None", "Ok", "Err"}


def functions(folder):
    for path in sorted(pathlib.Path(folder).glob("*/src/*.rt")):
        text = re.sub(r"//[^\n]*", "", path.read_text())
        for found in re.finditer(r"\bfn (\w+)(?=[<(])", text):
            yield path, found.group(1), *parts(text, after_generics(text, found.end()) + 1)


def after_generics(text, at):
    if text[at] != "<":
        return at
    return closing(text.replace("->", "  "), at + 1, "<", ">")


def closing(text, at, opens, closes):
    depth = 1
    while depth and at < len(text):
        depth += (text[at] == opens) - (text[at] == closes)
        at += 1
    return at


def parts(text, at):
    """A function's parameters and its body: the block that follows its clauses."""
    end = closing(text, at, "(", ")")
    parameters = re.findall(r"(\w+): ", text[at : end - 1])
    while at < len(text):
        found = re.compile(r"(requires|ensures)\b[^{]*\{|[{;]").search(text, end)
        if found is None or found.group() == ";":
            return parameters, ""
        end = closing(text, found.end(), "{", "}")
        if found.group() == "{":
            return parameters, text[found.end() : end - 1]
    return parameters, ""


def skeleton(body):
    tokens = re.findall(r"\w+|[^\w\s]", body)
    return " ".join(t if not re.match(r"\w", t) or t in WORDS else "_" for t in tokens)


def main():
    together = "--together" in sys.argv
    folder = sys.argv[-1]
    groups = {}
    for path, name, parameters, body in functions(folder):
        where = f"{path}: {name}"
        if together:
            for pair in itertools.combinations(sorted(set(parameters)), 2):
                groups.setdefault(", ".join(pair), []).append(where)
        elif len(skeleton(body).split()) > 8:
            groups.setdefault(skeleton(body), []).append(where)
    least = 3 if together else 2
    for key, places in groups.items():
        if len(places) >= least:
            print(key if together else "same but for names and numbers:")
            print("".join(f"  {place}\n" for place in places), end="")


main()
