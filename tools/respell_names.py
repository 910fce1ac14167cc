#!/usr/bin/env python3
"""Respells the repository's own definitions and lemmas, once: words and lemmas in snake case, types and facts in camel case.

Names of functions in src/, strings, inputs and outputs keep their spelling, and so do the names that Rattle makes of goals and
steps. Run at the top of the repository; it prints each name that it turned and the names that would fall together."""
import glob
import re
import sys

DEFINED = re.compile(r"^\s*(?:(?:abbrev|unfoldable|pub) )*((?:[A-Za-z_][^\s:{}()]* )+):")
TYPE = re.compile(r"^(?:pub )?(?:record|data) (?:pub )?(\S+)")
RENAMED = re.compile(r"([A-Za-z_][\w'-]*) as ([A-Za-z_][\w'-]*)")
TOKEN = re.compile(r"[A-Za-z_][\w']*(?:-[\w']+)+")
GHOST_USE = re.compile(r"ghost use ([^{;]*)\.\{([^}]*)\};")


def antt_files():
    return sorted(glob.glob("crates/*/specs/**/*.antt", recursive=True) + glob.glob("crates/*/proofs/**/*.antt", recursive=True))


def rt_files():
    return sorted(glob.glob("crates/*/src/**/*.rt", recursive=True))


def read(path):
    with open(path) as file:
        return file.read()


def is_answers(path):
    return "/proofs/" in path and path.count("/") > 3


def defined_names(path):
    """The names that a file of definitions or lemmas gives; of a function's own proof, only its helper lemmas."""
    names = set()
    for line in read(path).split("\n"):
        for pattern in (DEFINED, TYPE):
            match = pattern.match(line)
            if not match:
                continue
            goal = re.search(r": (?:goal|need)\.", line)
            if not (is_answers(path) and (goal or line.startswith(" "))):
                names |= set(match.group(1).split())
    return names


def local_names():
    """The names under which files import others, each with the name that it stands for."""
    names = {}
    for path in antt_files() + rt_files():
        for line in read(path).split("\n"):
            if re.match(r"(ghost )?use ", line):
                names.update((new, old) for old, new in RENAMED.findall(line))
    return names


def respelled(name):
    parts = name.replace("getD", "get_or").split("-")
    if name[0].isupper():
        return "".join(part[:1].upper() + part[1:] for part in parts)
    return "_".join(parts)


def apart_from_comments(text, mark, turn):
    """Applies turn to what is neither a comment nor, in sources, a string."""
    lines = []
    for line in text.split("\n"):
        at = line.find(mark) if line.lstrip().startswith(mark) or " " + mark + " " in line else -1
        code, comment = (line, "") if at < 0 else (line[:at], line[at:])
        if mark == "//":
            parts = re.split(r'("(?:[^"\\]|\\.)*")', code)
            code = "".join(part if k % 2 else turn(part) for k, part in enumerate(parts))
        else:
            code = turn(code)
        lines.append(code + comment)
    return "\n".join(lines)


def beside_functions(text):
    """In a source, a definition that would now have the name of a function there is imported under another name."""
    functions = set(re.findall(r"^(?:pub(?:\(crate\))? )?fn (\w+)", text, re.M))
    for found in re.findall(r"^(?:pub )?use [\w:]*?(\w+|\{[^}]*\});", text, re.M):
        functions |= set(re.findall(r"\w+", found))
    taken = []

    def turn(match):
        names = []
        for name in match.group(2).split(","):
            name = name.strip()
            if name in functions:
                taken.append(name)
                name = name + " as " + name + "_of"
            names.append(name)
        return "ghost use " + match.group(1) + ".{" + ", ".join(names) + "};"

    text = GHOST_USE.sub(turn, text)
    if not taken:
        return text
    word = re.compile(r"(?<![\w.])(" + "|".join(taken) + r")(?![\w])")
    lines = []
    for line in text.split("\n"):
        if re.match(r"\s*(ensures|requires|ghost (?!use)|decreases)", line):
            line = word.sub(lambda m: m.group(1) + "_of", line)
        lines.append(line)
    return "\n".join(lines)


def main():
    local = local_names()
    names = set(local)
    for path in antt_files():
        names |= defined_names(path)
    turned = {name: respelled(name) for name in names if "-" in name}
    for name, meant in local.items():
        # a local name is a word or a type as what it stands for is
        if name in turned and meant[0].islower():
            turned[name] = turned[name] if name[0].islower() else respelled(name[0].lower() + name[1:])
    kept = {name for name in names if "-" not in name}
    for name, new in sorted(turned.items()):
        others = [old for old in turned if old != name and turned[old] == new]
        if new in kept or others:
            print("falls together:", name, new, *others)

    def turn(text):
        return TOKEN.sub(lambda m: turned.get(m.group(0), m.group(0)), text)

    for path in antt_files() + rt_files():
        mark = "--" if path.endswith(".antt") else "//"
        old = read(path)
        new = apart_from_comments(old, mark, turn)
        if path.endswith(".rt"):
            new = beside_functions(new)
        if new != old:
            with open(path, "w") as file:
                file.write(new)
    for path in ["README.md"] + sorted(glob.glob("docs/**/*.md", recursive=True)):
        old = read(path)
        new = re.sub(r"`[^`\n]*`", lambda m: turn(m.group(0)), old)
        if new != old:
            with open(path, "w") as file:
                file.write(new)
    for name in sorted(turned):
        print(name, turned[name])
    return 0


if __name__ == "__main__":
    sys.exit(main())
