#!/usr/bin/env python3
"""Counts the places of older forms in the crates' src/, for docs/DESIGN-PASS.md.

usage: tools/forms.py [--list] [COMMIT]      of a commit, or of the files as they stand
"""
import re
import subprocess
import sys
from collections import Counter


def git(*args):
    return subprocess.run(["git", *args], capture_output=True, text=True, check=True).stdout


def files(commit):
    """Each source file of a crate, with its text."""
    if commit:
        names = git("ls-tree", "-r", "--name-only", commit, "crates").split("\n")
    else:
        names = git("ls-files", "crates").split("\n")
    for name in sorted(n for n in names if re.fullmatch(r"crates/\w+/src/\w+\.rt", n)):
        yield name, git("show", f"{commit}:{name}") if commit else open(name).read()


def functions(text):
    """Each function: its line, name, parameters, result and body."""
    for m in re.finditer(r"^(?:pub )?(?:extern \"C\" )?fn (\w+)[^(]*\(", text, re.M):
        end = text.find("\n}\n", m.start())
        whole = text[m.start():end]
        sign, brace, body = whole.partition("\n{\n")
        if not brace:
            sign, _, body = whole.partition(" {\n")
        inside = re.search(r"\((.*?)\)\s*(?:->\s*([^\n{]*))?\s*(?:$|\n| \{)", sign, re.S)
        params = re.findall(r"(\w+):\s*([^,]+)", inside.group(1)) if inside else []
        result = (inside.group(2) or "").strip() if inside else ""
        yield text.count("\n", 0, m.start()) + 1, m.group(1), params, result, body


NOTHING = "Refused|Malformed|Bad|Short|Unknown|Absent|End|None"
LITERAL = r"(?:true|false|\d+|\w+::\w+(?:\(\w+::\w+\))?|Some\([\w:()]+\)|None)"


def own_outcomes(name, text):
    """1: own enums of the shape of Option or Result."""
    for m in re.finditer(r"^(?:pub )?enum (\w+) \{\n(.*?)\n\}", text, re.S | re.M):
        variants = re.findall(r"^    (\w+)", m.group(2), re.M)
        if len(variants) <= 3 and any(re.fullmatch(NOTHING, v) for v in variants):
            yield f"{name}:{text.count(chr(10), 0, m.start()) + 1} enum {m.group(1)}"


def by_hand(name, text):
    """3: loops that count or step by hand."""
    for i, line in enumerate(text.split("\n"), 1):
        if re.match(r"\s*(while|loop)\b|.*= '\w+: loop", line):
            yield f"{name}:{i} {line.strip()}"


def tables(name, text):
    """4: functions that are one match or one run of tests on literals, for a derive or matches!."""
    for line, fn, _, _, body in functions(text):
        arms = re.findall(r"^        (?!//)(\S.*)$", body, re.M)
        match = re.fullmatch(r"    match \w+ \{\n.*\n    \}\n?", body, re.S)
        if match and arms and all(re.fullmatch(rf".* => {LITERAL},", a) for a in arms):
            yield f"{name}:{line} {fn}"
        elif len(re.findall(r"^    if \w+ == \S+ \{\n        return (?:true|false);\n    \}", body, re.M)) > 1:
            yield f"{name}:{line} {fn}"


def counted_buffers(name, text):
    """6: arrays of a fixed length that are used with a length beside them."""
    for m in re.finditer(r"= \[0\w*; \d+\];", text):
        yield f"{name}:{text.count(chr(10), 0, m.start()) + 1} {m.group(0)[2:]}"


def switches(name, text):
    """7: functions that only choose which step to run."""
    for line, fn, _, _, body in functions(text):
        arms = re.findall(r"^        (\S.*=>.*)$", body, re.M)
        if re.match(r"    match \w+ \{\n", body) and arms and all(re.search(r"=> \w+(::\w+)*\(.*\),$", a) for a in arms):
            yield f"{name}:{line} {fn}"


def shape(body):
    """A body with its names, numbers and texts told apart only by where they recur."""
    seen = {}
    words = re.sub(r"//.*", "", body)
    return re.sub(r"b?\"[^\"]*\"|b?'.'|\b[\w]+\b", lambda m: seen.setdefault(m.group(0), f"<{len(seen)}>"), words)


def twins(texts):
    """2: functions of three lines or more that another has the shape of."""
    shapes = {}
    for name, text in texts:
        for line, fn, _, _, body in functions(text):
            if body.count("\n") >= 3:
                shapes.setdefault(shape(body), []).append(f"{name}:{line} {fn}")
    return [" ~ ".join(s) for s in shapes.values() if len(s) > 1]


def travelling(texts):
    """5: three parameters or more that stand together in three functions or more."""
    groups = Counter()
    for _, text in texts:
        for _, _, params, _, _ in functions(text):
            names = [p for p, _ in params]
            for size in (3, 4, 5):
                for i in range(len(names) - size + 1):
                    groups[tuple(names[i:i + size])] += 1
    kept = {g: n for g, n in groups.items() if n >= 3}
    longest = [g for g in kept if not any(h != g and set(g) < set(h) and kept[h] >= kept[g] for h in kept)]
    return [f"{kept[g]} functions: {', '.join(g)}" for g in sorted(longest, key=lambda g: -kept[g])]


def main():
    shown = "--list" in sys.argv
    rest = [a for a in sys.argv[1:] if a != "--list"]
    commit = rest[0] if rest else None
    texts = list(files(commit))
    for count in (own_outcomes, by_hand, tables, counted_buffers, switches):
        places = [p for name, text in texts for p in count(name, text)]
        print(f"{len(places):4}  {count.__doc__}")
        if shown:
            print("".join(f"        {p}\n" for p in places), end="")
    for count in (twins, travelling):
        groups = count(texts)
        print(f"{len(groups):4}  {count.__doc__}")
        if shown:
            print("".join(f"        {g}\n" for g in groups), end="")
    answers = (git("ls-tree", "-r", "--name-only", commit, "crates") if commit else git("ls-files", "crates")).count("/Answers.antt")
    print(f"{answers:4}  8: files of answers to goals that the check does not find itself")


main()
