#!/usr/bin/env python3
"""Writes crates/against_rust/specs/Rows.antt: the lists of a sample of the Rust's calls, with those calls and marks.

    tests/against_rust.py < oracle/sample/calls.txt > crates/against_rust/specs/Rows.antt

A line of the sample is the number of the list's words, of the call words and of the marks, then all of them, in
hexadecimal (oracle/README.md)."""
import sys
import textwrap

HEAD = """-- Design lists with the call words and the marks that the Rust has for them. Written by tests/against_rust.py from the sample in
-- oracle/sample/calls.txt.
use Rattle.std.specs.Prelude.{List, [], ◌∷◌, ℕ}

pub record Row : Type 0 where
  pub list : List ℕ
  pub calls : List ℕ
  pub marks : List ℕ
"""


def field(name, words):
    text = f"{name} = " + " ∷ ".join([str(int(w, 16)) for w in words] + ["[]"]) + ";"
    return textwrap.fill(text, 120, initial_indent="  ", subsequent_indent=" " * 6)


def main():
    names = []
    print(HEAD)
    for number, line in enumerate(sys.stdin, 1):
        words = line.split()
        n, calls, marks = (int(w, 16) for w in words[:3])
        assert len(words) == 3 + n + calls + marks
        body = words[3:]
        names.append(f"row_{number}")
        print(f"abbrev pub row_{number} : Row\nrow_{number} = record {{")
        print(field("list", body[:n]))
        print(field("calls", body[n : n + calls]))
        print(field("marks", body[n + calls :]))
        print("}\n")
    print("abbrev pub rows : List Row")
    print(textwrap.fill("rows = " + " ∷ ".join(names + ["[]"]), 120, subsequent_indent="    "))


main()
