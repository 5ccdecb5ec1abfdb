#!/usr/bin/env python3
"""Prints each clause of a contract that has a line of more than 100 columns.

usage: python3 tools/clauses.py [TOP]    (TOP: the top of a checkout, this one if it is left out)

A clause is the text from `requires` or `ensures` to its closing brace, on one line or on several, in
a file crates/*/src/*.rt; that of a closure counts too. Columns are characters, the indentation among
them. After the clauses come their totals, and the same of ghost members and ghost fields, which are
only counted. The exit status is 1 if a clause has such a line.

tools/trusted.py reads .rt files by what stands here.
"""

import pathlib
import re
import sys

HERE = pathlib.Path(__file__).resolve().parent.parent
COLUMNS = 100
UNREAD = re.compile(r"//[^\n]*|/\*.*?\*/|\"(?:\\.|[^\"\\])*\"|(?<![\w'])'(?:\\.|[^'\\\n])'", re.DOTALL)
CLAUSE = re.compile(r"\b(?:requires|ensures)\b\*?(?:\s+\w+)?\s*(?=\{)")
GHOST = re.compile(r"\bghost\s+(?!use\b)(\w+)\s*[:=]\s*(?=\{)")


def sources(top):
    """The .rt files of the crates."""
    return sorted(top.glob("crates/*/src/**/*.rt"))


def blanked(text):
    """The text with blanks for comments, strings and characters, so that only brackets of code are left."""
    return UNREAD.sub(lambda match: re.sub(r"[^\n]", " ", match.group(0)), text)


def closing(text, start):
    """The end of what the bracket at the place start opens."""
    depth = 0
    for place in range(start, len(text)):
        depth += (text[place] in "([{") - (text[place] in ")]}")
        if depth == 0:
            return place + 1
    raise ValueError(f"a bracket is not closed: {text[start:start + 60]!r}")


def spans(text, heads):
    """From where to where each clause goes, or each ghost member or field, in blanked text."""
    for match in heads.finditer(text):
        end = closing(text, match.end())
        value = re.compile(r"\s*=\s*(?=\{)").match(text, end)
        yield match.start(), closing(text, value.end()) if value else end


def lines_of(text, start, end):
    """The number of the first line of a span, and its lines in full."""
    first = text.count("\n", 0, start)
    return first + 1, text.split("\n")[first : text.count("\n", 0, end) + 1]


def main(top):
    clauses = clauses_over = ghosts = ghosts_over = 0
    for path in sources(top):
        text = path.read_text(encoding="utf-8")
        for span in spans(blanked(text), CLAUSE):
            number, lines = lines_of(text, *span)
            clauses += 1
            if any(len(line) > COLUMNS for line in lines):
                clauses_over += 1
                print(f"{path.relative_to(top)}:{number}: {max(map(len, lines))} columns")
                print("\n".join(lines))
        for span in spans(blanked(text), GHOST):
            ghosts += 1
            ghosts_over += any(len(line) > COLUMNS for line in lines_of(text, *span)[1])
    print(f"{clauses} clauses, {clauses_over} with a line of more than {COLUMNS} columns")
    print(f"{ghosts} ghost members and fields, {ghosts_over} with such a line")
    return 1 if clauses_over else 0


if __name__ == "__main__":
    sys.exit(main(pathlib.Path(sys.argv[1]) if len(sys.argv) > 1 else HERE))
