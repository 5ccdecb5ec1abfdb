#!/usr/bin/env python3
"""Makes the table of must-fail edits in docs/CHECKING.md from the edits themselves.

usage: python3 tools/edits.py [--write]

Each crates/NAME/must-fail/EDIT.edit begins with two lines of comment:

  # turns: what the edit makes of the code, or of a rule
  # breaks: the promise, or the fact, that does not hold then

Without --write the table of the page is compared with the edits, and the exit status is 1 if they differ.
In either case it is 1 if an edit lacks such a line.
"""

import pathlib
import sys

TOP = pathlib.Path(__file__).resolve().parent.parent
PAGE = TOP / "docs" / "CHECKING.md"
BEGIN, END = "<!-- the table that tools/edits.py makes -->\n", "<!-- its end -->\n"


def crates():
    """The names in crates.txt, in its order."""
    lines = (TOP / "crates.txt").read_text().split("\n")
    return [line.split(":")[0].split()[0] for line in lines if line.split("#")[0].strip()]


def told(edit, word):
    """What an edit's comment says after the word, or None."""
    head = f"# {word}: "
    lines = [line[len(head) :].strip() for line in edit.read_text().split("\n") if line.startswith(head)]
    return lines[0].replace("|", "\\|") if len(lines) == 1 and lines[0] else None


def main(write):
    edits = [edit for crate in crates() for edit in sorted((TOP / "crates" / crate / "must-fail").glob("*.edit"))]
    rows = [(edit, told(edit, "turns"), told(edit, "breaks")) for edit in edits]
    bad = [edit for edit, turns, breaks in rows if not (turns and breaks)]
    for edit in bad:
        print(f"{edit.relative_to(TOP)}: it needs one line '# turns: ..' and one line '# breaks: ..'")
    if bad:
        return 1
    table = "| Edit | What it turns | What is broken |\n|---|---|---|\n" + "".join(
        f"| {edit.parent.parent.name}/{edit.stem} | {turns} | {breaks} |\n" for edit, turns, breaks in rows
    )
    page = PAGE.read_text()
    head, rest = page.split(BEGIN)
    was, tail = rest.split(END)
    if write:
        PAGE.write_text(head + BEGIN + table + END + tail)
    elif was != table:
        print("the table of docs/CHECKING.md is not that of the edits: python3 tools/edits.py --write")
        return 1
    print(f"{len(rows)} edits")
    return 0


if __name__ == "__main__":
    if sys.argv[1:] not in ([], ["--write"]):
        sys.exit(__doc__)
    sys.exit(main(sys.argv[1:] == ["--write"]))
