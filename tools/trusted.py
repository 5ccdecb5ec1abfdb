#!/usr/bin/env python3
"""Counts what a contract rests on: the definitions that one reads to know what it says.

usage: python3 tools/trusted.py [--of CRATE::FUNCTION] [--list] [--words] [--unused] [--duplicates]

It starts from the words of a function's clauses, finds the definitions of specs/ for which they stand,
and goes on with the words of their signatures and bodies until nothing new is found. A constructor
counts for its data type and a field for its record. Without --of the function is life::run_life; where
files of a crate share a function's name, give FILE::FUNCTION, as crates/life/src/run.rt::run_life.
Functions of one name in one file are taken together.

It prints how many files of specs/ and definitions these are, and how many lines: those of signatures,
equations, records and data types, and of the header of a section where something in it counts; no
comments, blank lines or `use` lines. The Rust types that they name, and the traits whose ghost members
the clauses take as data, are counted apart. What is the kit's does not count.

  --list        prints each file too, lowest crate first, with its definitions and lines
  --words       prints each definition too, with its lines
  --unused      prints instead the definitions on which nothing of src/ rests, no clause and no ghost
                member or field, and how many files of proofs/ name each
  --duplicates  prints instead the names that are declared more than once in specs/, constructors among
                them, and those that a Rust type or trait has too, or a function none of whose own
                clauses cites the definition
"""

import argparse
import re
import sys

from clauses import GHOST, HERE as TOP, sources
from reading import WORD, Definition, RustType, Source, Specs, imports

BOUND = re.compile(r"(\w+)\s*:\s*([A-Z]\w*(?:\s*\+\s*[A-Z]\w*)*)")
ITEM = re.compile(r"\b(struct|enum|trait|type|fn)\s+(\w+)")


def place(path):
    return path.relative_to(TOP).as_posix()


def contract(code, of):
    """The file of a function, and the spans of its clauses."""
    where, _, name = of.rpartition("::")
    files = [source for source in code if place(source.path).startswith((f"crates/{where}/src/", where))]
    found = [(source, source.contract(name)) for source in files if source.contract(name)]
    if len(found) != 1:
        sys.exit(f"{of}: {', '.join(place(source.path) for source, _ in found) or 'no file'} has it with clauses")
    return found[0]


def ghost_members(code):
    """The ghost members of each trait, by name: the file, and the span."""
    found = {}
    for source in code:
        for span in source.ghosts:
            for _, _, block in source.around(span[0]):
                if block.group(1) == "trait":
                    trait = WORD.match(block.group(2).strip(" :")).group(0)
                    found.setdefault(trait, {})[GHOST.match(source.text, span[0]).group(1)] = source, span
    return found


def taken_as_data(code, source, spans):
    """The ghost members of bounds that clauses name."""
    members, found = ghost_members(code), {}
    for span in spans:
        for bound, traits in BOUND.findall(source.header(span)):
            for name in re.findall(rf"(?<![\w.]){bound}\.(\w+)", source.text[slice(*span)]):
                for trait in re.split(r"\W+", traits):
                    if name in members.get(trait, {}):
                        found[trait, name] = members[trait][name]
    return found


def show(specs, definitions, options):
    """Prints how many definitions and lines there are, and each by its file."""
    rows, total = [], 0
    for module, path in specs.files.items():
        here = [d for d in specs.found.values() if d in definitions and d.module == module]
        lines = len({line for d in here for line in d.lines + d.section})
        total += lines
        if here and (options.list or options.words):
            rows.append(f"  {len(here):3} definitions {lines:4} lines  {path}")
        if options.words:
            rows += [f"                  {len(d.lines):4} lines    {d.name}" for d in here]
    files = len({d.module for d in definitions})
    print("\n".join([f"{files} files, {len(definitions)} definitions, {total} lines", *rows]))


def trusted(specs, code, options):
    source, spans = contract(code, options.of)
    data = taken_as_data(code, source, spans)
    rests = specs.rests_on([source.part(span) for span in spans] + [other.part(span) for other, span in data.values()])
    types = sorted(found for found in rests if isinstance(found, RustType))
    print(f"The contract of {options.of}, {len(spans)} clauses in {place(source.path)}, rests on")
    show(specs, {found for found in rests if isinstance(found, Definition)}, options)
    rows = [f"{len(types)} Rust types"]
    rows += [f"  {found.name} of crates/{found.crate}/src/{found.file}.rt" for found in types]
    rows += [f"{len({trait for trait, _ in data})} traits, with {len(data)} ghost members"]
    rows += [f"  {trait}.{name} of {place(other.path)}" for (trait, name), (other, _) in sorted(data.items())]
    print("\n".join(row for row in rows if options.list or options.words or row[0] != " "))


def unused(specs, code):
    used = specs.rests_on([source.part(span) for source in code for span in source.clauses + source.ghosts])
    proofs = {}
    for path in TOP.glob("crates/*/proofs/**/*.antt"):
        text = re.sub(r"(?<!\S)--.*", "", path.read_text(encoding="utf-8"))
        scope = imports(text)
        for found in {specs.target(scope, word)[0] for word in WORD.findall(text)}:
            proofs.setdefault(found, []).append(path)
    left = [d for d in specs.found.values() if d not in used]
    print(f"{len(left)} of {len(specs.found)} definitions, {sum(len(d.lines) for d in left)} lines")
    for d in left:
        named = len(proofs.get(d, []))
        print(f"  {d.name} of {specs.files[d.module]}: {len(d.lines)} lines, named in {named} files of proofs/")


def duplicates(specs, code):
    declared, items = {}, {}
    for name, d in [*specs.found.items(), *specs.constructors.items()]:
        declared.setdefault(name.split(".")[-1], []).append(d)
    for source in code:
        for kind, name in ITEM.findall(source.text):
            cited = {found for span in source.contract(name) for found in specs.words(source.part(span))}
            if kind != "fn" or name in declared and not cited & set(declared[name]):
                items.setdefault(name, {})[f"{kind} of {place(source.path)}"] = None
    print("Declared more than once in specs/")
    for name, ds in sorted(declared.items()):
        kinds = [f"{d.kind if d.name == name else 'constructor of ' + d.name} of {specs.files[d.module]}" for d in ds]
        if len(ds) > 1:
            print(f"  {name}: {', '.join(kinds)}")
    print("Declared in specs/, and the name of another thing in src/")
    for name in sorted(set(items) & {d.name for d in specs.found.values()}):
        files = [f"{d.kind} of {specs.files[d.module]}" for d in declared[name] if d.name == name]
        print(f"  {name}: {', '.join(files)}; {', '.join(items[name])}")


def main():
    parser = argparse.ArgumentParser(usage=__doc__.partition("usage: ")[2])
    parser.add_argument("--of", default="life::run_life")
    for option in ("--list", "--words", "--unused", "--duplicates"):
        parser.add_argument(option, action="store_true")
    options = parser.parse_args()
    specs, code = Specs(TOP), [Source(path) for path in sources(TOP)]
    if options.unused:
        unused(specs, code)
    if options.duplicates:
        duplicates(specs, code)
    if not options.unused and not options.duplicates:
        trusted(specs, code, options)


if __name__ == "__main__":
    main()
